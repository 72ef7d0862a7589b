#include "plan.h"

#include <stddef.h>
#include <stdio.h>
#include <stdlib.h>
#include <string.h>

static void stop(const char *word)
{
    fprintf(stderr, "load: this can't be done: %s\n", word);
    exit(1);
}

/* The words that are numbers, with the least and the greatest of each, and where it is kept. */
struct number {
    const char *name;
    long least, most;
    size_t place;
};

#define PLACE(field) offsetof(struct plan, field)

static const struct number NUMBERS[] = {
    {"port", 1, 65535, PLACE(port)},
    {"process", 1, 1 << 30, PLACE(process)},
    {"publishers", 1, 256, PLACE(publishers)},
    {"readers", 1, 256, PLACE(readers)},
    {"each", 1, 64, PLACE(each)},
    {"topics", 1, 1024, PLACE(topics)},
    {"first", 0, 1 << 15, PLACE(first)},
    {"size", 16, 1 << 20, PLACE(size)},
    {"window", 1, 1 << 20, PLACE(window)},
    {"sends", 1, 64, PLACE(sends)},
    {"rate", 0, 10000000, PLACE(rate)},
    {"warm", 0, 60000, PLACE(warm)},
    {"measured", 1, 600000, PLACE(measured)},
    {"patience", 1, 60000, PLACE(patience)},
};

/* Keeps a number; whether there is one of this name. */
static bool keep_number(struct plan *plan, const char *word, const char *value)
{
    size_t size = (size_t)(value - word) - 1;
    for (size_t at = 0; at < sizeof NUMBERS / sizeof *NUMBERS; at++) {
        const struct number *it = &NUMBERS[at];
        if (strlen(it->name) != size || memcmp(it->name, word, size) != 0)
            continue;
        char *end;
        long number = strtol(value, &end, 10);
        if (*end != 0 || number < it->least || number > it->most)
            stop(word);
        int kept = (int)number;
        memcpy((char *)plan + it->place, &kept, sizeof kept);
        return true;
    }
    return false;
}

static void keep(struct plan *plan, const char *word)
{
    const char *equals = strchr(word, '=');
    if (strcmp(word, "own") == 0)
        plan->own = true;
    else if (strcmp(word, "whole") == 0)
        plan->whole = true;
    else if (strcmp(word, "burst") == 0)
        plan->burst = true;
    else if (strcmp(word, "unpaced") == 0)
        plan->unpaced = true;
    else if (strcmp(word, "beside") == 0)
        plan->beside = true;
    else if (strcmp(word, "receipts") == 0)
        plan->receipts = true;
    else if (equals != NULL && strncmp(word, "protocol=", 9) == 0)
        plan->wire = wire_find(equals + 1);
    else if (equals != NULL && strncmp(word, "prefix=", 7) == 0)
        plan->prefix = equals + 1;
    else if (equals != NULL && strncmp(word, "most=", 5) == 0)
        plan->most = strtol(equals + 1, NULL, 10);
    else if (equals == NULL || !keep_number(plan, word, equals + 1))
        stop(word);
}

struct plan plan_read(char **words)
{
    struct plan plan = {
        .wire = &WIRE_STOMP, .publishers = 1, .readers = 1, .each = 1, .topics = 1, .size = 16, .window = 32, .sends = 1,
        .warm = 100, .measured = 500, .patience = 20000, .most = 1 << 24, .prefix = "T",
    };
    for (; *words != NULL; words++)
        keep(&plan, *words);
    if (plan.port == 0 || plan.process == 0)
        stop("no port or no process");
    if (plan.most < plan.sends || plan.most > 1 << 24)
        stop("most");
    if (plan.own && (plan.publishers != plan.readers || plan.publishers * plan.each != plan.topics))
        stop("own");
    if (plan.wire == NULL || (plan.each > 1 && !plan.wire->has_ids))
        stop("protocol");
    if ((plan.sends > 1 || plan.receipts) && !plan.wire->has_transactions)
        stop("a protocol without transactions");
    if (plan.window < plan.sends)
        stop("a window below a transaction");
    return plan;
}

void plan_name(const struct plan *plan, int topic, char *name)
{
    snprintf(name, MOST_NAME, "/topic/%s%d", plan->prefix, topic);
}

int plan_topic(const struct plan *plan, int publisher, int64_t k)
{
    return plan->own ? publisher * plan->each + (int)(k % plan->each) : (int)((publisher + k) % plan->topics);
}

int plan_subscribed(const struct plan *plan, int reader, int index)
{
    return (reader * plan->each + index) % plan->topics;
}

int plan_part(const struct plan *plan, int publisher, int64_t transaction, int topic)
{
    int count = 0;
    for (int place = 0; place < plan->sends; place++)
        count += plan_topic(plan, publisher, transaction * plan->sends + place) == topic;
    return count;
}
