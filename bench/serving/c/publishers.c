#include "publishers.h"

#include "room.h"
#include "streams.h"

#include <stdio.h>

enum { DIGITS = 16, OF_PUBLISHER = 4 };

/* Octets that wait to be written, from which on an unpaced publisher puts no more. */
enum { AHEAD = 1 << 18 };

/* The header line that asks for a RECEIPT. */
#define RECEIPT "receipt:r\n"

struct publisher *publishers;

/* For each topic the front of a SEND to it and how many subscriptions it has; what is between front and body; the body's rest. */
static struct octets *fronts;
static int *subscribers;
static struct octets length_line, filler;

static const char HEX[] = "0123456789abcdef";

static void make_fronts(const struct plan *plan)
{
    char name[MOST_NAME];
    fronts = room_of((size_t)plan->topics, sizeof *fronts);
    subscribers = room_of((size_t)plan->topics, sizeof *subscribers);
    for (int topic = 0; topic < plan->topics; topic++) {
        plan_name(plan, topic, name);
        plan->wire->put_front(&fronts[topic], name, plan->size);
        subscribers[topic] = streams_of(topic);
    }
    plan->wire->put_length(&length_line, plan->size);
    for (int at = DIGITS; at < plan->size; at++)
        octets_put(&filler, &"abcdefghijklmnopqrstuvwxyz"[at % 26], 1);
}

void publishers_make(const struct plan *plan)
{
    make_fronts(plan);
    publishers = room_of((size_t)plan->publishers, sizeof *publishers);
    for (int number = 0; number < plan->publishers; number++) {
        publishers[number].left = room_of((size_t)plan->window, sizeof(int));
        publishers[number].times = room_of((size_t)plan->window, sizeof(int64_t));
    }
}

void publishers_tick(const struct plan *plan, int64_t due)
{
    for (int number = 0; number < plan->publishers; number++) {
        struct publisher *it = &publishers[number];
        it->held += due > it->due && it->sent - it->done == plan->window;
        it->due = due;
    }
}

static void put_hex(char *at, uint64_t number, int digits)
{
    while (digits-- > 0) {
        at[digits] = HEX[number % 16];
        number /= 16;
    }
}

static void put_message(const struct plan *plan, int number, int64_t k)
{
    struct octets *out = &publishers[number].client->out;
    const struct octets *front = &fronts[plan_topic(plan, number, k)];
    char digits[DIGITS], line[40];
    octets_put(out, front->start, octets_size(front));
    if (plan->sends > 1) {
        int size = snprintf(line, sizeof line, "transaction:t%lld\n", (long long)(k / plan->sends));
        octets_put(out, line, (size_t)size);
    }
    if (plan->receipts && plan->sends == 1)
        OCTETS_PUT(out, RECEIPT);
    octets_put(out, length_line.start, octets_size(&length_line));
    put_hex(digits, (uint64_t)(plan->first + number), OF_PUBLISHER);
    put_hex(digits + OF_PUBLISHER, (uint64_t)k, DIGITS - OF_PUBLISHER);
    octets_put(out, digits, DIGITS);
    octets_put(out, filler.start, octets_size(&filler));
    octets_put(out, plan->wire->behind.at, plan->wire->behind.size);
}

/* Puts a BEGIN or a COMMIT, with a header line. */
static void put_bound(struct publisher *it, const char *command, int64_t transaction, const char *more)
{
    char text[80];
    int size = snprintf(text, sizeof text, "%s\ntransaction:t%lld\n%s\n", command, (long long)transaction, more);
    octets_put(&it->client->out, text, (size_t)size + 1);
}

static bool may_send(const struct plan *plan, const struct publisher *it)
{
    int64_t then = it->sent + plan->sends;
    if (plan->unpaced && octets_size(&it->client->out) >= AHEAD)
        return false;
    if (plan->receipts && it->sent > it->receipts * plan->sends)
        return false;
    return then - it->done <= plan->window && then <= plan->most && (plan->rate == 0 || then <= it->due);
}

static void put_transaction(const struct plan *plan, int number, int64_t now)
{
    struct publisher *it = &publishers[number];
    int64_t transaction = it->sent / plan->sends;
    if (plan->sends > 1)
        put_bound(it, "BEGIN", transaction, "");
    for (int place = 0; place < plan->sends; place++) {
        int64_t k = it->sent + place;
        put_message(plan, number, k);
        it->left[k % plan->window] = subscribers[plan_topic(plan, number, k)];
        it->times[k % plan->window] = now;
    }
    if (plan->sends > 1)
        put_bound(it, "COMMIT", transaction, plan->receipts ? RECEIPT : "");
    it->sent += plan->sends;
}

bool publishers_fill(const struct plan *plan, int number, int64_t now)
{
    struct publisher *it = &publishers[number];
    int64_t before = it->sent;
    while (may_send(plan, it))
        put_transaction(plan, number, now);
    return it->sent > before;
}

static bool read_hex(const char *at, int digits, uint64_t *number)
{
    *number = 0;
    for (int digit = 0; digit < digits; digit++) {
        char it = at[digit];
        unsigned value = it >= '0' && it <= '9' ? (unsigned)(it - '0') : it >= 'a' && it <= 'f' ? (unsigned)(it - 'a') + 10 : 16;
        if (value == 16)
            return false;
        *number = 16 * *number + value;
    }
    return true;
}

/* Whether the rest of a body is what it was; without `whole` only its last octet is compared. */
static bool is_filler(const struct plan *plan, const char *at)
{
    size_t size = octets_size(&filler);
    if (size == 0)
        return true;
    return plan->whole ? memcmp(at, filler.start, size) == 0 : at[size - 1] == filler.start[size - 1];
}

/* Whether a publisher of this run has this number as it is written, and has sent this message. */
static bool has_sent(const struct plan *plan, uint64_t publisher, uint64_t message)
{
    uint64_t first = (uint64_t)plan->first, number = publisher - first;
    return publisher >= first && number < (uint64_t)plan->publishers && message < (uint64_t)publishers[number].sent;
}

enum whose publishers_read(const struct plan *plan, struct text body, int *number, int64_t *k)
{
    uint64_t publisher, message, first = (uint64_t)plan->first;
    if (body.size != (size_t)plan->size || !is_filler(plan, body.at + DIGITS))
        return WHOSE_NONE;
    if (!read_hex(body.at, OF_PUBLISHER, &publisher) || !read_hex(body.at + OF_PUBLISHER, DIGITS - OF_PUBLISHER, &message))
        return WHOSE_NONE;
    if (plan->beside && (publisher < first || publisher >= first + (uint64_t)plan->publishers))
        return WHOSE_ANOTHER;
    if (!has_sent(plan, publisher, message))
        return WHOSE_NONE;
    *number = (int)(publisher - first);
    *k = (int64_t)message;
    return WHOSE_OURS;
}

int64_t publishers_hear(const struct plan *plan, int number, int64_t k)
{
    struct publisher *it = &publishers[number];
    int64_t time = it->times[k % plan->window];
    it->left[k % plan->window]--;
    while (it->done < it->sent && it->left[it->done % plan->window] == 0)
        it->done++;
    return time;
}

bool publishers_are_done(const struct plan *plan)
{
    for (int number = 0; number < plan->publishers; number++)
        if (publishers[number].done < publishers[number].sent)
            return false;
    return true;
}

bool publishers_sent_all(const struct plan *plan)
{
    for (int number = 0; number < plan->publishers; number++)
        if (publishers[number].sent + plan->sends <= plan->most)
            return false;
    return publishers_are_done(plan);
}
