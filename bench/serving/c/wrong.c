/* What makes the floor a wrong server, so that bench/serve is seen to refuse one. It is linked in the place of plain.c, and
 * its command line begins with what it does wrong, now and then:
 *     drops       a SEND isn't given on
 *     doubles     a SEND is given on twice
 *     changes     the last octet of a body is another
 *     reorders    a SEND is given on after the next one of its connection
 *     splits      a SEND of another connection is given on within a transaction
 *     disagrees   one topic gets two transactions in the other order than another topic
 * Transactions are of four SENDs, which go to two topics in turn. */
#include "floor.h"

#include <stdio.h>
#include <stdlib.h>

/* One SEND in so many is wrong, or one transaction. */
enum { SELDOM = 13, SENDS = 4, MOST_HELD = SENDS };

/* How long a SEND is held where nothing else comes, in milliseconds. */
enum { PATIENCE = 20 };

typedef void wrong(struct talk *talk, const struct frame *send);

static wrong *does;
static struct octets held[MOST_HELD];
static int count_held, given_since;
static struct talk *holder, nobody;
static unsigned long count_of_sends;

static bool is_now(void)
{
    return count_of_sends % SELDOM == 0;
}

static void hold(struct talk *talk, const struct frame *send)
{
    const char *end = send->body.at + send->body.size + 1;
    octets_put(&held[count_held], send->command.at, (size_t)(end - send->command.at));
    count_held++;
    holder = talk;
    given_since = 0;
}

/* Gives on what is held. */
void broker_rest(void)
{
    struct frame send;
    for (int at = 0; at < count_held; at++) {
        if (frame_read(held[at].start, octets_size(&held[at]), &send) > 0)
            floor_send(&nobody, &send);
        held[at].from = held[at].to = 0;
    }
    count_held = 0;
}

int broker_patience(void)
{
    return count_held > 0 ? PATIENCE : -1;
}

static void drops(struct talk *talk, const struct frame *send)
{
    if (!is_now())
        floor_send(talk, send);
}

static void doubles(struct talk *talk, const struct frame *send)
{
    floor_send(talk, send);
    if (is_now())
        floor_send(talk, send);
}

static void changes(struct talk *talk, const struct frame *send)
{
    if (is_now() && send->body.size > 0)
        ((char *)send->body.at)[send->body.size - 1] ^= 1;
    floor_send(talk, send);
}

static void reorders(struct talk *talk, const struct frame *send)
{
    if (is_now() && count_held == 0) {
        hold(talk, send);
        return;
    }
    floor_send(talk, send);
    if (holder == talk)
        broker_rest();
}

/* Gives a SEND on, and what is held after so many of other connections; before another one of its own. */
static void give_after(struct talk *talk, const struct frame *send, int others)
{
    if (count_held > 0 && talk == holder)
        broker_rest();
    floor_send(talk, send);
    if (count_held > 0 && ++given_since >= others)
        broker_rest();
}

/* The place of a SEND in its transaction, and whether it is one that is to be wrong. */
static int place(void)
{
    return (int)(count_of_sends % SENDS);
}

static bool is_in_wrong_one(void)
{
    return count_of_sends / SENDS % SELDOM == 0;
}

static void splits(struct talk *talk, const struct frame *send)
{
    if (is_in_wrong_one() && place() >= SENDS / 2 && (count_held == 0 || holder == talk))
        hold(talk, send);
    else
        give_after(talk, send, 1);
}

static void disagrees(struct talk *talk, const struct frame *send)
{
    if (is_in_wrong_one() && place() % 2 == 1 && (count_held == 0 || holder == talk))
        hold(talk, send);
    else if (is_in_wrong_one() && count_held > 0 && holder == talk)
        floor_send(talk, send);
    else
        give_after(talk, send, SENDS);
}

void broker_send(struct talk *talk, const struct frame *send)
{
    does(talk, send);
    count_of_sends++;
}

int broker_words(char **words)
{
    static const struct {
        const char *word;
        wrong *does;
    } wrongs[] = {{"drops", drops},       {"doubles", doubles}, {"changes", changes},
                  {"reorders", reorders}, {"splits", splits},   {"disagrees", disagrees}};
    for (size_t at = 0; words[0] != NULL && at < sizeof wrongs / sizeof *wrongs; at++)
        if (strcmp(words[0], wrongs[at].word) == 0)
            does = wrongs[at].does;
    if (does == NULL) {
        fputs("usage: wrong drops|doubles|changes|reorders|splits|disagrees NAME..\n", stderr);
        exit(1);
    }
    return 1;
}
