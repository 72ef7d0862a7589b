/* What the publishers send. The body of a publisher's k-th message begins with 16 hexadecimal digits: 4 of the publisher's
 * number, 12 of k; the rest is the same in all. */
#ifndef PUBLISHERS_H
#define PUBLISHERS_H

#include "client.h"
#include "plan.h"

struct publisher {
    struct client *client;
    /* How many messages it has sent, and how many of them, from the first, came at all who are to get them. */
    int64_t sent, done;
    /* How many it may have sent by now, where it sends by the clock; how many RECEIPTs it got. */
    int64_t due, receipts;
    /* Of a message that is on its way, by its number mod the window: where it is still to come, and when it was sent. */
    int *left;
    int64_t *times;
    /* Messages that were due while the window was full. */
    int64_t held;
};

extern struct publisher *publishers;

/* Makes all publishers, without their clients. */
void publishers_make(const struct plan *plan);

/* By the clock so many messages are due of each, where the plan has a rate. */
void publishers_tick(const struct plan *plan, int64_t due);

/* Puts all that a publisher may send now to what its client writes; whether that was anything. */
bool publishers_fill(const struct plan *plan, int number, int64_t now);

enum whose { WHOSE_NONE, WHOSE_ANOTHER, WHOSE_OURS };

/* Whether a body is one that a publisher of this run sent, and then which one's, and which; or one of another run beside it. */
enum whose publishers_read(const struct plan *plan, struct text body, int *number, int64_t *k);

/* A message came at one of those who are to get it; when it was sent. */
int64_t publishers_hear(const struct plan *plan, int number, int64_t k);

/* Whether all that were sent came; and whether no more may be sent besides. */
bool publishers_are_done(const struct plan *plan);
bool publishers_sent_all(const struct plan *plan);

#endif
