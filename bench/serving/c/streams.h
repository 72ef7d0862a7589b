/* What comes at each subscription, and whether it is what was sent. A stream is what one subscription gets. */
#ifndef STREAMS_H
#define STREAMS_H

#include "plan.h"

#include <stddef.h>

/* A transaction, or a SEND without one: the t-th of a publisher. */
struct sent {
    int publisher;
    int64_t transaction;
};

struct stream {
    int topic;
    /* The message of each publisher that is due next; all before it that are of this topic came, or are missing. */
    int64_t *due;
    /* The transaction that came last, and how many of its messages are still to come. */
    struct sent open;
    int left;
    /* Which transactions came, in their order, where it is kept. */
    struct sent *order;
    size_t count, room;
};

/* What was wrong. `split` counts, in each stream, the transactions between whose messages another one's came. */
struct faults {
    int64_t lost, doubled, changed, reordered, split;
};

extern struct stream *streams;
extern int count_of_streams;
extern struct faults faults;

/* Makes the streams of all readers, in their order. */
void streams_make(const struct plan *plan);

/* How many subscriptions a topic has. */
int streams_of(int topic);

/* The k-th message of a publisher came in a stream. Whether it is one that was due, or was missing. */
bool streams_hear(const struct plan *plan, int stream, int publisher, int64_t k);

/* Nothing more comes: each publisher had sent so many. Counts what was lost. */
void streams_end(const struct plan *plan, const int64_t *sent);

/* Whether so much is missing that the run can be given up. */
bool streams_are_lost(void);

#endif
