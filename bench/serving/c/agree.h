/* Whether all streams are in one order. */
#ifndef AGREE_H
#define AGREE_H

#include "streams.h"

/* How many streams can't be put into one order with those before them that could: 0 where there is one list of transactions
 * in which each stream's stand in its order. Publishers had sent so many messages. */
int agree_count(const struct plan *plan, const int64_t *sent);

#endif
