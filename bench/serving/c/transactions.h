/* A connection's open transactions: the octets of their SENDs. */
#ifndef TRANSACTIONS_H
#define TRANSACTIONS_H

#include "frame.h"
#include "octets.h"

struct transaction {
    struct transaction *next;
    struct octets name, sends;
};

/* The open transaction of this name; null where there is none. */
struct transaction *transactions_find(struct transaction *first, struct text name);

void transactions_begin(struct transaction **first, struct text name);

/* Takes it out of the list. */
void transactions_end(struct transaction **first, struct transaction *it);

/* Lets go of one that is in no list. */
void transaction_free(struct transaction *it);

#endif
