#include "transactions.h"

#include "room.h"

#include <stdlib.h>

struct transaction *transactions_find(struct transaction *first, struct text name)
{
    for (struct transaction *it = first; it != NULL; it = it->next)
        if (text_is(name, it->name.start, octets_size(&it->name)))
            return it;
    return NULL;
}

void transactions_begin(struct transaction **first, struct text name)
{
    struct transaction *it = room_of(1, sizeof *it);
    octets_put(&it->name, name.at, name.size);
    it->next = *first;
    *first = it;
}

void transactions_end(struct transaction **first, struct transaction *it)
{
    while (*first != it)
        first = &(*first)->next;
    *first = it->next;
}

void transaction_free(struct transaction *it)
{
    octets_free(&it->name);
    octets_free(&it->sends);
    free(it);
}
