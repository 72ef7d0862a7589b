#include "bell.h"

#include <stdatomic.h>
#include <stdint.h>
#include <sys/eventfd.h>
#include <unistd.h>

enum { AWAKE, TOLD, ASLEEP };

bool bell_make(struct bell *bell)
{
    atomic_init(&bell->state, AWAKE);
    bell->descriptor = eventfd(0, EFD_NONBLOCK | EFD_CLOEXEC);
    return bell->descriptor >= 0;
}

bool bell_is_told(struct bell *bell)
{
    return atomic_load(&bell->state) == TOLD;
}

void bell_ring(struct bell *bell)
{
    uint64_t one = 1;
    if (!bell_is_told(bell) && atomic_exchange(&bell->state, TOLD) == ASLEEP && write(bell->descriptor, &one, sizeof one) < 0)
        return;
}

void bell_hear(struct bell *bell)
{
    if (atomic_load(&bell->state) != AWAKE)
        atomic_exchange(&bell->state, AWAKE);
}

bool bell_sleeps(struct bell *bell)
{
    int awake = AWAKE;
    return atomic_compare_exchange_strong(&bell->state, &awake, ASLEEP);
}
