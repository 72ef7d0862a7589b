/* What a connection's thread is told by that there is something for it. */
#ifndef BELL_H
#define BELL_H

#include <stdbool.h>

/* `state` is one of awake, told and asleep; `descriptor` is an eventfd that ends the thread's wait. */
struct bell {
    _Atomic int state;
    int descriptor;
};

bool bell_make(struct bell *bell);

/* Whether the thread was told since it looked last. */
bool bell_is_told(struct bell *bell);

/* Tells the thread; the system is called only where it sleeps. */
void bell_ring(struct bell *bell);

/* The thread looks for what there is after this. */
void bell_hear(struct bell *bell);

/* The thread is about to wait. Whether it may: it wasn't told anything since it looked. */
bool bell_sleeps(struct bell *bell);

#endif
