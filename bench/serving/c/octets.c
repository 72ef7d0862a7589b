#include "octets.h"

#include "room.h"

#include <stdlib.h>

/* The least room there is, once there is any. */
enum { LEAST = 16384 };

void octets_grow(struct octets *octets, size_t more)
{
    size_t size = octets_size(octets);
    if (octets->from > 0)
        memmove(octets->start, octets->start + octets->from, size);
    octets->from = 0;
    octets->to = size;
    if (size + more <= octets->room)
        return;
    size_t room = octets->room > 0 ? octets->room : LEAST;
    while (room < size + more)
        room *= 2;
    octets->start = room_grow(octets->start, room);
    octets->room = room;
}

void octets_free(struct octets *octets)
{
    free(octets->start);
    memset(octets, 0, sizeof *octets);
}
