/* Octets that are put at the end and taken from the front. */
#ifndef OCTETS_H
#define OCTETS_H

#include <stddef.h>
#include <string.h>

/* What waits is from `from` to `to`, in a room that grows. All zero: nothing waits. */
struct octets {
    char *start;
    size_t from, to, room;
};

/* Makes room for so many more. Ends the program where there is no memory. */
void octets_grow(struct octets *octets, size_t more);

void octets_free(struct octets *octets);

static inline size_t octets_size(const struct octets *octets)
{
    return octets->to - octets->from;
}

/* Room for so many more, at whose start the next octets are to be put. */
static inline char *octets_room(struct octets *octets, size_t more)
{
    if (octets->from == octets->to)
        octets->from = octets->to = 0;
    if (octets->to + more > octets->room)
        octets_grow(octets, more);
    return octets->start + octets->to;
}

static inline void octets_put(struct octets *octets, const void *from, size_t size)
{
    memcpy(octets_room(octets, size), from, size);
    octets->to += size;
}

#define OCTETS_PUT(octets, text) octets_put(octets, text, sizeof text - 1)

#endif
