#include "room.h"

#include <stdio.h>
#include <stdlib.h>

_Noreturn void room_end(void)
{
    fputs("no memory\n", stderr);
    exit(4);
}

void *room_of(size_t count, size_t size)
{
    void *room = calloc(count > 0 ? count : 1, size);
    if (room == NULL)
        room_end();
    return room;
}

void *room_grow(void *room, size_t size)
{
    room = realloc(room, size);
    if (room == NULL)
        room_end();
    return room;
}
