/* Memory, or the program's end with status 4. */
#ifndef ROOM_H
#define ROOM_H

#include <stddef.h>

/* Zeros, for so many values of this size. */
void *room_of(size_t count, size_t size);

/* The same with another size in octets; what is new is anything. */
void *room_grow(void *room, size_t size);

/* Says that there is none, and ends the program. */
_Noreturn void room_end(void);

#endif
