/* Times in nanoseconds. */
#ifndef CLOCK_H
#define CLOCK_H

#include <stdint.h>
#include <sys/types.h>

enum { SECOND = 1000000000, MILLISECOND = 1000000 };

/* By the clock, from no given moment. */
int64_t clock_now(void);

/* The processor time that a process has taken so far, all its threads together; -1 where that can't be told. */
int64_t clock_of(pid_t process);

#endif
