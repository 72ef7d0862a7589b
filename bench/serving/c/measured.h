/* What a run measured, and the line that says so. */
#ifndef MEASURED_H
#define MEASURED_H

#include "plan.h"

/* The run begins now: it is measured once its warm time is over. */
void measured_begin(const struct plan *plan, int64_t now);

/* A message that was sent then came now. */
void measured_hear(int64_t sent, int64_t now);

/* The time is now: what is measured begins, if it is time. */
void measured_tick(const struct plan *plan, int64_t now);

/* Whether the measured time is over. */
bool measured_is_over(int64_t now);

/* What is measured ends now. */
void measured_end(const struct plan *plan, int64_t now);

/* When the last message came; when the run began, where none did. */
int64_t measured_last(void);

/* Writes all of it, with what was wrong, as one line of JSON. */
void measured_report(const struct plan *plan, const char *trouble);

#endif
