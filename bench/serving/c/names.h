/* The topics' names, as they were on the command line. */
#ifndef NAMES_H
#define NAMES_H

#include "frame.h"

enum { MOST_TOPICS = 1024 };

/* Takes the names; says false where there are none or too many. They aren't changed after this, so any thread may look. */
bool names_take(char **words, int count);

/* How many there are. */
int names_count(void);

/* The number of the topic of this name; -1 where there is none. */
int names_find(struct text name);

#endif
