/* What the floor's connections and topics share. */
#ifndef FLOOR_H
#define FLOOR_H

#include "talk.h"

struct subscription;

/* A connection. `talk` is its first member, so that a talk is its connection. */
struct connection {
    struct talk talk;
    int socket;
    bool is_dirty, is_blocked;
    struct connection *next_dirty;
    struct subscription *subscriptions;
};

/* Something is to be written for this connection. */
void floor_mark(struct connection *connection);

/* Puts the MESSAGEs of this SEND to all who subscribed to its topic. */
void floor_send(struct talk *talk, const struct frame *send);

/* Takes out all of a connection's subscriptions. */
void floor_forget(struct connection *connection);

/* How many milliseconds the floor waits at most for something to come, -1 for any number; and what is done where nothing
 * came in that time. */
int broker_patience(void);
void broker_rest(void);

/* The words before the topics' names on the command line: how many of them there are. */
int broker_words(char **words);

#endif
