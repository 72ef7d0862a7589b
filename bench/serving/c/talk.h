/* What a connection of the floor and of the shape does with frames. */
#ifndef TALK_H
#define TALK_H

#include "frame.h"
#include "octets.h"
#include "transactions.h"

/* What came and what waits to go out. */
struct talk {
    struct octets in, out;
    struct transaction *transactions;
    bool is_leaving;
};

/* Does what the whole frames of `in` ask for. */
void talk_hear(struct talk *talk);

/* Lets go of all that it has. */
void talk_free(struct talk *talk);

/* What the program does with a SEND; those of a transaction come at its COMMIT, one after another. */
void broker_send(struct talk *talk, const struct frame *send);

/* Adds a subscription of this topic. */
void broker_subscribe(struct talk *talk, int topic, struct text id);

/* Takes the talk's subscription of this id out. */
void broker_unsubscribe(struct talk *talk, struct text id);

#endif
