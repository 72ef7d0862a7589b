/* The MESSAGE of a SEND. */
#ifndef MESSAGE_H
#define MESSAGE_H

#include "frame.h"

#include <stdint.h>

/* What stands before the id of a MESSAGE's subscription. */
#define MESSAGE_START "MESSAGE\nsubscription:"

/* The most octets that `message_spell` writes of this SEND. */
size_t message_room(const struct frame *send);

/* Writes what follows the subscription's id in a MESSAGE; returns its end. */
char *message_spell(char *at, const struct frame *send, uint64_t number);

#endif
