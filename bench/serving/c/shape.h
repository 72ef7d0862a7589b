/* What the shape's threads share. */
#ifndef SHAPE_H
#define SHAPE_H

#include "bell.h"
#include "names.h"
#include "talk.h"

#include <pthread.h>
#include <stdint.h>

/* Items that wait for a subscription at most, and subscriptions of a connection. */
enum { CAPACITY = 64, MOST_SUBSCRIPTIONS = 64 };

/* What follows the subscription's id in a MESSAGE, for all of its subscriptions. */
struct message {
    _Atomic int owners;
    size_t size;
    char text[];
};

/* A subscription: its topic's head puts messages into the ring, its connection takes them out. */
struct subscription {
    struct subscription *next;
    struct bell *bell;
    int topic;
    struct octets id;
    _Atomic unsigned put, taken;
    struct message *ring[CAPACITY];
};

/* A connection. `talk` is its first member, so that a talk is its connection. */
struct connection {
    struct talk talk;
    struct bell bell;
    int socket, poller;
    bool may_read, may_write, is_hung_up, is_closed;
    int count;
    struct subscription *subscriptions[MOST_SUBSCRIPTIONS];
    /* The topics to which something was sent since the heads were last told, by a bit each. */
    uint64_t marks[MOST_TOPICS / 64];
    bool is_marked;
};

void message_let_go(struct message *message);

/* Makes the topics, and starts the threads that turn them. */
void topics_start(void);

/* Adds a message to what a topic has pending. */
void topic_add(int topic, struct message *message);

void topic_subscribe(struct subscription *it);
void topic_unsubscribe(struct subscription *it);

/* Tells the topic's head that something is pending, unless it was told and hasn't turned it since. */
void topic_tell(int topic);

/* From a connection's first octet to its last; the thread's function. */
void *converse(void *connection);

#endif
