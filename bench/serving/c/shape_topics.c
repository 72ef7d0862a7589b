/* The shape's topics: what is pending behind a lock, and the two heads that put it into the subscriptions' rings. */
#include "room.h"
#include "shape.h"

#include <stdatomic.h>
#include <stdio.h>
#include <stdlib.h>

enum { HEADS = 2 };

struct topic {
    pthread_mutex_t lock;
    struct message **pending;
    size_t count, room;
    struct subscription *subscriptions;
    _Atomic bool is_due;
};

/* A thread that turns topics: those that are due wait in a ring, each at most once. Topic t is that of head t mod 2. */
struct head {
    pthread_mutex_t lock;
    pthread_cond_t told;
    int due[MOST_TOPICS];
    unsigned put, taken;
};

static struct topic topics[MOST_TOPICS];
static struct head heads[HEADS];

void message_let_go(struct message *message)
{
    if (atomic_fetch_sub(&message->owners, 1) == 1)
        free(message);
}

void topic_add(int number, struct message *message)
{
    struct topic *topic = &topics[number];
    pthread_mutex_lock(&topic->lock);
    if (topic->count == topic->room) {
        topic->room = topic->room > 0 ? 2 * topic->room : 64;
        topic->pending = room_grow(topic->pending, topic->room * sizeof *topic->pending);
    }
    topic->pending[topic->count++] = message;
    pthread_mutex_unlock(&topic->lock);
}

/* Gives a message to each subscription of a topic whose ring isn't full. */
static void give(struct topic *topic, struct message *message)
{
    for (struct subscription *it = topic->subscriptions; it != NULL; it = it->next) {
        unsigned put = atomic_load(&it->put);
        if (put - atomic_load(&it->taken) == CAPACITY)
            continue;
        atomic_fetch_add(&message->owners, 1);
        it->ring[put % CAPACITY] = message;
        atomic_store(&it->put, put + 1);
    }
    message_let_go(message);
}

static void turn(struct topic *topic)
{
    atomic_store(&topic->is_due, false);
    pthread_mutex_lock(&topic->lock);
    size_t count = topic->count;
    for (size_t at = 0; at < count; at++)
        give(topic, topic->pending[at]);
    topic->count = 0;
    for (struct subscription *it = topic->subscriptions; count > 0 && it != NULL; it = it->next)
        bell_ring(it->bell);
    pthread_mutex_unlock(&topic->lock);
}

static int next_due(struct head *head)
{
    pthread_mutex_lock(&head->lock);
    while (head->put == head->taken)
        pthread_cond_wait(&head->told, &head->lock);
    int topic = head->due[head->taken++ % MOST_TOPICS];
    pthread_mutex_unlock(&head->lock);
    return topic;
}

static void *turn_all(void *head)
{
    for (;;)
        turn(&topics[next_due(head)]);
    return NULL;
}

void topic_tell(int topic)
{
    struct head *head = &heads[topic % HEADS];
    if (atomic_exchange(&topics[topic].is_due, true))
        return;
    pthread_mutex_lock(&head->lock);
    head->due[head->put++ % MOST_TOPICS] = topic;
    pthread_mutex_unlock(&head->lock);
    pthread_cond_signal(&head->told);
}

void topic_subscribe(struct subscription *it)
{
    struct topic *topic = &topics[it->topic];
    pthread_mutex_lock(&topic->lock);
    it->next = topic->subscriptions;
    topic->subscriptions = it;
    pthread_mutex_unlock(&topic->lock);
}

void topic_unsubscribe(struct subscription *it)
{
    struct topic *topic = &topics[it->topic];
    pthread_mutex_lock(&topic->lock);
    struct subscription **place = &topic->subscriptions;
    while (*place != it)
        place = &(*place)->next;
    *place = it->next;
    pthread_mutex_unlock(&topic->lock);
}

void topics_start(void)
{
    pthread_t thread;
    for (int topic = 0; topic < names_count(); topic++)
        pthread_mutex_init(&topics[topic].lock, NULL);
    for (int head = 0; head < HEADS; head++) {
        pthread_mutex_init(&heads[head].lock, NULL);
        pthread_cond_init(&heads[head].told, NULL);
        if (pthread_create(&thread, NULL, turn_all, &heads[head]) != 0) {
            fputs("no thread\n", stderr);
            exit(4);
        }
    }
}
