/* The floor's topics: who subscribed to which. */
#include "floor.h"
#include "message.h"
#include "names.h"
#include "room.h"

#include <stdlib.h>

/* It is in the list of its topic and in that of its connection. */
struct subscription {
    struct subscription *next, *next_of_connection;
    struct connection *connection;
    int topic;
    struct octets id;
};

static struct subscription *subscriptions[MOST_TOPICS];
static struct octets spelled;
static uint64_t number;

void floor_send(struct talk *talk, const struct frame *send)
{
    int topic = names_find(send->destination);
    if (topic < 0) {
        talk->is_leaving = true;
        return;
    }
    spelled.from = spelled.to = 0;
    char *start = octets_room(&spelled, message_room(send));
    size_t size = (size_t)(message_spell(start, send, ++number) - start);
    for (struct subscription *it = subscriptions[topic]; it != NULL; it = it->next) {
        struct octets *out = &it->connection->talk.out;
        OCTETS_PUT(out, MESSAGE_START);
        octets_put(out, it->id.start, octets_size(&it->id));
        octets_put(out, start, size);
        floor_mark(it->connection);
    }
}

void broker_subscribe(struct talk *talk, int topic, struct text id)
{
    struct connection *connection = (struct connection *)talk;
    struct subscription *it = room_of(1, sizeof *it);
    octets_put(&it->id, id.at, id.size);
    it->connection = connection;
    it->topic = topic;
    it->next = subscriptions[topic];
    subscriptions[topic] = it;
    it->next_of_connection = connection->subscriptions;
    connection->subscriptions = it;
}

/* Takes the first subscription of this list of a connection out, and lets go of it. */
static void end(struct subscription **first)
{
    struct subscription *it = *first, **place = &subscriptions[it->topic];
    while (*place != it)
        place = &(*place)->next;
    *place = it->next;
    *first = it->next_of_connection;
    octets_free(&it->id);
    free(it);
}

void broker_unsubscribe(struct talk *talk, struct text id)
{
    struct subscription **it = &((struct connection *)talk)->subscriptions;
    while (*it != NULL && !text_is(id, (*it)->id.start, octets_size(&(*it)->id)))
        it = &(*it)->next_of_connection;
    if (*it != NULL)
        end(it);
}

void floor_forget(struct connection *connection)
{
    while (connection->subscriptions != NULL)
        end(&connection->subscriptions);
}
