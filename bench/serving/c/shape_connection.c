/* The thread of one connection of the shape. */
#include "message.h"
#include "room.h"
#include "shape.h"

#include <errno.h>
#include <stdatomic.h>
#include <stdlib.h>
#include <sys/epoll.h>
#include <sys/socket.h>
#include <unistd.h>

/* Octets read at once, and reads one after another; no further item is taken once so many octets wait to go out. */
enum { READ_SIZE = 16384, MOST_READS = 16, FULL = 65536, EVENTS = 8 };

static _Atomic uint64_t number;

void broker_send(struct talk *talk, const struct frame *send)
{
    struct connection *connection = (struct connection *)talk;
    int topic = names_find(send->destination);
    if (topic < 0) {
        talk->is_leaving = true;
        return;
    }
    struct message *message = malloc(sizeof *message + message_room(send));
    if (message == NULL)
        room_end();
    atomic_init(&message->owners, 1);
    message->size = (size_t)(message_spell(message->text, send, atomic_fetch_add(&number, 1)) - message->text);
    topic_add(topic, message);
    connection->marks[topic / 64] |= (uint64_t)1 << topic % 64;
    connection->is_marked = true;
}

void broker_subscribe(struct talk *talk, int topic, struct text id)
{
    struct connection *connection = (struct connection *)talk;
    if (connection->count == MOST_SUBSCRIPTIONS) {
        talk->is_leaving = true;
        return;
    }
    struct subscription *it = room_of(1, sizeof *it);
    octets_put(&it->id, id.at, id.size);
    it->bell = &connection->bell;
    it->topic = topic;
    connection->subscriptions[connection->count++] = it;
    topic_subscribe(it);
}

/* Ends the subscription at this index, and lets go of it. */
static void end(struct connection *connection, int index)
{
    struct subscription *it = connection->subscriptions[index];
    topic_unsubscribe(it);
    for (unsigned at = atomic_load(&it->taken); at != atomic_load(&it->put); at++)
        message_let_go(it->ring[at % CAPACITY]);
    connection->subscriptions[index] = connection->subscriptions[--connection->count];
    octets_free(&it->id);
    free(it);
}

void broker_unsubscribe(struct talk *talk, struct text id)
{
    struct connection *connection = (struct connection *)talk;
    for (int at = 0; at < connection->count; at++) {
        struct octets *its = &connection->subscriptions[at]->id;
        if (text_is(id, its->start, octets_size(its))) {
            end(connection, at);
            return;
        }
    }
}

/* Puts what a subscription's ring has to what goes out, while there isn't too much; whether there was something. */
static bool take(struct octets *out, struct subscription *it)
{
    unsigned taken = atomic_load(&it->taken), first = taken;
    while (octets_size(out) < FULL && taken != atomic_load(&it->put)) {
        struct message *message = it->ring[taken % CAPACITY];
        OCTETS_PUT(out, MESSAGE_START);
        octets_put(out, it->id.start, octets_size(&it->id));
        octets_put(out, message->text, message->size);
        message_let_go(message);
        atomic_store(&it->taken, ++taken);
    }
    return taken != first;
}

static bool take_all(struct connection *connection)
{
    bool is_busy = false;
    bell_hear(&connection->bell);
    for (int at = 0; at < connection->count; at++)
        is_busy |= take(&connection->talk.out, connection->subscriptions[at]);
    return is_busy;
}

/* Writes once; whether something went out. */
static bool write_some(struct connection *connection)
{
    struct octets *out = &connection->talk.out;
    size_t size = octets_size(out);
    if (size == 0 || !connection->may_write)
        return false;
    ssize_t count = send(connection->socket, out->start + out->from, size, MSG_NOSIGNAL);
    if (count < 0) {
        connection->may_write = false;
        connection->is_closed |= errno != EAGAIN;
        return false;
    }
    connection->may_write = (size_t)count == size;
    out->from += (size_t)count;
    return true;
}

static void tell_heads(struct connection *connection)
{
    if (!connection->is_marked)
        return;
    for (int at = 0; at < MOST_TOPICS / 64; at++)
        for (uint64_t marks = connection->marks[at]; marks != 0; marks &= marks - 1)
            topic_tell(64 * at + __builtin_ctzll(marks));
    memset(connection->marks, 0, sizeof connection->marks);
    connection->is_marked = false;
}

/* Reads once, and does what that asks for; whether something came. Where fewer octets came than there was room for there are no
 * more, unless the peer has hung up: its end may have come with them. */
static bool read_some(struct connection *connection)
{
    struct octets *in = &connection->talk.in;
    if (!connection->may_read)
        return false;
    ssize_t count = recv(connection->socket, octets_room(in, READ_SIZE), READ_SIZE, 0);
    if (count <= 0) {
        connection->may_read = false;
        connection->is_closed |= count == 0 || errno != EAGAIN;
        return false;
    }
    connection->may_read = count == READ_SIZE || connection->is_hung_up;
    in->to += (size_t)count;
    talk_hear(&connection->talk);
    return true;
}

/* Reads while something comes, so often at most and until the bell rings, and then tells the heads; whether something came. */
static bool hear(struct connection *connection)
{
    bool is_busy = false;
    for (int reads = 0; reads < MOST_READS && read_some(connection); reads++) {
        is_busy = true;
        if (bell_is_told(&connection->bell))
            break;
    }
    tell_heads(connection);
    return is_busy;
}

/* Waits for the socket or the bell. */
static void wait(struct connection *connection)
{
    struct epoll_event events[EVENTS];
    int count = epoll_wait(connection->poller, events, EVENTS, -1);
    for (int at = 0; at < count; at++) {
        if (events[at].data.ptr == NULL)
            continue;
        connection->may_read |= (events[at].events & ~(uint32_t)EPOLLOUT) != 0;
        connection->may_write |= (events[at].events & EPOLLOUT) != 0;
        connection->is_hung_up |= (events[at].events & (EPOLLRDHUP | EPOLLHUP | EPOLLERR)) != 0;
    }
}

static bool is_over(const struct connection *connection)
{
    return connection->is_closed || (connection->talk.is_leaving && octets_size(&connection->talk.out) == 0);
}

void *converse(void *it)
{
    struct connection *connection = it;
    while (!is_over(connection)) {
        bool is_busy = take_all(connection);
        is_busy |= write_some(connection);
        is_busy |= hear(connection);
        if (!is_busy && !is_over(connection) && bell_sleeps(&connection->bell))
            wait(connection);
    }
    while (connection->count > 0)
        end(connection, 0);
    talk_free(&connection->talk);
    close(connection->socket);
    close(connection->poller);
    close(connection->bell.descriptor);
    free(connection);
    return NULL;
}
