/* The floor of bench/serve: the plainest relay of STOMP there can be. One thread over epoll gives each SEND to all who
 * subscribed to its topic, a transaction's at its COMMIT; its order is that of its one thread. It checks nothing, and lets what waits for
 * a connection grow.
 *     floor NAME..     serves topics of these names, on 127.0.0.1, at a port that the system chooses */
#define _GNU_SOURCE
#include "floor.h"

#include "listening.h"
#include "names.h"
#include "room.h"

#include <errno.h>
#include <stdio.h>
#include <stdlib.h>
#include <sys/epoll.h>
#include <sys/socket.h>
#include <unistd.h>

/* Octets read at once, and events taken at once. */
enum { READ_SIZE = 65536, EVENTS = 256 };

static struct connection *dirty;
static int poller;

void floor_mark(struct connection *connection)
{
    if (connection->is_dirty)
        return;
    connection->is_dirty = true;
    connection->next_dirty = dirty;
    dirty = connection;
}

static void watch(struct connection *connection, int how, uint32_t events)
{
    struct epoll_event event = {.events = events, .data.ptr = connection};
    epoll_ctl(poller, how, connection->socket, &event);
}

static void enter(int listener)
{
    int it = accept_next(listener);
    if (it < 0)
        return;
    struct connection *connection = room_of(1, sizeof *connection);
    connection->socket = it;
    watch(connection, EPOLL_CTL_ADD, EPOLLIN);
}

/* Its socket isn't watched any longer; it is closed once nothing of this round can name it. */
static void leave(struct connection *connection)
{
    floor_forget(connection);
    close(connection->socket);
    connection->socket = -1;
    floor_mark(connection);
}

static void hear(struct connection *connection)
{
    struct octets *in = &connection->talk.in;
    char *room = octets_room(in, READ_SIZE);
    ssize_t count = recv(connection->socket, room, READ_SIZE, 0);
    if (count > 0) {
        in->to += (size_t)count;
        talk_hear(&connection->talk);
        floor_mark(connection);
    } else if (count == 0 || errno != EAGAIN) {
        leave(connection);
    }
}

/* Writes what waits for a connection. It leaves where it is leaving and all is out, or where a write failed. */
static void flush(struct connection *connection)
{
    struct octets *out = &connection->talk.out;
    size_t size = octets_size(out);
    ssize_t count = size > 0 ? send(connection->socket, out->start + out->from, size, MSG_NOSIGNAL) : 0;
    if (count >= 0)
        out->from += (size_t)count;
    else if (errno != EAGAIN)
        leave(connection);
    bool is_blocked = octets_size(out) > 0;
    if (connection->socket >= 0 && connection->is_blocked != is_blocked)
        watch(connection, EPOLL_CTL_MOD, is_blocked ? EPOLLIN | EPOLLOUT : EPOLLIN);
    connection->is_blocked = is_blocked;
    if (connection->socket >= 0 && connection->talk.is_leaving && !is_blocked)
        leave(connection);
}

/* Flushes all for whom there is something, and lets go of those that left. */
static void flush_all(void)
{
    while (dirty != NULL) {
        struct connection *connection = dirty;
        dirty = connection->next_dirty;
        if (connection->socket >= 0)
            flush(connection);
        connection->is_dirty = false;
        if (connection->socket < 0) {
            talk_free(&connection->talk);
            free(connection);
        }
    }
}

static void turn(int listener)
{
    struct epoll_event events[EVENTS];
    int count = epoll_wait(poller, events, EVENTS, broker_patience());
    if (count == 0)
        broker_rest();
    for (int at = 0; at < count; at++) {
        struct connection *connection = events[at].data.ptr;
        if (connection == NULL)
            enter(listener);
        else if (events[at].events & (EPOLLIN | EPOLLHUP | EPOLLERR))
            hear(connection);
        else
            floor_mark(connection);
    }
    flush_all();
}

int main(int count, char **words)
{
    int skipped = 1 + broker_words(words + 1);
    if (!names_take(words + skipped, count - skipped)) {
        fputs("usage: floor NAME..\n", stderr);
        return 1;
    }
    int listener = listen_here();
    struct epoll_event event = {.events = EPOLLIN, .data.ptr = NULL};
    poller = epoll_create1(EPOLL_CLOEXEC);
    epoll_ctl(poller, EPOLL_CTL_ADD, listener, &event);
    for (;;)
        turn(listener);
}
