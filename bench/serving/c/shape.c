/* The shape of bench/serve: the threads of stompd with the least work. A thread for each connection, over an epoll and an
 * eventfd of its own, reads at most 4,096 octets at once; two more threads move what is pending at a topic into rings of 64
 * places and ring bells. A message is spelled once. No order, no stamps, no checks; what finds a ring full is dropped.
 *     shape NAME..     serves topics of these names, on 127.0.0.1, at a port that the system chooses */
#define _GNU_SOURCE
#include "shape.h"

#include "listening.h"
#include "room.h"

#include <stdio.h>
#include <sys/epoll.h>
#include <unistd.h>

static bool watch(int poller, int descriptor, uint32_t events, void *it)
{
    struct epoll_event event = {.events = events | EPOLLET, .data.ptr = it};
    return epoll_ctl(poller, EPOLL_CTL_ADD, descriptor, &event) == 0;
}

/* Starts a thread for this socket; whether there is all that it needs. */
static bool start(struct connection *connection)
{
    pthread_t thread;
    connection->may_write = true;
    connection->poller = epoll_create1(EPOLL_CLOEXEC);
    if (connection->poller < 0 || !bell_make(&connection->bell))
        return false;
    if (!watch(connection->poller, connection->socket, EPOLLIN | EPOLLOUT | EPOLLRDHUP, connection)
        || !watch(connection->poller, connection->bell.descriptor, EPOLLIN, NULL))
        return false;
    if (pthread_create(&thread, NULL, converse, connection) != 0)
        return false;
    pthread_detach(thread);
    return true;
}

int main(int count, char **words)
{
    if (!names_take(words + 1, count - 1)) {
        fputs("usage: shape NAME..\n", stderr);
        return 1;
    }
    int listener = listen_here();
    topics_start();
    for (;;) {
        int it = accept_next(listener);
        if (it < 0)
            continue;
        struct connection *connection = room_of(1, sizeof *connection);
        connection->socket = it;
        if (!start(connection)) {
            fputs("a connection can't be started\n", stderr);
            return 5;
        }
    }
}
