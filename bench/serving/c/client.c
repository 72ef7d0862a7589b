#define _GNU_SOURCE
#include "client.h"

#include <arpa/inet.h>
#include <errno.h>
#include <fcntl.h>
#include <netinet/tcp.h>
#include <stdio.h>
#include <sys/socket.h>
#include <sys/time.h>
#include <unistd.h>

/* Octets read at once; seconds that a client waits for an answer. */
enum { READ_SIZE = 1 << 18, WAIT = 20 };

char client_trouble[200];

void client_fail(const char *what, struct text why)
{
    if (client_trouble[0] != 0)
        return;
    size_t size = why.at == NULL ? 0 : why.size < 100 ? why.size : 100;
    snprintf(client_trouble, sizeof client_trouble, "%s%.*s", what, (int)size, size > 0 ? why.at : "");
    for (char *at = client_trouble; *at != 0; at++)
        if (*at < ' ' || *at > '~' || *at == '"' || *at == '\\')
            *at = '.';
}

static void fail(const char *what)
{
    client_fail(what, (struct text){NULL, 0});
}

bool client_hear(struct client *client, struct heard *heard)
{
    struct octets *in = &client->in;
    size_t size = octets_size(in) > 0 ? client->wire->read(in->start + in->from, octets_size(in), heard) : 0;
    in->from += size;
    return size > 0;
}

/* Whether this may come before what was asked for is answered: of another run at once, messages. */
static bool may_precede(const struct plan *plan, enum heard_kind kind)
{
    return kind == HEARD_NOTHING || (plan->beside && kind == HEARD_MESSAGE);
}

/* Waits until what was asked for is answered; false where something else comes, or nothing. */
static bool wait_for_answer(struct client *client, const struct plan *plan)
{
    struct heard heard;
    for (;;) {
        while (client_hear(client, &heard)) {
            if (heard.kind == HEARD_ANSWER)
                return true;
            if (!may_precede(plan, heard.kind)) {
                client_fail("it answered ", heard.says);
                return false;
            }
        }
        ssize_t count = recv(client->socket, octets_room(&client->in, READ_SIZE), READ_SIZE, 0);
        if (count <= 0) {
            fail(count == 0 ? "it closed the connection" : "it didn't answer in time");
            return false;
        }
        client->in.to += (size_t)count;
    }
}

/* Writes what was put, and waits until it is answered. */
static bool ask(struct client *client, const struct plan *plan)
{
    struct octets *out = &client->out;
    while (octets_size(out) > 0) {
        ssize_t count = send(client->socket, out->start + out->from, octets_size(out), MSG_NOSIGNAL);
        if (count <= 0) {
            fail("it took no octets");
            return false;
        }
        out->from += (size_t)count;
    }
    return wait_for_answer(client, plan);
}

bool client_connect(struct client *client, const struct plan *plan)
{
    struct sockaddr_in at = {
        .sin_family = AF_INET, .sin_port = htons((uint16_t)plan->port), .sin_addr.s_addr = htonl(INADDR_LOOPBACK)};
    struct timeval wait = {.tv_sec = WAIT};
    int one = 1;
    client->wire = plan->wire;
    client->socket = socket(AF_INET, SOCK_STREAM | SOCK_CLOEXEC, 0);
    client->publisher = -1;
    setsockopt(client->socket, SOL_SOCKET, SO_RCVTIMEO, &wait, sizeof wait);
    setsockopt(client->socket, SOL_SOCKET, SO_SNDTIMEO, &wait, sizeof wait);
    setsockopt(client->socket, IPPROTO_TCP, TCP_NODELAY, &one, sizeof one);
    if (connect(client->socket, (struct sockaddr *)&at, sizeof at) != 0) {
        fail("it can't be connected to");
        return false;
    }
    client->wire->put_hello(&client->out);
    return ask(client, plan);
}

bool client_subscribe(struct client *client, const struct plan *plan, int index, int topic)
{
    char name[MOST_NAME];
    plan_name(plan, topic, name);
    client->wire->put_subscribe(&client->out, index, name);
    return ask(client, plan);
}

void client_free_run(struct client *client)
{
    fcntl(client->socket, F_SETFL, O_NONBLOCK);
    client->may_write = true;
}

bool client_read(struct client *client)
{
    ssize_t count = recv(client->socket, octets_room(&client->in, READ_SIZE), READ_SIZE, 0);
    if (count > 0) {
        client->in.to += (size_t)count;
        return true;
    }
    if (count == 0 || errno != EAGAIN)
        fail("it ended a connection");
    return false;
}

void client_write(struct client *client)
{
    struct octets *out = &client->out;
    while (client->may_write && octets_size(out) > 0) {
        ssize_t count = send(client->socket, out->start + out->from, octets_size(out), MSG_NOSIGNAL);
        client->may_write = count > 0;
        if (count > 0)
            out->from += (size_t)count;
        else if (errno != EAGAIN)
            fail("it ended a connection");
    }
}

void client_leave(struct client *client)
{
    struct octets *out = &client->out;
    bool is_idle = octets_size(out) == 0;
    char last[4096];
    struct timeval wait = {.tv_sec = 2};
    fcntl(client->socket, F_SETFL, 0);
    setsockopt(client->socket, SOL_SOCKET, SO_RCVTIMEO, &wait, sizeof wait);
    if (is_idle)
        client->wire->put_goodbye(out);
    if (is_idle && send(client->socket, out->start + out->from, octets_size(out), MSG_NOSIGNAL) > 0
        && recv(client->socket, last, sizeof last, 0) > 0)
        shutdown(client->socket, SHUT_WR);
    close(client->socket);
    octets_free(&client->in);
    octets_free(&client->out);
}
