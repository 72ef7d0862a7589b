/* The load generator and checker of bench/serve: sends by windows, by the clock or without waiting, on one thread over epoll, and sees
 * that each message comes at each who is to get it, once and in its publisher's order; and whether transactions are whole and
 * all streams in one order. It writes one line, of JSON. Plans are in plan.h.
 *     load port=N process=N [NAME=VALUE..] */
#define _GNU_SOURCE
#include "client.h"
#include "clock.h"
#include "measured.h"
#include "plan.h"
#include "publishers.h"
#include "room.h"
#include "streams.h"

#include <sys/epoll.h>
#include <sys/timerfd.h>
#include <unistd.h>

/* Events taken at once, and the longest wait, in milliseconds. */
enum { EVENTS = 256, WAIT = 50 };

/* A client is read so often at once, and then again once each other one that has something was: the server goes on writing while it is
 * read, so one alone could keep the others waiting. */
enum { READS_AT_ONCE = 4 };

/* By the clock messages are due each millisecond; above this rate, ten times as often. */
enum { HIGH_RATE = 10000, SOON = MILLISECOND / 10 };

static struct plan plan;
static struct client *clients;
static int count_of_clients, poller, timer;

/* Those that may have more to read. */
static struct client **ready;
static int count_of_ready;
static int64_t begun;

/* The client that is this reader. The publishers' come first; with `own` they are the same. */
static struct client *client_of(int reader)
{
    return &clients[plan.own ? reader : plan.publishers + reader];
}

static bool subscribe_all(void)
{
    for (int at = 0; at < count_of_streams; at++) {
        struct client *client = client_of(at / plan.each);
        client->first_stream = at - at % plan.each;
        if (!client_subscribe(client, &plan, at % plan.each, streams[at].topic))
            return false;
    }
    return true;
}

/* Connects all clients and subscribes; whether the server took all of that. */
static bool connect_all(void)
{
    int count = plan.own ? plan.publishers : plan.publishers + plan.readers;
    clients = room_of((size_t)count, sizeof *clients);
    ready = room_of((size_t)count, sizeof *ready);
    while (count_of_clients < count)
        if (!client_connect(&clients[count_of_clients++], &plan))
            return false;
    for (int at = 0; at < plan.publishers; at++) {
        clients[at].publisher = at;
        publishers[at].client = &clients[at];
    }
    return subscribe_all();
}

static void watch(int descriptor, struct client *it)
{
    struct epoll_event event = {.events = EPOLLIN | EPOLLOUT | EPOLLRDHUP | EPOLLET, .data.ptr = it};
    epoll_ctl(poller, EPOLL_CTL_ADD, descriptor, &event);
}

/* Puts what each publisher may send now; it is written once its socket is said to be writable. */
static void fill_all(int64_t now)
{
    for (int at = 0; at < plan.publishers; at++)
        publishers_fill(&plan, at, now);
}

static void start(void)
{
    int64_t step = plan.rate > HIGH_RATE ? SOON : MILLISECOND;
    struct itimerspec every = {.it_interval.tv_nsec = step, .it_value.tv_nsec = step};
    poller = epoll_create1(EPOLL_CLOEXEC);
    for (int at = 0; at < count_of_clients; at++) {
        client_free_run(&clients[at]);
        watch(clients[at].socket, &clients[at]);
    }
    if (plan.rate > 0) {
        timer = timerfd_create(CLOCK_MONOTONIC, TFD_NONBLOCK | TFD_CLOEXEC);
        timerfd_settime(timer, 0, &every, NULL);
        watch(timer, NULL);
    }
    if (plan.burst)
        fill_all(clock_now());
    begun = clock_now();
    measured_begin(&plan, begun);
}

/* The index of a message's subscription at its client; -1 where that is none. */
static int index_of(struct text id)
{
    int index = 0;
    if (!plan.wire->has_ids)
        return 0;
    if (id.size == 0 || id.size > 3)
        return -1;
    for (size_t at = 0; at < id.size; at++)
        index = 10 * index + (id.at[at] - '0');
    return index >= 0 && index < plan.each ? index : -1;
}

/* A message came at a client. */
static void hear_message(struct client *client, const struct heard *heard, int64_t now)
{
    int index = index_of(heard->id), publisher;
    int64_t k;
    enum whose whose = index < 0 ? WHOSE_NONE : publishers_read(&plan, heard->body, &publisher, &k);
    if (whose == WHOSE_NONE)
        faults.changed++;
    else if (whose == WHOSE_ANOTHER)
        measured_hear(now, now);
    else if (streams_hear(&plan, client->first_stream + index, publisher, k))
        measured_hear(publishers_hear(&plan, publisher, k), now);
}

static void hear(struct client *client, const struct heard *heard, int64_t now)
{
    switch (heard->kind) {
    case HEARD_MESSAGE:
        hear_message(client, heard, now);
        break;
    case HEARD_PING:
        plan.wire->put_pong(&client->out);
        client_write(client);
        break;
    case HEARD_NOTHING:
        break;
    case HEARD_ANSWER:
        if (plan.receipts && client->publisher >= 0) {
            publishers[client->publisher].receipts++;
            break;
        }
        /* Nothing was asked for. */
        /* Falls through. */
    default:
        client_fail("it answered ", heard->says);
    }
}

static void hear_all(struct client *client, int64_t now)
{
    struct heard heard;
    while (client_hear(client, &heard))
        hear(client, &heard, now);
}

/* By the clock some messages are due. */
static void tick(int64_t now)
{
    uint64_t count;
    if (read(timer, &count, sizeof count) > 0)
        publishers_tick(&plan, (now - begun) * plan.rate / SECOND);
}

static void attend(struct client *client, uint32_t events)
{
    if (client == NULL) {
        tick(clock_now());
        return;
    }
    if (events & EPOLLOUT) {
        client->may_write = true;
        client_write(client);
    }
    if (events & ~(uint32_t)EPOLLOUT && !client->is_ready) {
        client->is_ready = true;
        ready[count_of_ready++] = client;
    }
}

/* Reads some of what came at a client; whether it may have more. */
static bool read_some(struct client *client)
{
    for (int reads = 0; reads < READS_AT_ONCE; reads++) {
        if (!client_read(client))
            return false;
        hear_all(client, clock_now());
    }
    return true;
}

/* Reads some of what came at each. */
static void read_ready(void)
{
    int kept = 0;
    for (int at = 0; at < count_of_ready; at++) {
        struct client *client = ready[at];
        client->is_ready = read_some(client);
        if (client->is_ready)
            ready[kept++] = client;
    }
    count_of_ready = kept;
}

/* Waits for what comes; the time then. */
static int64_t wait(void)
{
    struct epoll_event events[EVENTS];
    int count = epoll_wait(poller, events, EVENTS, count_of_ready > 0 ? 0 : WAIT);
    for (int at = 0; at < count; at++)
        attend(events[at].data.ptr, events[at].events);
    read_ready();
    return clock_now();
}

static void send_all(int64_t now)
{
    for (int at = 0; at < plan.publishers; at++)
        if (publishers_fill(&plan, at, now))
            client_write(publishers[at].client);
}

/* Whether something is so wrong, or nothing has come for so long, that the run is given up. */
static bool is_given_up(int64_t now)
{
    return client_trouble[0] != 0 || streams_are_lost() || now - measured_last() > (int64_t)plan.patience * MILLISECOND;
}

static void run(void)
{
    int64_t now = begun;
    measured_tick(&plan, now);
    while (!measured_is_over(now) && !is_given_up(now) && !publishers_sent_all(&plan)) {
        send_all(now);
        now = wait();
        measured_tick(&plan, now);
    }
    measured_end(&plan, now);
    while (!publishers_are_done(&plan) && !is_given_up(now))
        now = wait();
}

int main(int count, char **words)
{
    (void)count;
    plan = plan_read(words + 1);
    streams_make(&plan);
    publishers_make(&plan);
    if (connect_all()) {
        start();
        run();
    }
    measured_report(&plan, client_trouble);
    for (int at = 0; at < count_of_clients; at++)
        client_leave(&clients[at]);
    return 0;
}
