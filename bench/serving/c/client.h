/* A client's connection, as the load generator has it. */
#ifndef CLIENT_H
#define CLIENT_H

#include "octets.h"
#include "plan.h"
#include "wire.h"

struct client {
    const struct wire *wire;
    int socket;
    bool may_write;
    /* Whether it is among those that the load generator reads next. */
    bool is_ready;
    struct octets in, out;
    /* The publisher that it is, -1 for none; the first of its streams. */
    int publisher, first_stream;
};

/* Why the run can't go on: it is kept once, and never lost. Empty where there is nothing. */
extern char client_trouble[200];
void client_fail(const char *what, struct text why);

/* Connects to the plan's server on 127.0.0.1 and waits until it answers; false where that fails. */
bool client_connect(struct client *client, const struct plan *plan);

/* Subscribes to this topic, and waits until the server says that it did; false where that fails. */
bool client_subscribe(struct client *client, const struct plan *plan, int index, int topic);

/* From here on no call waits. */
void client_free_run(struct client *client);

/* Takes the next whole thing that came; false where there is none. It lies where it came until the next read. */
bool client_hear(struct client *client, struct heard *heard);

/* Reads once; false where nothing more is there now, or the connection has ended. */
bool client_read(struct client *client);

/* Writes what waits, as far as it can be. */
void client_write(struct client *client);

/* Says that it goes, waits until the server has heard it, and closes. */
void client_leave(struct client *client);

#endif
