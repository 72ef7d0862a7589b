/* The protocols that the load generator speaks: how each is written, and what is read of it. */
#ifndef WIRE_H
#define WIRE_H

#include "frame.h"
#include "octets.h"

/* The most octets of a topic's name. */
enum { MOST_NAME = 200 };

enum heard_kind {
    /* What wants nothing: an answer to a publisher that asked for none, say. */
    HEARD_NOTHING,
    /* What was asked for was done: the server knows a client, or has subscribed it, or took a SEND. */
    HEARD_ANSWER,
    /* The server asks whether the client is there. */
    HEARD_PING,
    HEARD_MESSAGE,
    /* Anything else; `says` is what it was. */
    HEARD_REFUSAL,
};

/* What was heard, in the octets that it was read from. A protocol whose messages don't say of which subscription they are has no `id`. */
struct heard {
    enum heard_kind kind;
    struct text id, body, says;
};

struct wire {
    const char *name;
    /* Whether a message says of which of a client's subscriptions it is, and whether there are transactions and RECEIPTs. */
    bool has_ids, has_transactions;
    /* What a client says first and last, and what asks for a topic; each is answered, the last by anything. */
    void (*put_hello)(struct octets *out);
    void (*put_goodbye)(struct octets *out);
    void (*put_subscribe)(struct octets *out, int index, const char *topic);
    /* What the server's PING is answered; none where it has none. */
    void (*put_pong)(struct octets *out);
    /* What stands before a body of so many octets: all of it but what STOMP has behind the headers of a transaction, and that. */
    void (*put_front)(struct octets *out, const char *topic, int size);
    void (*put_length)(struct octets *out, int size);
    /* What stands behind a body. */
    struct text behind;
    /* Reads what stands at the start of these octets. How many it takes; 0 where it isn't whole. */
    size_t (*read)(const char *at, size_t size, struct heard *heard);
};

extern const struct wire WIRE_STOMP, WIRE_NATS, WIRE_MQTT, WIRE_REDIS;

/* The protocol of this name; null where there is none. */
const struct wire *wire_find(const char *name);

/* Puts what `printf` would print. */
__attribute__((format(printf, 2, 3))) void wire_print(struct octets *out, const char *form, ...);

/* The first line, without its CR LF, of octets that have a whole one; a null `at` where they haven't. */
struct text wire_line(const char *at, size_t size);

/* The number that these octets spell in digits, up to the first that is none. */
size_t wire_number(const char *at, const char *end);

#endif
