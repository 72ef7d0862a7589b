/* STOMP 1.2, as stompd, the floor, the shape, RabbitMQ and ActiveMQ have it. */
#include "wire.h"

#define WITH_NULL(text) text, sizeof text

/* RabbitMQ wants a login and its virtual host; the others take no notice. */
static void put_hello(struct octets *out)
{
    octets_put(out, WITH_NULL("CONNECT\naccept-version:1.2\nhost:/\nlogin:guest\npasscode:guest\nheart-beat:0,0\n\n"));
}

static void put_goodbye(struct octets *out)
{
    octets_put(out, WITH_NULL("DISCONNECT\nreceipt:bye\n\n"));
}

static void put_subscribe(struct octets *out, int index, const char *topic)
{
    wire_print(out, "SUBSCRIBE\nid:%d\ndestination:%s\nack:auto\nreceipt:s%d\n\n", index, topic, index);
    octets_put(out, "", 1);
}

static void put_front(struct octets *out, const char *topic, int size)
{
    (void)size;
    wire_print(out, "SEND\ndestination:%s\n", topic);
}

static void put_length(struct octets *out, int size)
{
    wire_print(out, "content-length:%d\n\n", size);
}

static enum heard_kind kind_of(struct text command)
{
    if (TEXT_IS(command, "MESSAGE"))
        return HEARD_MESSAGE;
    return TEXT_IS(command, "CONNECTED") || TEXT_IS(command, "RECEIPT") ? HEARD_ANSWER : HEARD_REFUSAL;
}

static size_t read_heard(const char *at, size_t size, struct heard *heard)
{
    struct frame frame;
    size_t gap = frame_gap(at, size), taken;
    heard->kind = HEARD_NOTHING;
    if (gap == size)
        return gap;
    taken = frame_read(at + gap, size - gap, &frame);
    if (taken == 0)
        return 0;
    heard->kind = kind_of(frame.command);
    heard->id = frame.subscription;
    heard->body = frame.body;
    heard->says = TEXT_IS(frame.command, "ERROR") ? frame.message : frame.command;
    return gap + taken;
}

const struct wire WIRE_STOMP = {
    .name = "stomp",
    .has_ids = true,
    .has_transactions = true,
    .put_hello = put_hello,
    .put_goodbye = put_goodbye,
    .put_subscribe = put_subscribe,
    .put_front = put_front,
    .put_length = put_length,
    .behind = {"", 1},
    .read = read_heard,
};
