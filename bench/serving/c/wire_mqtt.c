/* MQTT 3.1.1, messages of quality of service 0, which nobody acknowledges. */
#include "wire.h"

/* What a packet begins with. */
enum { CONNACK = 0x20, PUBLISH = 0x30, SUBACK = 0x90, PINGRESP = 0xd0 };

static void put_octet(struct octets *out, size_t octet)
{
    char it = (char)octet;
    octets_put(out, &it, 1);
}

/* A length of what is left of a packet: seven bits an octet, the lowest first. */
static void put_left(struct octets *out, size_t size)
{
    for (; size >= 128; size /= 128)
        put_octet(out, 128 + size % 128);
    put_octet(out, size);
}

static void put_text(struct octets *out, const char *text)
{
    size_t size = strlen(text);
    put_octet(out, size / 256);
    put_octet(out, size % 256);
    octets_put(out, text, size);
}

/* A clean session of a client without a name, that is never asked whether it is there. */
static void put_hello(struct octets *out)
{
    static const char rest[] = {4, 2, 0, 0, 0, 0};
    put_octet(out, 0x10);
    put_left(out, 6 + sizeof rest);
    put_text(out, "MQTT");
    octets_put(out, rest, sizeof rest);
}

static void put_goodbye(struct octets *out)
{
    put_octet(out, 0xc0);
    put_left(out, 0);
}

static void put_subscribe(struct octets *out, int index, const char *topic)
{
    put_octet(out, 0x82);
    put_left(out, 5 + strlen(topic));
    put_octet(out, 0);
    put_octet(out, (size_t)index + 1);
    put_text(out, topic);
    put_octet(out, 0);
}

static void put_front(struct octets *out, const char *topic, int size)
{
    put_octet(out, PUBLISH);
    put_left(out, 2 + strlen(topic) + (size_t)size);
    put_text(out, topic);
}

static void put_nothing(struct octets *out, int size)
{
    (void)out;
    (void)size;
}

/* What a packet's first octet and its content say. */
static void hear(unsigned char first, const char *at, size_t size, struct heard *heard)
{
    const unsigned char *octets = (const unsigned char *)at;
    size_t name = size >= 2 ? 2 + 256 * (size_t)octets[0] + octets[1] : 0;
    bool is_good = size >= 2 && octets[size - 1] < 128;
    heard->kind = HEARD_REFUSAL;
    heard->says = (struct text){"a packet", 8};
    if (first == PUBLISH && size >= name) {
        heard->kind = HEARD_MESSAGE;
        heard->body = (struct text){at + name, size - name};
    } else if ((first == CONNACK && is_good && octets[1] == 0) || (first == SUBACK && is_good) || first == PINGRESP) {
        heard->kind = HEARD_ANSWER;
    }
}

static size_t read_heard(const char *at, size_t size, struct heard *heard)
{
    size_t left = 0, from = 1;
    for (int shift = 0;; shift += 7) {
        if (from >= size || shift > 21)
            return 0;
        size_t octet = (unsigned char)at[from++];
        left |= (octet & 127) << shift;
        if (octet < 128)
            break;
    }
    if (size - from < left)
        return 0;
    heard->id = (struct text){NULL, 0};
    hear((unsigned char)at[0], at + from, left, heard);
    return from + left;
}

const struct wire WIRE_MQTT = {
    .name = "mqtt",
    .put_hello = put_hello,
    .put_goodbye = put_goodbye,
    .put_subscribe = put_subscribe,
    .put_front = put_front,
    .put_length = put_nothing,
    .behind = {"", 0},
    .read = read_heard,
};
