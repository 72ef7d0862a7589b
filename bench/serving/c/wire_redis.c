/* Redis' publish and subscribe, in RESP 2. Each PUBLISH is answered by a number, which says how many got it. */
#include "wire.h"

/* The longest list that is read. */
enum { MOST_PARTS = 3 };

static void put_hello(struct octets *out)
{
    OCTETS_PUT(out, "*1\r\n$4\r\nPING\r\n");
}

static void put_subscribe(struct octets *out, int index, const char *topic)
{
    (void)index;
    wire_print(out, "*2\r\n$9\r\nSUBSCRIBE\r\n$%zu\r\n%s\r\n", strlen(topic), topic);
}

static void put_front(struct octets *out, const char *topic, int size)
{
    wire_print(out, "*3\r\n$7\r\nPUBLISH\r\n$%zu\r\n%s\r\n$%d\r\n", strlen(topic), topic, size);
}

static void put_nothing(struct octets *out, int size)
{
    (void)out;
    (void)size;
}

/* Reads a text with its length before it, or a number; what is behind it, or null where it isn't whole. */
static const char *read_part(const char *at, const char *end, struct text *part)
{
    *part = wire_line(at, (size_t)(end - at));
    if (part->at == NULL)
        return NULL;
    const char *next = at + part->size + 2;
    if (*at != '$')
        return next;
    *part = (struct text){next, wire_number(at + 1, next)};
    return (size_t)(end - next) < part->size + 2 ? NULL : next + part->size + 2;
}

static void hear(const struct text *parts, size_t count, struct heard *heard)
{
    heard->kind = HEARD_REFUSAL;
    heard->says = parts[0];
    if (count == MOST_PARTS && TEXT_IS(parts[0], "message")) {
        heard->kind = HEARD_MESSAGE;
        heard->body = parts[2];
    } else if ((count == MOST_PARTS && TEXT_IS(parts[0], "subscribe")) || parts[0].at[0] == '+' || TEXT_IS(parts[0], "pong")) {
        heard->kind = HEARD_ANSWER;
    } else if (parts[0].at[0] == ':') {
        heard->kind = HEARD_NOTHING;
    }
}

static size_t read_heard(const char *at, size_t size, struct heard *heard)
{
    struct text line = wire_line(at, size), parts[MOST_PARTS] = {line};
    if (line.at == NULL)
        return 0;
    const char *next = at + line.size + 2;
    size_t count = *at == '*' ? wire_number(at + 1, next) : 0;
    for (size_t part = 0; part < count && part < MOST_PARTS; part++)
        if ((next = read_part(next, at + size, &parts[part])) == NULL)
            return 0;
    heard->id = (struct text){NULL, 0};
    hear(parts, count, heard);
    return (size_t)(next - at);
}

const struct wire WIRE_REDIS = {
    .name = "redis",
    .put_hello = put_hello,
    .put_goodbye = put_hello,
    .put_subscribe = put_subscribe,
    .put_front = put_front,
    .put_length = put_nothing,
    .behind = {"\r\n", 2},
    .read = read_heard,
};
