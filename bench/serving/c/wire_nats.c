/* NATS: a PING asks whether all before it was heard, and the server asks so, too. */
#include "wire.h"

static void put_hello(struct octets *out)
{
    OCTETS_PUT(out, "CONNECT {\"verbose\":false,\"pedantic\":false,\"echo\":true}\r\nPING\r\n");
}

static void put_goodbye(struct octets *out)
{
    OCTETS_PUT(out, "PING\r\n");
}

static void put_pong(struct octets *out)
{
    OCTETS_PUT(out, "PONG\r\n");
}

static void put_subscribe(struct octets *out, int index, const char *topic)
{
    wire_print(out, "SUB %s %d\r\nPING\r\n", topic, index);
}

static void put_front(struct octets *out, const char *topic, int size)
{
    wire_print(out, "PUB %s %d\r\n", topic, size);
}

static void put_nothing(struct octets *out, int size)
{
    (void)out;
    (void)size;
}

static bool begins(struct text line, const char *word)
{
    size_t size = strlen(word);
    return line.size >= size && memcmp(line.at, word, size) == 0;
}

/* MSG TOPIC ID SIZE, and the body with its CR LF. */
static size_t read_message(struct text line, const char *end, struct heard *heard)
{
    const char *behind = line.at + line.size, *body = behind + 2;
    const char *id = memchr(line.at + 4, ' ', line.size - 4);
    const char *length = id == NULL ? NULL : memchr(id + 1, ' ', (size_t)(behind - id) - 1);
    if (length == NULL) {
        heard->kind = HEARD_REFUSAL;
        heard->says = line;
        return line.size + 2;
    }
    size_t size = wire_number(length + 1, behind);
    if ((size_t)(end - body) < size + 2)
        return 0;
    heard->kind = HEARD_MESSAGE;
    heard->id = (struct text){id + 1, (size_t)(length - id) - 1};
    heard->body = (struct text){body, size};
    return line.size + 2 + size + 2;
}

static size_t read_heard(const char *at, size_t size, struct heard *heard)
{
    struct text line = wire_line(at, size);
    if (line.at == NULL)
        return 0;
    if (begins(line, "MSG "))
        return read_message(line, at + size, heard);
    heard->says = line;
    if (begins(line, "PONG"))
        heard->kind = HEARD_ANSWER;
    else if (begins(line, "PING"))
        heard->kind = HEARD_PING;
    else
        heard->kind = begins(line, "INFO") ? HEARD_NOTHING : HEARD_REFUSAL;
    return line.size + 2;
}

const struct wire WIRE_NATS = {
    .name = "nats",
    .has_ids = true,
    .put_hello = put_hello,
    .put_goodbye = put_goodbye,
    .put_subscribe = put_subscribe,
    .put_pong = put_pong,
    .put_front = put_front,
    .put_length = put_nothing,
    .behind = {"\r\n", 2},
    .read = read_heard,
};
