#include "message.h"

static char *put(char *at, const char *from, size_t size)
{
    memcpy(at, from, size);
    return at + size;
}

#define PUT(at, text) put(at, text, sizeof text - 1)

static char *put_number(char *at, uint64_t number)
{
    char digits[20], *first = digits + 20;
    do
        *--first = (char)('0' + number % 10);
    while (number /= 10);
    return put(at, first, (size_t)(digits + 20 - first));
}

/* Whether a SEND's header isn't for its MESSAGE, or is written before the others. */
static bool is_left_out(const char *line, size_t size)
{
    switch (*line) {
    case 'c':
        return LINE_IS(line, size, "content-length");
    case 'd':
        return LINE_IS(line, size, "destination");
    case 'r':
        return LINE_IS(line, size, "receipt");
    case 't':
        return LINE_IS(line, size, "transaction");
    }
    return false;
}

size_t message_room(const struct frame *send)
{
    return 128 + send->destination.size + send->headers.size + send->body.size;
}

char *message_spell(char *at, const struct frame *send, uint64_t number)
{
    at = PUT(at, "\nmessage-id:");
    at = put_number(at, number);
    at = PUT(at, ".0.0\ndestination:");
    at = put(at, send->destination.at, send->destination.size);
    at = PUT(at, "\ncontent-length:");
    at = put_number(at, send->body.size);
    *at++ = '\n';
    const char *line = send->headers.at, *end = line + send->headers.size;
    while (line < end) {
        const char *next = memchr(line, '\n', (size_t)(end - line));
        size_t size = (size_t)(next + 1 - line);
        if (!is_left_out(line, size - 1))
            at = put(at, line, size);
        line = next + 1;
    }
    *at++ = '\n';
    at = put(at, send->body.at, send->body.size);
    *at++ = 0;
    *at++ = '\n';
    return at;
}
