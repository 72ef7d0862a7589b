#include "frame.h"

#include <stdint.h>

static void keep(struct text *value, const char *line, size_t size, size_t name)
{
    if (value->at == NULL)
        *value = (struct text){line + name + 1, size - name - 1};
}

#define KEEP(value, line, size, name) \
    if (LINE_IS(line, size, name))    \
    keep(value, line, size, sizeof name - 1)

static size_t number(const char *at, size_t size)
{
    size_t found = 0;
    for (size_t digit = 0; digit < size; digit++)
        found = 10 * found + (size_t)(at[digit] - '0');
    return found;
}

/* Keeps the value of a header line, where it is one of those that are kept. */
static void read_header(struct frame *frame, const char *line, size_t size, size_t *length)
{
    switch (*line) {
    case 'c':
        if (!frame->is_counted && LINE_IS(line, size, "content-length")) {
            frame->is_counted = true;
            *length = number(line + 15, size - 15);
        }
        break;
    case 'd':
        KEEP(&frame->destination, line, size, "destination");
        break;
    case 'i':
        KEEP(&frame->id, line, size, "id");
        break;
    case 'm':
        KEEP(&frame->message, line, size, "message");
        break;
    case 'r':
        KEEP(&frame->receipt, line, size, "receipt");
        break;
    case 's':
        KEEP(&frame->subscription, line, size, "subscription");
        break;
    case 't':
        KEEP(&frame->transaction, line, size, "transaction");
        break;
    }
}

size_t frame_read(const char *at, size_t size, struct frame *frame)
{
    const char *end = at + size, *line = at;
    const char *next = memchr(at, '\n', size);
    size_t length = 0;
    memset(frame, 0, sizeof *frame);
    if (next == NULL)
        return 0;
    frame->command = (struct text){at, (size_t)(next - at)};
    for (line = next + 1;; line = next + 1) {
        next = memchr(line, '\n', (size_t)(end - line));
        if (next == NULL)
            return 0;
        if (next == line)
            break;
        read_header(frame, line, (size_t)(next - line), &length);
    }
    frame->headers.at = at + frame->command.size + 1;
    frame->headers.size = (size_t)(line - frame->headers.at);
    const char *body = line + 1;
    if (!frame->is_counted) {
        const char *null = memchr(body, 0, (size_t)(end - body));
        if (null == NULL)
            return 0;
        length = (size_t)(null - body);
    } else if ((size_t)(end - body) <= length) {
        return 0;
    }
    frame->body = (struct text){body, length};
    return (size_t)(body - at) + length + 1;
}
