/* Frames of well-formed STOMP 1.2: nothing is checked, and escapes are kept as they are. */
#ifndef FRAME_H
#define FRAME_H

#include <stdbool.h>
#include <stddef.h>
#include <string.h>

struct text {
    const char *at;
    size_t size;
};

/* A frame whose texts lie in the octets that it was read from. `headers` are its lines with their LFs; the value of a
 * header that isn't there has a null `at`. */
struct frame {
    struct text command, headers, body;
    struct text destination, id, transaction, receipt, subscription, message;
    bool is_counted;
};

/* Reads the frame at the start of these octets. How many it takes; 0 where it isn't whole. */
size_t frame_read(const char *at, size_t size, struct frame *frame);

/* How many EOLs there are before the first frame. */
static inline size_t frame_gap(const char *at, size_t size)
{
    size_t gap = 0;
    while (gap < size && (at[gap] == '\n' || at[gap] == '\r'))
        gap++;
    return gap;
}

static inline bool text_is(struct text text, const char *word, size_t size)
{
    return text.size == size && memcmp(text.at, word, size) == 0;
}

#define TEXT_IS(text, word) text_is(text, word, sizeof word - 1)

static inline bool text_same(struct text one, struct text other)
{
    return one.size == other.size && memcmp(one.at, other.at, one.size) == 0;
}

/* Whether this header line, of so many octets, has this name. */
#define LINE_IS(line, size, name)                                  \
    ((size) >= sizeof name && (line)[sizeof name - 1] == ':'       \
     && memcmp(line, name, sizeof name - 1) == 0)

#endif
