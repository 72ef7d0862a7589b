/* A floor for `bench/relay`: what the relay writes of well-formed SENDs to one topic, with as little work as a C
 * program can do. It reads all of its input, searches with memchr, copies header lines as they are (the inputs
 * have each header once, escaped as it is written), and writes from one buffer. It checks nothing. */
#include <stdlib.h>
#include <string.h>
#include <unistd.h>

/* What waits is written once it is this long; a MESSAGE is at most so much longer. */
enum { FULL = 1 << 16, MESSAGE = 1 << 21 };

static char output[FULL + MESSAGE], *out = output;

static void flush(void)
{
    for (char *at = output; at != out;) {
        ssize_t count = write(1, at, (size_t)(out - at));
        if (count <= 0)
            exit(1);
        at += count;
    }
    out = output;
}

static void put(const char *text, size_t length)
{
    memcpy(out, text, length);
    out += length;
}

static void put_number(unsigned long number)
{
    char digits[20], *first = digits + 20;
    do
        *--first = (char)('0' + number % 10);
    while (number /= 10);
    put(first, (size_t)(digits + 20 - first));
}

#define PUT(text) put(text, sizeof text - 1)
#define STARTS(line, size, name) ((size_t)(size) >= sizeof name - 1 && !memcmp(line, name, sizeof name - 1))

static const char *line_end(const char *at, const char *end)
{
    return memchr(at, '\n', (size_t)(end - at));
}

/* Puts the MESSAGE of the SEND that begins here, and returns where it ends. */
static const char *relay(const char *at, const char *end, unsigned long number)
{
    const char *lines[64], *destination = at, *next;
    size_t sizes[64], destination_size = 0, length = 0;
    int others = 0, counted = 0;
    for (at = line_end(at, end) + 1; *at != '\n'; at = next) {
        next = line_end(at, end) + 1;
        if (STARTS(at, next - at, "destination:")) {
            destination = at;
            destination_size = (size_t)(next - at);
        } else if (STARTS(at, next - at, "content-length:")) {
            for (const char *digit = at + 15; *digit != '\n'; digit++)
                length = 10 * length + (size_t)(*digit - '0');
            counted = 1;
        } else {
            lines[others] = at;
            sizes[others++] = (size_t)(next - at);
        }
    }
    at++;
    if (!counted)
        length = (size_t)((const char *)memchr(at, 0, (size_t)(end - at)) - at);
    PUT("MESSAGE\nsubscription:0\nmessage-id:");
    put_number(number);
    PUT(".0.0\n");
    put(destination, destination_size);
    PUT("content-length:");
    put_number(length);
    PUT("\n");
    for (int other = 0; other < others; other++)
        put(lines[other], sizes[other]);
    PUT("\n");
    put(at, length + 1);
    return at + length + 1;
}

int main(void)
{
    size_t room = 1 << 24, length = 0;
    char *text = malloc(room);
    ssize_t count;
    while (text && (count = read(0, text + length, room - length)) > 0)
        length += (size_t)count;
    const char *at = text, *end = text + length;
    for (unsigned long number = 1; at != end; number++) {
        at = relay(at, end, number);
        if (out - output >= FULL)
            flush();
    }
    flush();
    return 0;
}
