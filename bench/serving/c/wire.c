#include "wire.h"

#include <stdarg.h>
#include <stdio.h>

static const struct wire *const WIRES[] = {&WIRE_STOMP, &WIRE_NATS, &WIRE_MQTT, &WIRE_REDIS};

const struct wire *wire_find(const char *name)
{
    for (size_t at = 0; at < sizeof WIRES / sizeof *WIRES; at++)
        if (strcmp(WIRES[at]->name, name) == 0)
            return WIRES[at];
    return NULL;
}

void wire_print(struct octets *out, const char *form, ...)
{
    char text[3 * MOST_NAME];
    va_list values;
    va_start(values, form);
    int size = vsnprintf(text, sizeof text, form, values);
    va_end(values);
    octets_put(out, text, (size_t)size);
}

struct text wire_line(const char *at, size_t size)
{
    const char *end = memchr(at, '\n', size);
    if (end == NULL || end == at)
        return (struct text){NULL, 0};
    return (struct text){at, (size_t)(end - at) - 1};
}

size_t wire_number(const char *at, const char *end)
{
    size_t number = 0;
    for (; at < end && *at >= '0' && *at <= '9'; at++)
        number = 10 * number + (size_t)(*at - '0');
    return number;
}
