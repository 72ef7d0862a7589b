#include "names.h"

#include <stdint.h>

/* Places for names, by a hash; each holds a topic's number and one, or 0. */
enum { PLACES = 4 * MOST_TOPICS };

static struct text names[MOST_TOPICS];
static uint16_t places[PLACES];
static int count_of_names;

static uint32_t first_place(struct text name)
{
    uint32_t hash = 2166136261u;
    for (size_t at = 0; at < name.size; at++)
        hash = (hash ^ (uint8_t)name.at[at]) * 16777619u;
    return hash % PLACES;
}

bool names_take(char **words, int count)
{
    if (count < 1 || count > MOST_TOPICS)
        return false;
    for (int topic = 0; topic < count; topic++) {
        struct text name = {words[topic], strlen(words[topic])};
        uint32_t place = first_place(name);
        while (places[place] != 0)
            place = (place + 1) % PLACES;
        places[place] = (uint16_t)(topic + 1);
        names[topic] = name;
    }
    count_of_names = count;
    return true;
}

int names_count(void)
{
    return count_of_names;
}

int names_find(struct text name)
{
    uint32_t place = first_place(name);
    while (places[place] != 0) {
        if (text_same(names[places[place] - 1], name))
            return places[place] - 1;
        place = (place + 1) % PLACES;
    }
    return -1;
}
