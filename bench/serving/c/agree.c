#include "agree.h"

#include "room.h"

/* Of each transaction, by its index: in how many of the streams it is, and of how many of them it is the next. */
struct node {
    int streams, next;
};

static struct node *nodes;
static size_t count_of_nodes;
/* The index of each publisher's first transaction; of each stream whether it is looked at, and how many were taken off. */
static size_t *first;
static bool *is_in;
static size_t *taken;

static void make(const struct plan *plan, const int64_t *sent)
{
    first = room_of((size_t)plan->publishers, sizeof *first);
    for (int publisher = 0; publisher < plan->publishers; publisher++) {
        first[publisher] = count_of_nodes;
        count_of_nodes += (size_t)(sent[publisher] / plan->sends);
    }
    nodes = room_of(count_of_nodes, sizeof *nodes);
    is_in = room_of((size_t)count_of_streams, sizeof *is_in);
    taken = room_of((size_t)count_of_streams, sizeof *taken);
}

static struct node *node_of(struct sent sent)
{
    return &nodes[first[sent.publisher] + (size_t)sent.transaction];
}

/* The next transaction of a stream; null at its end, and where the stream isn't looked at. */
static struct node *next_of(int stream)
{
    if (!is_in[stream] || taken[stream] == streams[stream].count)
        return NULL;
    return node_of(streams[stream].order[taken[stream]]);
}

static void count_next(int stream)
{
    struct node *node = next_of(stream);
    if (node != NULL)
        node->next++;
}

/* Counts in how many streams each transaction is, and of how many it is the first. */
static void begin(void)
{
    for (size_t at = 0; at < count_of_nodes; at++)
        nodes[at] = (struct node){0, 0};
    for (int stream = 0; stream < count_of_streams; stream++) {
        taken[stream] = 0;
        count_next(stream);
        for (size_t at = 0; is_in[stream] && at < streams[stream].count; at++)
            node_of(streams[stream].order[at])->streams++;
    }
}

/* Takes this transaction off all streams whose next it is. */
static void take_off(const struct node *node)
{
    for (int stream = 0; stream < count_of_streams; stream++)
        if (next_of(stream) == node) {
            taken[stream]++;
            count_next(stream);
        }
}

/* Takes a stream's next transaction off, where it is the next of all that have it: it is then the next of the one list. */
static bool take_next(int stream)
{
    const struct node *node = next_of(stream);
    if (node == NULL || node->next < node->streams)
        return false;
    take_off(node);
    return true;
}

/* Whether the streams that are looked at have one order: then all of their transactions can be taken off. */
static bool have_order(void)
{
    begin();
    for (bool goes_on = true; goes_on;) {
        goes_on = false;
        for (int stream = 0; stream < count_of_streams; stream++)
            goes_on |= take_next(stream);
    }
    for (int stream = 0; stream < count_of_streams; stream++)
        if (next_of(stream) != NULL)
            return false;
    return true;
}

int agree_count(const struct plan *plan, const int64_t *sent)
{
    int count = 0;
    make(plan, sent);
    for (int stream = 0; stream < count_of_streams; stream++)
        is_in[stream] = true;
    if (have_order())
        return 0;
    for (int stream = 0; stream < count_of_streams; stream++)
        is_in[stream] = false;
    for (int stream = 0; stream < count_of_streams; stream++) {
        is_in[stream] = true;
        is_in[stream] = have_order();
        count += !is_in[stream];
    }
    return count;
}
