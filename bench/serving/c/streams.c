#include "streams.h"

#include "room.h"

/* Messages that are kept as missing at once. */
enum { MOST_MISSING = 4096 };

struct stream *streams;
int count_of_streams;
struct faults faults;

static struct {
    int stream, publisher;
    int64_t k;
} missing[MOST_MISSING];
static int count_of_missing;

/* From one message of a publisher to its next one of the same topic. */
static int64_t step(const struct plan *plan)
{
    return plan->own ? plan->each : plan->topics;
}

/* A publisher's first message of a topic; one that never comes where it sends nothing there. */
static int64_t first_of(const struct plan *plan, int publisher, int topic)
{
    if (plan->own)
        return publisher == topic / plan->each ? topic % plan->each : INT64_MAX;
    return (topic + plan->topics - publisher % plan->topics) % plan->topics;
}

void streams_make(const struct plan *plan)
{
    count_of_streams = plan->readers * plan->each;
    streams = room_of((size_t)count_of_streams, sizeof *streams);
    for (int at = 0; at < count_of_streams; at++) {
        struct stream *it = &streams[at];
        it->topic = plan_subscribed(plan, at / plan->each, at % plan->each);
        it->due = room_of((size_t)plan->publishers, sizeof *it->due);
        for (int publisher = 0; publisher < plan->publishers; publisher++)
            it->due[publisher] = first_of(plan, publisher, it->topic);
    }
}

int streams_of(int topic)
{
    int count = 0;
    for (int at = 0; at < count_of_streams; at++)
        count += streams[at].topic == topic;
    return count;
}

bool streams_are_lost(void)
{
    return count_of_missing == MOST_MISSING;
}

/* All from the one that is due to before k are missing. */
static void miss(int stream, int publisher, int64_t k, int64_t step)
{
    for (int64_t at = streams[stream].due[publisher]; at < k && !streams_are_lost(); at += step) {
        missing[count_of_missing].stream = stream;
        missing[count_of_missing].publisher = publisher;
        missing[count_of_missing++].k = at;
    }
}

/* Whether this message was missing; it is so no longer. */
static bool was_missing(int stream, int publisher, int64_t k)
{
    for (int at = 0; at < count_of_missing; at++) {
        if (missing[at].stream != stream || missing[at].publisher != publisher || missing[at].k != k)
            continue;
        missing[at] = missing[--count_of_missing];
        return true;
    }
    return false;
}

/* One order over all streams is only a question where several publishers send to a topic. */
static bool keeps_order(const struct plan *plan)
{
    return plan->publishers > 1 && !plan->own;
}

static void note(struct stream *stream, struct sent sent)
{
    if (stream->count == stream->room) {
        stream->room = stream->room > 0 ? 2 * stream->room : 4096;
        stream->order = room_grow(stream->order, stream->room * sizeof *stream->order);
    }
    stream->order[stream->count++] = sent;
}

/* A message of a transaction came: it goes on with the one that is open, or it begins one. */
static void open_or_go_on(const struct plan *plan, struct stream *stream, int publisher, int64_t k)
{
    struct sent sent = {publisher, k / plan->sends};
    if (stream->left > 0 && stream->open.publisher == publisher && stream->open.transaction == sent.transaction) {
        stream->left--;
        return;
    }
    faults.split += stream->left > 0;
    bool begins = k - step(plan) < sent.transaction * plan->sends;
    stream->open = sent;
    stream->left = begins ? plan_part(plan, publisher, sent.transaction, stream->topic) - 1 : 0;
    if (begins && keeps_order(plan))
        note(stream, sent);
}

bool streams_hear(const struct plan *plan, int at, int publisher, int64_t k)
{
    struct stream *stream = &streams[at];
    if (publisher >= plan->publishers || plan_topic(plan, publisher, k) != stream->topic) {
        faults.changed++;
        return false;
    }
    int64_t *due = &stream->due[publisher];
    if (k < *due && !was_missing(at, publisher, k)) {
        faults.doubled++;
        return false;
    }
    if (k < *due)
        faults.reordered++;
    if (k > *due)
        miss(at, publisher, k, step(plan));
    if (k >= *due)
        *due = k + step(plan);
    open_or_go_on(plan, stream, publisher, k);
    return true;
}

void streams_end(const struct plan *plan, const int64_t *sent)
{
    faults.lost = count_of_missing;
    for (int at = 0; at < count_of_streams; at++)
        for (int publisher = 0; publisher < plan->publishers; publisher++)
            if (streams[at].due[publisher] < sent[publisher])
                faults.lost += (sent[publisher] - streams[at].due[publisher] + step(plan) - 1) / step(plan);
}
