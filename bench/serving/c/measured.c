#include "measured.h"

#include "agree.h"
#include "clock.h"
#include "publishers.h"
#include "room.h"
#include "streams.h"

#include <inttypes.h>
#include <stdio.h>
#include <stdlib.h>
#include <unistd.h>

enum { MOST_TIMES = 1 << 20, MOST_SECONDS = 600 };

/* A stream stands still where nothing comes for so long. */
enum { STILL = 50 * MILLISECOND };

/* From when to when; how many messages came before, and between; processor time of the server and of this program. */
static struct {
    bool has_begun;
    int64_t from, to, before, came, server, own;
} measured;

/* How many messages came, when the run began and the last one came, and how long the streams together stood still. */
static int64_t came, begun, last, still;

/* How many messages came in each second of the run. */
static int64_t seconds[MOST_SECONDS];

/* By the clock how long each message took, where the plan has a rate. */
static int64_t *times;
static size_t count_of_times;

void measured_begin(const struct plan *plan, int64_t now)
{
    begun = last = now;
    measured.from = now + (int64_t)plan->warm * MILLISECOND;
    measured.to = INT64_MAX;
    if (plan->rate > 0)
        times = room_of(MOST_TIMES, sizeof *times);
}

void measured_hear(int64_t sent, int64_t now)
{
    came++;
    still += now - last >= STILL ? now - last : 0;
    last = now;
    if (now - begun < (int64_t)MOST_SECONDS * SECOND)
        seconds[(now - begun) / SECOND]++;
    if (times != NULL && measured.has_begun && count_of_times < MOST_TIMES)
        times[count_of_times++] = now - sent;
}

void measured_tick(const struct plan *plan, int64_t now)
{
    if (measured.has_begun || now < measured.from)
        return;
    measured.has_begun = true;
    measured.from = now;
    measured.to = now + (int64_t)plan->measured * MILLISECOND;
    measured.before = came;
    measured.server = clock_of(plan->process);
    measured.own = clock_of(getpid());
}

bool measured_is_over(int64_t now)
{
    return now >= measured.to;
}

void measured_end(const struct plan *plan, int64_t now)
{
    measured_tick(plan, measured.from);
    measured.to = now;
    measured.came = came - measured.before;
    measured.server = clock_of(plan->process) - measured.server;
    measured.own = clock_of(getpid()) - measured.own;
}

int64_t measured_last(void)
{
    return last;
}

static int by_size(const void *one, const void *other)
{
    int64_t a = *(const int64_t *)one, b = *(const int64_t *)other;
    return (a > b) - (a < b);
}

/* The time within which so many of a hundred messages came; 0 where none was taken. */
static int64_t time_of(int of_hundred)
{
    return count_of_times == 0 ? 0 : times[(count_of_times - 1) * (size_t)of_hundred / 100];
}

static void put(const char *name, int64_t number)
{
    printf(", \"%s\": %" PRId64, name, number);
}

static void put_measured(void)
{
    if (times != NULL)
        qsort(times, count_of_times, sizeof *times, by_size);
    put("all_came", came);
    put("came", measured.came);
    put("time", measured.to - measured.from);
    put("server", measured.server);
    put("own", measured.own);
    put("last", last - begun);
    put("still", still);
    put("p50", time_of(50));
    put("p99", time_of(99));
}

/* Of each second until the last message. */
static void put_seconds(void)
{
    printf(", \"seconds\": [%" PRId64, seconds[0]);
    for (int at = 1; at < MOST_SECONDS && at <= (last - begun) / SECOND; at++)
        printf(", %" PRId64, seconds[at]);
    printf("]");
}

static void put_faults(const struct plan *plan)
{
    int64_t *sent = room_of((size_t)plan->publishers, sizeof *sent), held = 0;
    for (int at = 0; at < plan->publishers; at++) {
        sent[at] = publishers[at].sent;
        held += publishers[at].held;
    }
    streams_end(plan, sent);
    put("held", held);
    put("lost", faults.lost);
    put("doubled", faults.doubled);
    put("changed", faults.changed);
    put("reordered", faults.reordered);
    put("split", faults.split);
    put("streams", count_of_streams);
    put("disagreeing", agree_count(plan, sent));
}

void measured_report(const struct plan *plan, const char *trouble)
{
    printf("{\"trouble\": \"%s\"", trouble);
    put_measured();
    put_seconds();
    put_faults(plan);
    printf("}\n");
}
