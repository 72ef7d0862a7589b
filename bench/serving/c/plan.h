/* What a run of the load generator does. */
#ifndef PLAN_H
#define PLAN_H

#include "wire.h"

#include <stdbool.h>
#include <stdint.h>
#include <sys/types.h>

/* The k-th message of publisher p, both from 0, goes to topic (p + k) mod `topics`; with `own` to topic p * each +
 * k mod `each`. Subscription e of reader r is of topic (r * each + e) mod `topics`. */
struct plan {
    const struct wire *wire;
    int port;
    /* The processes whose time is taken, the first of them the server's. */
    pid_t process;
    int publishers, readers, each, topics;
    /* What is added to a publisher's number where it is written: another run at once, at the same topics, adds something else. */
    int first;
    /* Whether there is such another run: then what its publishers sent is counted, and not looked at. */
    bool beside;
    /* Whether publisher i and reader i are one connection, which has `each` topics of its own. */
    bool own;
    /* Octets of a body, at least 16. */
    int size;
    /* Messages of a publisher that may be on their way at once. */
    int window;
    /* Whether all that the window lets a publisher send is put before the time begins, so that it is written at once. */
    bool burst;
    /* Whether a publisher puts more only once little waits to be written: with a large window it goes as fast as the server
     * takes it, and that window isn't put at once. */
    bool unpaced;
    /* Whether a publisher waits for the RECEIPT of each SEND or COMMIT before it goes on. */
    bool receipts;
    /* SENDs of a transaction; 1: they are sent without one. */
    int sends;
    /* Messages that each publisher sends in a second; 0: as many as the window lets it. */
    int rate;
    /* Milliseconds before the measured ones, those, and how long nothing may come before the run is given up. */
    int warm, measured, patience;
    /* Messages that each publisher sends at most. */
    int64_t most;
    /* Whether each octet of each body is compared. */
    bool whole;
    /* Which topics: the row's, so that no row's names are another's. */
    const char *prefix;
};

/* Reads words of the form NAME=VALUE. Ends the program where one is unknown or out of range. */
struct plan plan_read(char **words);

/* Writes a topic's name into MOST_NAME octets. */
void plan_name(const struct plan *plan, int topic, char *name);

/* The topic of the k-th message of a publisher, and of a reader's subscription. */
int plan_topic(const struct plan *plan, int publisher, int64_t k);
int plan_subscribed(const struct plan *plan, int reader, int index);

/* How many messages of publisher p's transaction with number t go to this topic. */
int plan_part(const struct plan *plan, int publisher, int64_t transaction, int topic);

#endif
