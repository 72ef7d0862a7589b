#include "talk.h"

#include "names.h"

#include <stddef.h>

#define CONNECTED "CONNECTED\nversion:1.2\nheart-beat:0,0\n\n\0\n"

/* Gives the SENDs of a transaction to the broker, and lets go of it. */
static void commit(struct talk *talk, struct transaction *it)
{
    const char *at = it->sends.start;
    size_t left = octets_size(&it->sends), size;
    struct frame send;
    transactions_end(&talk->transactions, it);
    while (left > 0 && (size = frame_read(at, left, &send)) > 0) {
        broker_send(talk, &send);
        at += size;
        left -= size;
    }
    transaction_free(it);
}

/* A SEND, of so many octets: it is kept where it is of an open transaction. */
static void hear_send(struct talk *talk, const struct frame *send, const char *at, size_t size)
{
    if (send->transaction.at == NULL) {
        broker_send(talk, send);
        return;
    }
    struct transaction *it = transactions_find(talk->transactions, send->transaction);
    if (it != NULL)
        octets_put(&it->sends, at, size);
    else
        talk->is_leaving = true;
}

/* A BEGIN, a COMMIT or an ABORT. */
static void hear_transaction(struct talk *talk, const struct frame *frame)
{
    if (TEXT_IS(frame->command, "BEGIN")) {
        transactions_begin(&talk->transactions, frame->transaction);
        return;
    }
    struct transaction *it = transactions_find(talk->transactions, frame->transaction);
    if (it == NULL) {
        talk->is_leaving = true;
    } else if (TEXT_IS(frame->command, "COMMIT")) {
        commit(talk, it);
    } else {
        transactions_end(&talk->transactions, it);
        transaction_free(it);
    }
}

/* A frame that is neither a SEND nor of a transaction. */
static void hear_other(struct talk *talk, const struct frame *frame)
{
    if (TEXT_IS(frame->command, "SUBSCRIBE")) {
        int topic = names_find(frame->destination);
        if (topic >= 0)
            broker_subscribe(talk, topic, frame->id);
        else
            talk->is_leaving = true;
    } else if (TEXT_IS(frame->command, "UNSUBSCRIBE")) {
        broker_unsubscribe(talk, frame->id);
    } else if (TEXT_IS(frame->command, "CONNECT") || TEXT_IS(frame->command, "STOMP")) {
        OCTETS_PUT(&talk->out, CONNECTED);
    } else {
        talk->is_leaving = true;
    }
}

static void hear_frame(struct talk *talk, const struct frame *frame, const char *at, size_t size)
{
    if (TEXT_IS(frame->command, "SEND"))
        hear_send(talk, frame, at, size);
    else if (frame->transaction.at != NULL)
        hear_transaction(talk, frame);
    else
        hear_other(talk, frame);
    if (frame->receipt.at != NULL) {
        OCTETS_PUT(&talk->out, "RECEIPT\nreceipt-id:");
        octets_put(&talk->out, frame->receipt.at, frame->receipt.size);
        OCTETS_PUT(&talk->out, "\n\n\0\n");
    }
}

void talk_hear(struct talk *talk)
{
    struct octets *in = &talk->in;
    struct frame frame;
    while (!talk->is_leaving) {
        in->from += frame_gap(in->start + in->from, octets_size(in));
        const char *at = in->start + in->from;
        size_t size = frame_read(at, octets_size(in), &frame);
        if (size == 0)
            return;
        hear_frame(talk, &frame, at, size);
        in->from += size;
    }
}

void talk_free(struct talk *talk)
{
    while (talk->transactions != NULL) {
        struct transaction *it = talk->transactions;
        transactions_end(&talk->transactions, it);
        transaction_free(it);
    }
    octets_free(&talk->in);
    octets_free(&talk->out);
}
