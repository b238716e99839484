#include "pull.h"
#include <stdio.h>
#include <stdlib.h>
#include <string.h>
#include <time.h>

enum { BATCH = 256, EXPIRES = 1000 /* milliseconds that the broker keeps a request */ };

static int64_t milliseconds(void) {
    struct timespec t;
    clock_gettime(CLOCK_MONOTONIC, &t);
    return (int64_t)t.tv_sec * 1000 + t.tv_nsec / 1000000;
}

int pull_open(pull *p, broker *b, const char *stream, const char *consumer) {
    char subject[sizeof p->inbox + 2];
    natsInbox *fresh = NULL;
    memset(p, 0, sizeof *p);
    p->connection = b->connection;
    if (natsInbox_Create(&fresh) != NATS_OK) return -1;
    snprintf(p->inbox, sizeof p->inbox, "%s", fresh);
    natsInbox_Destroy(fresh);
    snprintf(p->asks, sizeof p->asks, "$JS.API.CONSUMER.MSG.NEXT.%s.%s", stream, consumer);
    snprintf(subject, sizeof subject, "%s.*", p->inbox);
    if (natsConnection_SubscribeSync(&p->messages, p->connection, subject) != NATS_OK) return -1;
    /* a request bounds what may come, so nothing of it is let go */
    natsSubscription_SetPendingLimits(p->messages, -1, -1);
    return 0;
}

/* Asks for messages. The answer to an earlier request may still come. */
static void ask(pull *p) {
    char reply[sizeof p->inbox + 24], text[64];
    snprintf(reply, sizeof reply, "%s.%lu", p->inbox, ++p->request);
    snprintf(text, sizeof text, "{\"batch\":%d,\"expires\":%d000000}", BATCH, EXPIRES);
    if (natsConnection_PublishRequestString(p->connection, p->asks, reply, text) == NATS_OK) p->due = BATCH;
    p->over = milliseconds() + 2 * EXPIRES;
}

/* Messages come under the subject at which they were published, and what the broker says of a request under that of its answers. */
static int is_said_of_request(const pull *p, natsMsg *message) {
    return !strncmp(natsMsg_GetSubject(message), p->inbox, strlen(p->inbox));
}

static unsigned long request_of(const pull *p, natsMsg *message) {
    return strtoul(natsMsg_GetSubject(message) + strlen(p->inbox) + 1, NULL, 10);
}

natsMsg *pull_next(pull *p, int64_t wait) {
    natsMsg *message;
    if (!p->due || milliseconds() >= p->over) ask(p);
    while (natsSubscription_NextMsg(&message, p->messages, wait) == NATS_OK) {
        if (!is_said_of_request(p, message)) {
            p->due -= p->due > 0;
            return message;
        }
        /* it ran out, or the consumer is gone */
        if (request_of(p, message) == p->request) p->due = 0;
        natsMsg_Destroy(message);
    }
    return NULL;
}

void pull_close(pull *p) {
    natsSubscription_Destroy(p->messages);
    p->messages = NULL;
}

void pull_acknowledge(natsConnection *connection, const char *reply) { natsConnection_PublishString(connection, reply, "+ACK"); }

void pull_again(natsConnection *connection, const char *reply, unsigned later) {
    char text[48];
    snprintf(text, sizeof text, "-NAK {\"delay\":%u000000}", later);
    natsConnection_PublishString(connection, reply, text);
}
