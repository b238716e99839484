/* Messages of a stream's consumer, by requests of our own. libnats 3.4.1 has natsSubscription_Fetch for it, which writes behind its list where more
 * messages are there than it was asked for: a broker that stood still answers earlier requests late, and all together. */
#ifndef PULL_H
#define PULL_H
#include "broker.h"
#include <stdint.h>

typedef struct {
    natsConnection *connection;
    natsSubscription *messages;
    char inbox[64];         /* a request is answered at this subject, with the request's number behind it */
    char asks[2 * BROKER_MOST_SUBJECT + 32]; /* the subject at which the consumer is asked */
    unsigned long request;  /* the number of the last one */
    unsigned due;           /* how many messages it may still bring */
    int64_t over;           /* when it is over, if the broker does not say so before: milliseconds of a steady clock */
} pull;

/* 0, or -1 where memory or the connection is wanting: then nothing is open. */
int pull_open(pull *p, broker *b, const char *stream, const char *consumer);
/* The next message, for which is waited so many milliseconds: the caller's. NULL where none came. */
natsMsg *pull_next(pull *p, int64_t wait);
/* May be called twice, and where `pull_open` failed. */
void pull_close(pull *p);

/* What the broker is told of a message, at the reply subject with which it came: it is done with, or is to come again after so many milliseconds. */
void pull_acknowledge(natsConnection *connection, const char *reply);
void pull_again(natsConnection *connection, const char *reply, unsigned later);

#endif
