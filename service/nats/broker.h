/* The NATS server with JetStream through which nodes and the hub speak (docs/FORMATS.md, "Subjects and buckets"). */
#ifndef BROKER_H
#define BROKER_H
#include <nats/nats.h>
#include <stdatomic.h>
#include <stdint.h>

enum { BROKER_MOST_PREFIX = 32, BROKER_MOST_SUBJECT = 96 };

typedef struct {
    natsConnection *connection;
    jsCtx *stream;
    char prefix[BROKER_MOST_PREFIX + 1];
    atomic_ulong returns; /* how often a lost connection came back */
} broker;

/* Connects, and tries again for so many milliseconds; a connection that is lost later is sought for good. NULL for `url` is
 * nats://127.0.0.1:4222, and for `prefix` hindsight. 0, or -1: `fault` says why, and nothing stays open. */
int broker_open(broker *b, const char *url, const char *prefix, unsigned wait, char *fault, size_t room);
void broker_close(broker *b);
int broker_is_there(const broker *b);

/* Makes the stream that keeps what nodes say until the hub has acknowledged it, or finds it made. 0 or -1. */
int broker_keep_stream(broker *b);

/* The subject PREFIX.WHAT.NODE, and the name PREFIX_WHAT of a bucket or stream. */
void broker_subject(const broker *b, const char *what, unsigned node, char subject[BROKER_MOST_SUBJECT]);
void broker_name(const broker *b, const char *what, char name[BROKER_MOST_SUBJECT]);

#endif
