/* A trace as one line of OTLP's JSON, the file format of OpenTelemetry. */
#ifndef OTLP_H
#define OTLP_H
#include "hindsight.h"

/* A record of a trace. */
typedef struct {
    uint16_t client;
    uint64_t core;      /* which renewal of the client wrote it */
    uint64_t number;    /* among the core's records */
    uint64_t missing;   /* how many records of the core are missing in front of it, of this trace or of others */
    uint64_t moment;    /* nanoseconds since 1970 */
    const uint8_t *payload;
    size_t len;
} otlp_record;

/* What one life of a node has of a trace: its records in the order of client, core and number, and in one word how whole that is. */
typedef struct {
    hind_node_id node;
    uint64_t epoch;
    const char *service;
    const char *wholeness;
    const otlp_record *records;
    size_t count;
} otlp_part;

typedef struct {
    hind_trace_id id;
    uint8_t trigger;
    unsigned part;     /* 0, or which later part of the trace this is */
    int is_whole;      /* whether the hub says that all that any node wrote of it is here */
    const otlp_part *parts;
    size_t count;
} otlp_trace;

/* A text that grows. Zeroed, it is empty. */
typedef struct {
    char *bytes;
    size_t len;
    size_t room;
    int failed; /* memory was wanting */
} otlp_text;

/* Puts the line with its '\n' behind what `to` has. 0, or -1 where memory is wanting: then `to` is as it was. */
int otlp_write(const otlp_trace *trace, otlp_text *to);

#endif
