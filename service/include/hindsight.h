/* hindsight.h: retroactive sampling of distributed traces. Every record is written locally, and a trace is shipped only if a trigger claims it.
 *
 * Link:    cc service.c $(pkg-config --cflags --libs hindsight)      (libhindsight.so.0, or libhindsight.a with --static)
 * Start:   docs/SERVICE.md. What nodes and hubs do is in docs/RULES.md, settings and messages are in docs/FORMATS.md.
 * Threads: a client takes one call at a time. The calls of a node may come from any thread; so may those of a hub, but it takes one at a time.
 *          Ids, headers, spans and texts may come from any thread at once.
 * Memory:  the buffers and all else that has a fixed size are taken by hind_node_open; only passes take more. A client's calls take no memory
 *          and no lock, and make no system call (the clocks are read without one). hind_new_trace and hind_new_span ask the system for random bytes once in each thread, and in a
 *          child after a fork once more.
 * Signals: a handler may call a client that hind_client_get or hind_client_open gave before. It gets HIND_BUSY where it interrupted a call of
 *          that client. No other call may come from a handler, but those on headers, spans and texts.
 * Fork:    in a child, each call on a handle of the parent answers HIND_FORKED and changes nothing. Open a node in the child.
 * Yours:   nothing tests whether a pointer points to what its type says, whether a handle is used after it was closed, and whether two threads
 *          call one client at once (then HIND_BUSY is a best effort).
 * Unload:  dlclose leaves the shared library loaded, since threads that end call it.
 * C++:     nothing throws.
 */
#ifndef HINDSIGHT_H
#define HINDSIGHT_H 1

#include <stddef.h>
#include <stdint.h>
#include <sys/uio.h> /* struct iovec */

#define HIND_VERSION_MAJOR 0
#define HIND_VERSION_MINOR 3
#define HIND_VERSION_PATCH 0
#define HIND_VERSION_NUMBER (HIND_VERSION_MAJOR * 1000000 + HIND_VERSION_MINOR * 1000 + HIND_VERSION_PATCH)
#define HIND_ABI 1

#if defined(__GNUC__)
#define HIND_API __attribute__((visibility("default")))
#define HIND_CHECK __attribute__((warn_unused_result))
#else
#define HIND_API
#define HIND_CHECK
#endif

#ifdef __cplusplus
extern "C" {
#endif

/* ---- answers ---- */

/* What calls answer. 0 is success, below 0 nothing was done, but for HIND_DRY, above 0 is no error. The numbers never change. */
typedef int hind_code;
enum {
    HIND_OK = 0,
    HIND_NOTHING = 1,       /* there is nothing to do or to take now */
    HIND_HELD = 2,          /* of hind_hub_deliver: taken, and not to be acknowledged yet */
    HIND_INVALID = -1,      /* an argument is NULL or out of its range, or a text is not what it should be */
    HIND_NOMEM = -2,        /* memory was refused */
    HIND_BUSY = -3,         /* the client is inside another call, which this one interrupted */
    HIND_FORKED = -4,       /* the handle is the parent's */
    HIND_OPEN = -5,         /* the client has an open trace */
    HIND_NOTRACE = -6,      /* the client has no open trace */
    HIND_TOOLONG = -7,      /* a payload or a text is longer than it may be */
    HIND_FULL = -8,         /* too much waits: nothing was taken, and the call may be made again after a pass */
    HIND_MANY = -9,         /* all clients of the settings are in use */
    HIND_UNDECLARED = -10,  /* the settings have no node, trigger id or autotrigger of this number */
    HIND_SETTINGS = -11,    /* the settings are refused: hind_settings_error says where and why */
    HIND_REFUSED = -12,     /* the bytes are no message that is taken here */
    HIND_ABI_WRONG = -13,   /* the header is of another ABI than the library */
    HIND_SYSTEM = -14,      /* a call of the system failed: see errno */
    HIND_SPENT = -15,       /* the numbers of this trace, or of this client, have come to their end */
    HIND_CLOSED = -16,      /* the node or the client was closed */
    HIND_TAKEN = -17,       /* another process has this name (hindsight_nats.h), or this pool file */
    HIND_AWAY = -18,        /* the broker is not there, or does not answer as it should (hindsight_nats.h) */
    HIND_DRY = -19          /* of a point: no buffer was free, so the record is lost. The request goes on, and its trace will not be called whole */
};

/* A sentence on an answer, and its name, as "HIND_INVALID". Never NULL, static. For a number that is no answer: "unknown code". */
HIND_API const char *hind_strerror(hind_code code);
HIND_API const char *hind_errname(hind_code code);
/* HIND_VERSION_NUMBER of the library that is linked, and its text. */
HIND_API uint32_t hind_version(void);
HIND_API const char *hind_version_string(void);
/* Why settings were refused by the last HIND_SETTINGS of this thread, static: "" before the first. *line, where `line` is not NULL, counts from
 * 1, and is 0 where all lines together are the reason. */
HIND_API const char *hind_settings_error(uint32_t *line);

/* ---- identities ---- */

typedef struct {
    uint8_t bytes[16];
} hind_trace_id; /* in the order of W3C's text; all zero is no trace */

typedef struct {
    uint8_t bytes[8];
} hind_span_id; /* all zero is no span */

typedef uint16_t hind_node_id;
#define HIND_NO_NODE ((hind_node_id)0xFFFF)

/* A fresh random id, never all zero. HIND_INVALID, or HIND_SYSTEM where the system gives no random bytes: then `id` is all zero. */
HIND_API hind_code hind_new_trace(hind_trace_id *id);
HIND_API hind_code hind_new_span(hind_span_id *id);

/* ---- context: the headers traceparent and tracestate of W3C ---- */

#define HIND_TRACEPARENT_SIZE 56 /* with the final 0 */
#define HIND_TRACESTATE_SIZE 513

/* What a request carries: its trace, the span of who sent it, the flags of traceparent, and the node that sent it, or HIND_NO_NODE. */
typedef struct {
    hind_trace_id trace;
    hind_span_id span;
    uint8_t flags;
    hind_node_id node;
} hind_context;

/* A context of a fresh trace, as of a request that came with none: no span, no flags, no node. As hind_new_trace, of which it takes the trace. */
HIND_API hind_code hind_new_context(hind_context *context);

/* Reads the two headers; several tracestate headers are one, joined by commas, and NULL is none. HIND_INVALID where W3C calls traceparent
 * invalid, or it is NULL: then hind_new_context starts a trace of your own. A tracestate that is invalid is as none. Flags that a later version of traceparent may have are
 * dropped. */
HIND_API hind_code hind_context_read(const char *traceparent, const char *tracestate, hind_context *context);

/* Writes them for the next hop: version 00, and in tracestate the entry "hind=1-XXXX" of `context->node` (four hexadecimal digits), in front
 * of those of `before` (the tracestate that came, or NULL). HIND_NO_NODE writes no entry. An older entry of ours goes. So do, where there
 * are more than 32 entries or 512 bytes, those behind, entries of more than 128 bytes first. A `before` that is invalid is as none.
 * HIND_INVALID where the trace or the span is all zero. */
HIND_API hind_code hind_context_write(const hind_context *context, const char *before, char traceparent[HIND_TRACEPARENT_SIZE], char tracestate[HIND_TRACESTATE_SIZE]);

/* ---- the node: one for each process ---- */

typedef struct hind_node hind_node;
typedef struct hind_client hind_client;

typedef struct {
    size_t size;          /* sizeof(hind_node_options) */
    uint32_t abi;         /* HIND_ABI */
    hind_node_id node;    /* this process: its own number below `nodes` of the settings */
    uint64_t epoch;       /* tells this life of the node from those before, which had lower ones. 0: microseconds since 1970, by the clock */
    const char *settings; /* docs/FORMATS.md, "Settings of a service" */
    size_t settings_len;
    const char *name;     /* of the node, where its records are shown: at most 64 bytes. NULL: none. It is copied */
    const char *pool_file; /* where the node's buffers lie, so that they outlive the process: best on a tmpfs, as /dev/shm/NAME. NULL: in memory alone */
    uint32_t pool_kept;   /* how many files of earlier lives are kept beside it, each as large as the pool, at most 64. 0: 2 */
    uint32_t spare;       /* 0 */
} hind_node_options;
#define HIND_NODE_OPTIONS_INIT { sizeof(hind_node_options), HIND_ABI, 0, 0, NULL, 0, NULL, NULL, 0, 0 }

/* Opens a node: OK, INVALID (also where `pool_file` is another file), ABI_WRONG, TOOLONG (the name, or the pool file's), SETTINGS, UNDECLARED (no such
 * node), NOMEM, and where there is a pool file TAKEN, MANY (64 pool files are open), SYSTEM. *node is NULL on any answer but OK.
 * What lies at the pool file's path is set aside as PATH.EPOCH, unless it shows no page, and nothing of it is written over. The pages that earlier
 * lives of this node left there are handed out as theirs where what the node tells of a group names their trace. */
HIND_API HIND_CHECK hind_code hind_node_open(const hind_node_options *options, hind_node **node);
/* Closes a node, while no other call on the node itself is under way; its clients may be inside calls. What was not handed out is lost. Its
 * clients answer HIND_CLOSED from now on; the memory goes with the last of them. OK, also for NULL, and FORKED. */
HIND_API hind_code hind_node_close(hind_node *node);

/* One pass of bounded work: takes what clients wrote, evicts, pins, reports. OK where a message is to be handed out, NOTHING where none is, FORKED;
 * NOMEM where memory was refused and the node takes nothing any more: close it, and open another. Some thread has to make passes, a thousand in a
 * second or as many as keep clients from FULL, or nothing that they wrote is taken. */
HIND_API hind_code hind_node_pass(hind_node *node);

typedef struct {
    uint64_t number;      /* of a node's message; 0 of a hub's */
    hind_node_id to;      /* the node that a hub's message asks; HIND_NO_NODE of a node's message, which goes to the hub */
    const uint8_t *bytes; /* until the next call that gives a message of this node or hub */
    size_t len;           /* at most 32,831 */
} hind_message;

/* The next message that is to be handed out to the hub: OK, NOTHING. It stays the next one until hind_node_sent. */
HIND_API hind_code hind_node_next(hind_node *node, hind_message *message);
/* It was handed over; it waits until it is acknowledged. NOTHING where another one is the next. */
HIND_API hind_code hind_node_sent(hind_node *node, uint64_t number);
/* Whoever carries it keeps it safe from now on. NOTHING where no such message waits. */
HIND_API hind_code hind_node_acknowledged(hind_node *node, uint64_t number);
/* What waits for its acknowledgement is to be handed out anew, as after a connection was lost. */
HIND_API hind_code hind_node_again(hind_node *node);
/* A message of the hub for this node: OK, FULL, REFUSED (any other bytes, or an ask of a trigger id that the settings do not declare). */
HIND_API hind_code hind_node_deliver(hind_node *node, const void *bytes, size_t len);
/* Says once more who the node is, as hind_node_open does: for a hub that started anew. OK, FULL, SPENT. */
HIND_API hind_code hind_node_hello(hind_node *node);
/* A descriptor that can be read while hind_node_next has a message, as calls on the node left it; only passes make more. It is the node's, and
 * nobody else reads it. -1: see errno. */
HIND_API int hind_node_fd(hind_node *node);

/* What a node did since it was opened. Numbers of clients are of all of them together, each as it was at its last hind_end, hind_flush or
 * hind_client_get_counts. */
typedef struct {
    size_t size;                /* sizeof(hind_node_counts), set by the caller */
    uint64_t passes;            /* calls of hind_node_pass that took what came */
    uint64_t clients;           /* of the settings, */
    uint64_t used_clients;      /* .. and those that a thread or somebody else has now */
    uint64_t points;            /* as in hind_client_counts, to dropped_notes */
    uint64_t null_pages;
    uint64_t stray_points;
    uint64_t full_points;
    uint64_t long_points;
    uint64_t spent_points;
    uint64_t refused_crumbs, refused_triggers;
    uint64_t dropped_notes;
    uint64_t messages;          /* that were handed out, each counted once. Of them these were */
    uint64_t hellos;            /* .. who the node is, */
    uint64_t tells;             /* .. what it says of triggers and crumbs, and its answers to asks, */
    uint64_t reports;           /* .. pages of claimed traces, */
    uint64_t standings;         /* .. and how whole its part of a trace is */
    uint64_t repeats;           /* messages that were handed out anew, after hind_node_again */
    uint64_t acknowledged;      /* messages that are not kept any more */
    uint64_t unacknowledged;    /* messages that were handed out and are kept: now */
    uint64_t asks;              /* messages of the hub that were taken, */
    uint64_t full_asks;         /* .. that found no place, */
    uint64_t refused_asks;      /* .. and bytes that were no ask for this node */
    uint64_t salvaged;          /* pages that earlier lives left: those that were handed out and are not kept any more, */
    uint64_t torn;              /* .. those that do not read, */
    uint64_t salvaging;         /* .. and messages of earlier lives that were handed out and are kept: now. `messages` and the like have none of these */
    uint64_t limited_triggers;  /* triggers that a pass took and that admitted no group: above the rate of their id, or `claims` is full */
} hind_node_counts;
/* OK, INVALID (`size` is none that this library knows), FORKED. */
HIND_API hind_code hind_node_get_counts(hind_node *node, hind_node_counts *counts);

/* ---- clients: who writes ---- */

/* The client of the calling thread. The first call in a thread takes one; when the thread ends, its trace is ended and the client waits for
 * another thread. OK, INVALID, MANY, FULL (those that wait have a trace that no pass has ended yet), NOMEM, SYSTEM, FORKED. *client is NULL on
 * any answer but OK. */
HIND_API HIND_CHECK hind_code hind_client_get(hind_node *node, hind_client **client);
/* A client of no thread, for goroutines and coroutines. Who hands it on sees to it that one call ends before the next begins. */
HIND_API HIND_CHECK hind_code hind_client_open(hind_node *node, hind_client **client);
/* Ends the client's trace and gives the client back. A thread's own client is given back by that thread alone. OK, also for NULL; INVALID (it is
 * another thread's), BUSY, FORKED, CLOSED (it was given back). */
HIND_API hind_code hind_client_close(hind_client *client);

/* Each call from here to hind_write answers also INVALID where an argument may not be NULL, BUSY, FORKED and CLOSED. */

/* Opens a trace; what follows belongs to it until hind_end. A segment begins a buffer of its own with its first point, so end a trace where the
 * thread turns to another one. OK, INVALID (all zero is no trace), OPEN, SPENT. */
HIND_API hind_code hind_begin(hind_client *client, const hind_trace_id *trace);
/* Opens the trace of a request that came, and leaves a crumb to the node that sent it, if the context names one. What the crumb answers is not
 * told: it may have found no place, or the settings have no such node. */
HIND_API hind_code hind_begin_from(hind_client *client, const hind_context *context);
/* Records bytes in the open trace, now or at a moment in nanoseconds since 1970. `payload` may be NULL where `len` is 0. OK, NOTRACE, TOOLONG (above
 * 65,535 bytes), FULL, SPENT, DRY.
 * DRY: the record needed a buffer, and none was free. It is lost, or a part of it where it takes several buffers. Do not write it again. The trace is
 * still open, and its request goes on; it will not be called whole, and says what it lost if it is claimed. Records behind it are lost as well and answer
 * OK, as many as the buffer would have held. Where no point of a segment answers DRY, none of its records was lost for want of a buffer.
 * hind_client_get_counts has the record in `points`, and what found no buffer in `null_pages`. */
HIND_API hind_code hind_point(hind_client *client, const void *payload, size_t len);
HIND_API hind_code hind_point_at(hind_client *client, uint64_t moment, const void *payload, size_t len);
/* The same of pieces that lie in several places, as one record. `pieces` may be NULL where `count` is 0, a piece's base where its length is 0. Each
 * client has 64 KiB in which they are put together; the system gives that memory when it is first used. */
HIND_API hind_code hind_pointv(hind_client *client, const struct iovec *pieces, size_t count);
HIND_API hind_code hind_pointv_at(hind_client *client, uint64_t moment, const struct iovec *pieces, size_t count);
/* The open trace goes on at, or came from, this node. Either end may say so; both is fine. OK, NOTRACE, FULL, UNDECLARED. */
HIND_API hind_code hind_crumb(hind_client *client, hind_node_id node);
/* The same of any trace, open or not: an answer may name its node after hind_end. OK, INVALID (all zero), FULL, UNDECLARED. */
HIND_API hind_code hind_crumb_of(hind_client *client, const hind_trace_id *trace, hind_node_id node);
/* Claims a trace, NULL for the open one, with at most 32 laterals. It may come seconds after the trace ended. OK, INVALID (all zero, or more
 * laterals), NOTRACE (NULL, and none is open), FULL, UNDECLARED. What is above the trigger id's rate is dropped by a later pass. */
HIND_API hind_code hind_trigger(hind_client *client, uint8_t trigger, const hind_trace_id *lead, const hind_trace_id *laterals, size_t count);
/* A value of the open trace for an autotrigger, by its number in the settings. OK, NOTRACE, FULL, UNDECLARED. */
HIND_API hind_code hind_sample(hind_client *client, uint32_t autotrigger, uint64_t value);
/* Ends the trace and hands its last buffer over. OK, NOTRACE, FULL: then it is still open. */
HIND_API hind_code hind_end(hind_client *client);
/* Hands over what waits for a place, and how much still waits where `waits` is not NULL. Each other call does so too: this one is for a client
 * that makes none for a while. No pass takes what waits in a client that is in use. */
HIND_API hind_code hind_flush(hind_client *client, uint64_t *waits);
/* Many calls at once (docs/FORMATS.md, "Many calls in one"), for languages in which a call of C is dear. Goes on to the first that does not
 * answer OK, and answers what that one does, DRY too: go on behind that point; REFUSED where bytes spell no call. *calls, where not NULL, is how many were done, *used how many
 * bytes they have. Any bytes may come. */
HIND_API hind_code hind_write(hind_client *client, const void *bytes, size_t len, size_t *calls, size_t *used);

/* The open trace: OK, NOTRACE. */
HIND_API hind_code hind_client_trace(const hind_client *client, hind_trace_id *trace);

typedef struct {
    size_t size;                /* sizeof(hind_client_counts), set by the caller */
    uint64_t points;            /* recorded */
    uint64_t null_pages;        /* pages that found no buffer: what was written on them is lost */
    uint64_t stray_points;      /* refused: no trace was open, */
    uint64_t full_points;       /* .. too much waited, */
    uint64_t long_points;       /* .. the payload was too long, */
    uint64_t spent_points;      /* .. numbers had come to their end */
    uint64_t refused_crumbs, refused_triggers;
    uint64_t dropped_notes;     /* notes to the node that found no place */
} hind_client_counts;
/* What the client did since the node was opened, also for threads that had it before. OK, INVALID (`size` is none that this library knows). */
HIND_API hind_code hind_client_get_counts(hind_client *client, hind_client_counts *counts);

/* ---- the span profile: payloads that a hub can turn into spans (docs/FORMATS.md, "The span profile") ---- */

enum { HIND_KIND_INTERNAL = 1, HIND_KIND_SERVER = 2, HIND_KIND_CLIENT = 3, HIND_KIND_PRODUCER = 4, HIND_KIND_CONSUMER = 5 };
enum { HIND_STATUS_UNSET = 0, HIND_STATUS_OK = 1, HIND_STATUS_ERROR = 2 };

#define HIND_SPAN_TEXT 255    /* the most bytes of a name, a key or a message; what is longer is cut, never inside a character of UTF-8 */
#define HIND_SPAN_VALUE 4096  /* the most bytes of an attribute's text */
#define HIND_SPAN_PAYLOAD (HIND_SPAN_VALUE + HIND_SPAN_TEXT + 12) /* the most bytes of a payload of the profile */

/* Each writes a payload into `out`, which has HIND_SPAN_PAYLOAD bytes, and answers how many it has. 0 where an argument is NULL, a span is
 * all zero, a kind or status is unknown, or a key is empty. A message may be NULL: it is empty. A parent of all zero is none. */
HIND_API size_t hind_put_span_start(uint8_t *out, hind_span_id span, hind_span_id parent, int kind, const char *name);
HIND_API size_t hind_put_span_end(uint8_t *out, hind_span_id span, int status, const char *message);
HIND_API size_t hind_put_span_event(uint8_t *out, hind_span_id span, const char *name);
HIND_API size_t hind_put_span_text(uint8_t *out, hind_span_id span, const char *key, const char *value);
HIND_API size_t hind_put_span_int(uint8_t *out, hind_span_id span, const char *key, int64_t value);
HIND_API size_t hind_put_span_double(uint8_t *out, hind_span_id span, const char *key, double value);
HIND_API size_t hind_put_span_bool(uint8_t *out, hind_span_id span, const char *key, int value);

/* The same as records of the open trace, now: INVALID where the payload cannot be written, else what hind_point answers. */
HIND_API hind_code hind_span_start(hind_client *client, hind_span_id span, hind_span_id parent, int kind, const char *name);
HIND_API hind_code hind_span_end(hind_client *client, hind_span_id span, int status, const char *message);
HIND_API hind_code hind_span_event(hind_client *client, hind_span_id span, const char *name);
HIND_API hind_code hind_span_text(hind_client *client, hind_span_id span, const char *key, const char *value);
HIND_API hind_code hind_span_int(hind_client *client, hind_span_id span, const char *key, int64_t value);
HIND_API hind_code hind_span_double(hind_client *client, hind_span_id span, const char *key, double value);
HIND_API hind_code hind_span_bool(hind_client *client, hind_span_id span, const char *key, int value);

/* What a payload of the profile says. Texts lie in the payload and have no final 0. */
enum { HIND_SPAN_START = 1, HIND_SPAN_END = 2, HIND_SPAN_EVENT = 3, HIND_SPAN_ATTRIBUTE = 4 };
enum { HIND_VALUE_TEXT = 0, HIND_VALUE_INT = 1, HIND_VALUE_DOUBLE = 2, HIND_VALUE_BOOL = 3 };
typedef struct {
    int what;            /* HIND_SPAN_START .. */
    hind_span_id span;
    hind_span_id parent; /* of a start */
    int kind;            /* of a start */
    int status;          /* of an end */
    const char *text;    /* a start's or an event's name, an end's message, an attribute's key */
    size_t text_len;
    int type;            /* of an attribute: HIND_VALUE_TEXT .. */
    const char *value;   /* of type HIND_VALUE_TEXT */
    size_t value_len;
    int64_t integer;     /* of types HIND_VALUE_INT and HIND_VALUE_BOOL */
    double real;         /* of type HIND_VALUE_DOUBLE */
} hind_span_record;

/* 1 where the bytes are a payload of the profile, and `record` says what it says; 0 where they are any other payload. */
HIND_API int hind_read_span(const void *payload, size_t len, hind_span_record *record);

/* ---- the hub: one for a service ---- */

typedef struct hind_hub hind_hub;
typedef struct hind_trace hind_trace;

typedef struct {
    size_t size;          /* sizeof(hind_hub_options) */
    uint32_t abi;         /* HIND_ABI */
    uint64_t epoch;       /* tells this life of the hub from those before, which had lower ones. 0: microseconds since 1970, by the clock */
    const char *settings; /* those of the nodes, but for lines that are a hub's alone */
    size_t settings_len;
    uint32_t is_fresh;    /* 1: no hub of the service was before this one, nor a life of a node of which it will not hear. Then it is sure of the first
                           * life of each node at once. 0: it is sure of each life only after half a minute, at ten passes a second, and calls no trace
                           * whole whose first message came before it was sure of the trace's nodes */
    uint32_t spare;       /* 0 */
} hind_hub_options;
#define HIND_HUB_OPTIONS_INIT { sizeof(hind_hub_options), HIND_ABI, 0, NULL, 0, 0, 0 }

/* Opens a hub: OK, INVALID, ABI_WRONG, SETTINGS, NOMEM. *hub is NULL on any answer but OK. */
HIND_API HIND_CHECK hind_code hind_hub_open(const hind_hub_options *options, hind_hub **hub);
/* OK, also for NULL, and FORKED. The traces that it gave stay until they are freed. */
HIND_API hind_code hind_hub_close(hind_hub *hub);
/* A message of a node. OK and REFUSED (it is none that a hub takes): it may be acknowledged at once. HELD: it may be when hind_hub_acknowledge
 * names it. FULL and NOMEM: nothing changed, and it is to be delivered again. */
HIND_API hind_code hind_hub_deliver(hind_hub *hub, const void *bytes, size_t len);
/* The next ask, with the node that it goes to: OK, NOTHING. It counts as sent. */
HIND_API hind_code hind_hub_next(hind_hub *hub, hind_message *message);
/* A pass goes by, which is what a hub counts time in. Ten in a second suit the times that docs/RULES.md names. */
HIND_API hind_code hind_hub_pass(hind_hub *hub);
/* Gives a trace, which is to be freed: OK, NOTHING (none may go), NOMEM. While it is not called saved, the hub holds it, and gives it again. */
HIND_API HIND_CHECK hind_code hind_hub_take(hind_hub *hub, hind_trace **trace);
/* The trace that hind_hub_take gave last is safe elsewhere: OK, NOTHING (it was another one, or none was given since). */
HIND_API hind_code hind_hub_saved(hind_hub *hub, const hind_trace_id *trace);

typedef struct {
    hind_node_id node; /* that sent it */
    uint64_t epoch;    /* of the life that did */
    uint64_t number;
} hind_message_id;
/* A message that may be acknowledged to whoever carries it, each once: OK, NOTHING. */
HIND_API hind_code hind_hub_acknowledge(hind_hub *hub, hind_message_id *message);

typedef struct {
    size_t size; /* sizeof(hind_hub_counts), set by the caller */
    uint64_t passes;
    uint64_t groups, traces, bytes, standings, messages; /* held now: messages once for each trace that they serve */
} hind_hub_counts;
HIND_API hind_code hind_hub_get_counts(hind_hub *hub, hind_hub_counts *counts);

typedef struct {
    size_t size; /* sizeof(hind_trace_info), set by the caller */
    hind_trace_id id;
    uint32_t part;    /* 0, or which later part of the trace this is: what came after a part was saved */
    uint8_t trigger;  /* the id of the first trigger that claims it */
    int is_whole;     /* 1 where the hub says that all that any node wrote of it is here, in this part or one before */
    size_t lives;     /* of nodes: those that wrote, that spoke of it, or that were asked */
    size_t records;
} hind_trace_info;
HIND_API hind_code hind_trace_get_info(const hind_trace *trace, hind_trace_info *info);

typedef struct {
    hind_node_id node;
    uint64_t epoch;        /* 0 of a node that was asked, and of which nothing is known */
    const char *name;      /* "" where it is not known */
    const char *wholeness; /* in words */
    size_t records;        /* of the trace's, this life's follow those of the lives before */
} hind_trace_life;
/* By their places from 0 on: OK, INVALID. What they point to stands until hind_trace_free. */
HIND_API hind_code hind_trace_get_life(const hind_trace *trace, size_t at, hind_trace_life *life);

typedef struct {
    hind_node_id node;
    uint16_t client;
    uint64_t epoch;
    uint64_t core;    /* which renewal of the client wrote it; UINT64_MAX of one that its process left: no page says */
    uint64_t number;  /* among the core's records, of this trace and others */
    uint64_t missing; /* numbers of the core that are missing in front of it, of this trace or of others */
    uint64_t moment;
    const uint8_t *payload;
    size_t len;
} hind_record;
/* In the order of node, epoch, client, core and number: OK, INVALID. */
HIND_API hind_code hind_trace_get_record(const hind_trace *trace, size_t at, hind_record *record);
/* Has `take` take the trace as one line of OTLP's JSON, with its newline (docs/FORMATS.md, "A trace as OTLP"): OK, INVALID, NOMEM. The line stands
 * until `take` returns. */
HIND_API hind_code hind_trace_otlp(const hind_trace *trace, void (*take)(void *closure, const char *line, size_t len), void *closure);
HIND_API void hind_trace_free(hind_trace *trace);

/* ---- what a process left: the pool file of a node that has ended, which is only read (docs/FORMATS.md, "The pool file") ---- */

typedef struct hind_salvage hind_salvage;

/* Opens a pool file: OK, INVALID (it is none), TAKEN (a process has it), NOMEM, SYSTEM. *salvage is NULL on any answer but OK. */
HIND_API HIND_CHECK hind_code hind_salvage_open(const char *pool_file, hind_salvage **salvage);
/* NULL is none. */
HIND_API void hind_salvage_close(hind_salvage *salvage);

typedef struct {
    size_t size;       /* sizeof(hind_salvage_info), set by the caller */
    hind_node_id node;
    uint64_t epoch;
    const char *name;  /* of the node. It stands, as all that these calls give, until hind_salvage_close */
    uint64_t opened;   /* when the life began, in nanoseconds since 1970 */
    size_t buffers;    /* of the pool. Of them these many */
    size_t pages;      /* .. show a page with a record, */
    size_t torn;       /* .. show something that is no page; the others show nothing */
} hind_salvage_info;
HIND_API hind_code hind_salvage_get_info(const hind_salvage *salvage, hind_salvage_info *info);

typedef struct {
    hind_trace_id trace;
    uint16_t client;
    uint32_t page;    /* among those of the client's core */
    uint32_t first;   /* the number of its first record; each next record on the page has the next one */
    size_t records;   /* of a record that takes several pages each has a piece */
} hind_salvaged_page;
/* By their places from 0 on, those of a trace together: OK, INVALID. */
HIND_API hind_code hind_salvage_get_page(const hind_salvage *salvage, size_t at, hind_salvaged_page *page);
/* A record of the page at this place: OK, INVALID. Its `missing` is 0. */
HIND_API hind_code hind_salvage_get_record(hind_salvage *salvage, size_t page, size_t at, hind_record *record);

#ifdef __cplusplus
}
#endif
#endif
