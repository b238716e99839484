/* The calls of the proved core (crates/hs_c), as C sees them. The library's own C sources include this; services do not.
 *
 * A handle is zeroed before its first use, is never copied while it is in use, and takes one call at a time. A handle that was moved is
 * forgotten at its old place. Every call answers one of the codes below, and any answer but HINDCORE_DONE and HINDCORE_DRY has done
 * nothing but put what waited in outboxes through. */
#ifndef HINDCORE_H
#define HINDCORE_H
#include <stddef.h>
#include <stdint.h>
#ifdef __cplusplus
extern "C" {
#endif

enum {
    HINDCORE_DONE = 0,
    HINDCORE_VACANT = 1,      /* the handle is vacant */
    HINDCORE_BUSY = 2,        /* a handle that is to be filled is in use */
    HINDCORE_MEMORY = 3,      /* memory is wanting */
    HINDCORE_SETTINGS = 4,    /* the settings are refused: a line and a reason say why */
    HINDCORE_UNFIT = 5,       /* a number is not what the settings allow */
    HINDCORE_NO_TRACE = 6,    /* no trace is open */
    HINDCORE_OPEN = 7,        /* a trace is open already */
    HINDCORE_TOO_WIDE = 8,    /* the payload is longer than a record may have */
    HINDCORE_FULL = 9,        /* the outbox has fewer places than the call asks for */
    HINDCORE_UNKNOWN = 10,    /* there is no such node, trigger id, autotrigger or client */
    HINDCORE_SPENT = 11,      /* numbers end: the calls of this trace, or the draws of the client */
    HINDCORE_NOTHING = 12,    /* nothing came */
    HINDCORE_NO_MESSAGE = 13, /* the bytes spell no message */
    HINDCORE_SHORT = 14,      /* the slice is too short for what it is to take */
    HINDCORE_HELD = 15,       /* the message waits until what it serves is saved */
    HINDCORE_DRY = 16,        /* a point was done, but the pool had no buffer for a page of it: what goes to that page is lost */
    HINDCORE_TORN = 17        /* the bytes do not show the page that their counts speak of */
};

/* A trace id, its highest byte first. */
typedef struct {
    uint8_t bytes[16];
} hindcore_trace;

/* ---- clients: what a thread writes with ---- */

/* A handle. Two that are aligned by 128 share no cache line. */
typedef struct {
    struct {
        void *at;
    } slot;
    uint32_t live;
    uint32_t pad[29];
} hindcore_client;

typedef struct {
    struct {
        void *at;
    } slot;
    uint32_t live;
    uint32_t pad[29];
} hindcore_port;

/* Why settings are refused: a line, from 1, and the number of a reason: 1 Truncated, 2 Byte, 3 Spaces, 4 Word, 5 Twice, 6 Count, 7 Number,
 * 8 Range, 9 Order, 10 Unknown (docs/FORMATS.md, "Settings of a service"); 11, at line 0, where all lines together leave no buffer. */
typedef struct {
    uint64_t line;
    uint32_t reason;
} hindcore_fault;

/* What a client did since it was made, and what it refused, by cause. */
typedef struct {
    uint64_t points;
    uint64_t null_pages;
    uint64_t stray_points;
    uint64_t full_points;
    uint64_t long_points;
    uint64_t spent_points;
    uint64_t refused_crumbs;
    uint64_t refused_triggers;
    uint64_t dropped_notes;
} hindcore_count;

/* Makes the clients of node `node` and their port, by the text of a service's settings. All memory of their lives is taken here. DONE, BUSY,
 * MEMORY, SETTINGS (`fault` says where), or UNFIT: the settings have no such node. */
uint32_t hindcore_open(const uint8_t *text, size_t len, uint16_t node, hindcore_port *port, hindcore_fault *fault);
/* Hands the next client of the port out: DONE, VACANT (the port is), BUSY (the client's handle is in use), NOTHING (all were handed out). */
uint32_t hindcore_client_open(hindcore_port *port, hindcore_client *client);

/* Opens a trace: DONE, OPEN, SPENT. */
uint32_t hindcore_begin(hindcore_client *client, const hindcore_trace *trace);
/* Records a payload at a moment: DONE, NO_TRACE, TOO_WIDE (above 65,535 bytes), FULL, SPENT, or DRY: it is counted and done, but a page that it began
 * got no buffer. What goes to that page is lost, and a record behind that still fits there is DONE. */
uint32_t hindcore_point(hindcore_client *client, uint64_t moment, const uint8_t *payload, size_t len);
/* The open trace goes on to a node: DONE, NO_TRACE, FULL, UNKNOWN. */
uint32_t hindcore_crumb(hindcore_client *client, uint16_t node);
/* The same of a trace that need not be open: DONE, FULL, UNKNOWN. */
uint32_t hindcore_crumb_of(hindcore_client *client, const hindcore_trace *trace, uint16_t node);
/* Claims a trace and at most 32 laterals, at a moment in microseconds: DONE, FULL, UNKNOWN, UNFIT (more laterals). */
uint32_t hindcore_trigger(hindcore_client *client, uint64_t moment, uint8_t trigger, const hindcore_trace *lead, const hindcore_trace *laterals, size_t count);
/* A value of the open trace for an autotrigger, by its number: DONE, NO_TRACE, FULL, UNKNOWN. */
uint32_t hindcore_sample(hindcore_client *client, uint64_t moment, uint32_t autotrigger, uint64_t value);
/* Closes the open trace: DONE, NO_TRACE, FULL. */
uint32_t hindcore_end(hindcore_client *client);
/* Puts into the rings what waits, and writes how much still waits. */
uint32_t hindcore_flush(hindcore_client *client, uint64_t *waits);
uint32_t hindcore_counts(hindcore_client *client, hindcore_count *counts);
/* Frees what stands behind the handle, which is vacant from then on. What waited in outboxes is gone. A port has no other in its place: who
 * has threads that come and go keeps their clients for the next ones. */
uint32_t hindcore_client_free(hindcore_client *client);

/* ---- the port: what takes from the clients of a node ---- */

/* Takes the next chunk of a client, by its number, and gives its buffer back: DONE, NOTHING, UNKNOWN, or FULL where the pool did not take the
 * buffer in a million tries: then it is gone. */
uint32_t hindcore_take(hindcore_port *port, uint16_t client);
/* Takes what came of a client's notes: one of its segments, and one of its crumbs of traces that need not be open. */
uint32_t hindcore_take_notes(hindcore_port *port, uint16_t client);
uint32_t hindcore_port_free(hindcore_port *port);

/* ---- the node: the agent of a process, with its clients ---- */

typedef struct {
    struct {
        void *at;
    } slot;
    uint32_t live;
    uint32_t pad[29];
} hindcore_node;

/* The digest of the settings that all nodes share. */
typedef struct {
    uint8_t bytes[32];
} hindcore_digest;

/* Makes node `number` in the life of this epoch, with its clients, by the text of a service's settings: DONE, BUSY, MEMORY, SETTINGS (`fault`
 * says where), UNFIT (the settings have no such node). All memory of its life that has a fixed size is taken here. A node takes one call at a
 * time; its clients may be in use by other threads meanwhile. */
uint32_t hindcore_node_open(const uint8_t *text, size_t len, uint16_t number, uint64_t epoch, hindcore_node *node, hindcore_fault *fault);
/* Hands the next client out, that of the highest number first: DONE, VACANT (the node is), BUSY (the client's handle is in use), NOTHING (all were
 * handed out). */
uint32_t hindcore_node_client(hindcore_node *node, hindcore_client *client);
/* Says who the node is: DONE, FULL (no place), UNFIT (the name has more than 64 bytes), SPENT (the numbers of its epoch have ended). */
uint32_t hindcore_node_hello(hindcore_node *node, const hindcore_digest *digest, const uint8_t *name, size_t len);
/* Makes a pass, and writes 1 where a message is to be handed out, else 0: DONE, or SPENT (the node takes nothing any more for want of memory). */
uint32_t hindcore_node_pass(hindcore_node *node, uint32_t *says);
/* Copies the next message that is to be handed out to the front of `out`, and writes its number and how many bytes it has: DONE, NOTHING, SHORT
 * (`len` says how many it has). None has more than 32,831 bytes. */
uint32_t hindcore_node_next(hindcore_node *node, uint64_t *number, uint8_t *out, size_t room, uint64_t *len);
/* That message was handed out: DONE, NOTHING (it has another number). */
uint32_t hindcore_node_sent(hindcore_node *node, uint64_t number);
/* The message of this number need not be kept any more: DONE, NOTHING (none of this number waits). */
uint32_t hindcore_node_acknowledged(hindcore_node *node, uint64_t number);
/* All that was not acknowledged is to be handed out anew. */
uint32_t hindcore_node_again(hindcore_node *node);
/* Delivers an ask for this node: DONE, FULL (no place until the next pass), NO_MESSAGE (it is no ask for this node, or of an id that the settings do
 * not declare). */
uint32_t hindcore_node_deliver(hindcore_node *node, const uint8_t *bytes, size_t len);
/* Writes how many triggers of clients admitted no group since the node was made: the bucket of their id had no token, no number was left, or what
 * they may claim had no place. */
uint32_t hindcore_node_limited(hindcore_node *node, uint64_t *count);
/* Frees what stands behind the handle, which is vacant from then on. Clients go on, and what they send comes nowhere. */
uint32_t hindcore_node_free(hindcore_node *node);

/* ---- messages ---- */

/* How a message begins: its kind (1 Hello, 2 Told, 3 Ask, 4 Reported, 5 Standing), the node that speaks, of an ask the node that is
 * asked, the sender's epoch, and which message of that epoch it is. */
typedef struct {
    uint32_t kind;
    uint32_t node;
    uint64_t epoch;
    uint64_t number;
} hindcore_head;

/* DONE, or NO_MESSAGE: then `head` stays as it is. */
uint32_t hindcore_message_head(const uint8_t *bytes, size_t len, hindcore_head *head);
/* Reads a message and writes it to the front of `out`: DONE, NO_MESSAGE, or SHORT. What is written is what was read, byte for byte. */
uint32_t hindcore_message_copy(const uint8_t *bytes, size_t len, uint8_t *out, size_t room);

/* ---- pages as they lie in buffers ---- */

/* A page at the front of a buffer: its trace, its number among the pages of its client, the number of the record that its first piece is of, the node
 * and the client that wrote it, how many pieces it has, and how many bytes of the buffer are its. */
typedef struct {
    hindcore_trace trace;
    uint32_t page;
    uint32_t record;
    uint16_t node;
    uint16_t client;
    uint32_t pieces;
    uint64_t len;
} hindcore_page;

/* A piece of a page: the moment of its record, and how many bytes its payload has. */
typedef struct {
    uint64_t moment;
    uint64_t len;
} hindcore_piece;

/* Reads a buffer as it lies there, also as it was left between any two steps of writing (docs/FORMATS.md, "The page"): DONE, SHORT (the bytes have no
 * room for a header), NOTHING (no byte is used), TORN (no page of as many used bytes and pieces as the counts say stands there), MEMORY. DONE writes
 * the page, which may have no piece yet, and its first pieces to the front of `pieces`, as far as there is room. Any other answer writes nothing. */
uint32_t hindcore_page_read(const uint8_t *bytes, size_t len, hindcore_page *page, hindcore_piece *pieces, size_t room);

/* ---- the hub: what hears nodes, and gives traces out ---- */

typedef struct {
    struct {
        void *at;
    } slot;
    uint32_t live;
    uint32_t pad[29];
} hindcore_hub;

/* A message of a node: the node, the epoch of the life that sent it, and its number there. */
typedef struct {
    uint16_t node;
    uint64_t epoch;
    uint64_t number;
} hindcore_message_id;

/* Makes a hub by the text of a service's settings, which speaks in the life of this epoch: DONE, BUSY, MEMORY, SETTINGS (`fault` says where).
 * It is fresh, 1, where no hub of the service was before it: then it is sure of the first life that it hears of a node. Else, 0, it is sure of each
 * life only after as many passes as a trace waits. */
uint32_t hindcore_hub_open(const uint8_t *text, size_t len, uint64_t epoch, uint32_t is_fresh, hindcore_hub *hub, hindcore_fault *fault);
/* Takes a message of a node. DONE and NO_MESSAGE (it is none that a hub takes): it may be acknowledged at once. HELD: it may be when
 * hindcore_hub_acknowledge names it. FULL (too much for now) and MEMORY: nothing changed, and it is to be delivered again. */
uint32_t hindcore_hub_deliver(hindcore_hub *hub, const uint8_t *bytes, size_t len);
/* Writes the next ask as a message, which counts as sent then, and how many bytes it has: DONE, NOTHING, SHORT (`len` says how many it takes),
 * UNFIT (it has no spelling). */
uint32_t hindcore_hub_next(hindcore_hub *hub, uint8_t *out, size_t room, uint64_t *len);
/* A pass goes by, which is what a hub counts time in: who does not answer is asked again where that is due, and traces grow old. */
uint32_t hindcore_hub_pass(hindcore_hub *hub);
/* Gives a trace out: DONE, or NOTHING (none may go, or one is out: then its rows are shown from the first on again). It is held until it is
 * saved. */
uint32_t hindcore_hub_take(hindcore_hub *hub, hindcore_trace *trace);
/* The trace that is out was saved: DONE, and which it was; NOTHING (none was out). */
uint32_t hindcore_hub_saved(hindcore_hub *hub, hindcore_trace *trace);
/* Names a message that may be acknowledged, and was not named yet: DONE, NOTHING. */
uint32_t hindcore_hub_acknowledge(hindcore_hub *hub, hindcore_message_id *message);

/* How much a hub holds: passes so far, groups, traces of which pages wait, bytes of all pages, standings, and messages that wait, once for
 * each trace that they serve. */
typedef struct {
    uint64_t passes;
    uint64_t groups;
    uint64_t traces;
    uint64_t bytes;
    uint64_t standings;
    uint64_t messages;
} hindcore_hub_count;

uint32_t hindcore_hub_counts(hindcore_hub *hub, hindcore_hub_count *counts);
uint32_t hindcore_hub_free(hindcore_hub *hub);

/* ---- the trace that is out: each call answers NOTHING where none is ---- */

/* A row is a piece of a record, which is the whole record or a part of one that takes several pages. Rows come in the order of node, epoch,
 * client, core, page. `number` is the record's among those of the core; `continues` is 1 where the row goes on with the record of the row
 * before. `missing_pages` of the core lie between it and the row before, or the core's beginning, and are not here, with `missing_records`
 * numbers of records; they are of this trace or of others. */
typedef struct {
    uint16_t node;
    uint16_t client;
    uint32_t page;
    uint64_t epoch;
    uint64_t core;
    uint64_t number;
    uint64_t moment;
    uint64_t missing_pages;
    uint64_t missing_records;
    uint64_t len; /* of its payload */
    uint32_t continues;
} hindcore_row;

/* Shows the next row, its payload at the front of `out` as far as there is room: DONE, NOTHING (there is no more). No payload has more than
 * 65,535 bytes. */
uint32_t hindcore_hub_row(hindcore_hub *hub, hindcore_row *row, uint8_t *out, size_t room);
/* Whether the trace is whole, 1 or 0: DONE, MEMORY. 0 where none is out. */
uint32_t hindcore_hub_whole(hindcore_hub *hub, uint32_t *whole);
/* Which part of the trace it is: 0 where none was saved before. */
uint32_t hindcore_hub_part(hindcore_hub *hub, uint32_t *part);

/* A group that claims the trace: its lead, the number that its trigger has at the node which admitted it, the trigger's id, that node, and
 * how many laterals it claims beside the lead. */
typedef struct {
    hindcore_trace lead;
    uint32_t number;
    uint32_t trigger;
    uint16_t node;
    uint32_t laterals;
} hindcore_claim;

/* The group at a place from 0 on, the oldest first, and one of its laterals: DONE, NOTHING. */
uint32_t hindcore_hub_claim(hindcore_hub *hub, uint32_t place, hindcore_claim *claim);
uint32_t hindcore_hub_lateral(hindcore_hub *hub, uint32_t place, uint32_t at, hindcore_trace *trace);

/* A node was not asked, or it was and has answered each ask, or it was and has not. */
enum { HINDCORE_NOT_ASKED = 1, HINDCORE_ANSWERED = 2, HINDCORE_SILENT = 3 };
uint32_t hindcore_hub_node(hindcore_hub *hub, uint16_t node, uint32_t *word);

/* What a life said last: whole since a horizon; lost, with counts; unheard since a horizon; that it cannot say; that so many segments are
 * open; or nothing. */
enum { HINDCORE_WHOLE = 1, HINDCORE_LOST = 2, HINDCORE_UNHEARD = 3, HINDCORE_UNSAID = 4, HINDCORE_UNENDED = 5, HINDCORE_MUTE = 6 };
typedef struct {
    uint32_t word;
    uint32_t open_segments;
    uint64_t horizon;
    uint64_t null_pages;
    uint64_t full_points;
    uint64_t dry_points;
    uint64_t long_points;
    uint64_t refused_crumbs;
    uint64_t evicted_crumbs;
    uint64_t forgotten_crumbs;
    uint64_t evicted_pages;
    uint64_t abandoned_pages;
} hindcore_life;
uint32_t hindcore_hub_life(hindcore_hub *hub, uint16_t node, uint64_t epoch, hindcore_life *life);

typedef struct {
    uint64_t epoch;
    uint16_t node;
} hindcore_life_id;
/* The life at a place from 0 on, of those that spoke of the trace, in the order in which they spoke first: DONE, NOTHING. */
uint32_t hindcore_hub_life_at(hindcore_hub *hub, uint32_t place, hindcore_life_id *life);

#ifdef __cplusplus
}
#endif
#endif
