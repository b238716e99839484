/* hindsight-hub: takes what nodes say from a NATS stream, and saves the traces that they claim.
 *
 *     hindsight-hub SETTINGS FOLDER [--url URL] [--prefix WORD] [--line-bytes N] [--kept-files N] [--counts SECONDS] [--metrics ADDRESS]
 *
 * SETTINGS is the file of the service's settings (docs/FORMATS.md, "Settings of a service"); FOLDER is there, and gets the store. A message is
 * acknowledged to the broker when all that it serves is on the disk. With --counts a line of counts is printed so often. With --metrics http://ADDRESS/metrics has them
 * in Prometheus' form; ADDRESS is a port of 127.0.0.1, or A.B.C.D:PORT. SIGTERM and SIGINT end it. Status 0, 2 where words or settings are wrong, 3 where the broker, the
 * store or the page is not there. */
#include "broker.h"
#include "hubwork.h"
#include "lease.h"
#include "metrics.h"
#include "page.h"
#include "pull.h"
#include <inttypes.h>
#include <signal.h>
#include <stdio.h>
#include <stdlib.h>
#include <string.h>
#include <sys/time.h>
#include <time.h>

enum {
    BATCH = 256,
    PASS = 100,              /* milliseconds */
    LATER = 250,             /* milliseconds until a message that was too much comes again */
    ACK_WAIT = 300,          /* seconds until a message that waits comes again; a trace grows old in a tenth of that */
    MOST_UNACKNOWLEDGED = 4 << 20
};

static volatile sig_atomic_t ends;

static void end(int number) {
    (void)number;
    ends = 1;
}

static int64_t milliseconds(void) {
    struct timespec t;
    clock_gettime(CLOCK_MONOTONIC, &t);
    return (int64_t)t.tv_sec * 1000 + t.tv_nsec / 1000000;
}

/* ---- messages that wait: by node, epoch and number, in a table of open addresses */

/* A message as it stands in the stream. A node that published it twice has two of it there. */
typedef struct copy {
    struct copy *next;
    uint64_t place; /* in the stream */
    char reply[];   /* the subject at which its last delivery is acknowledged */
} copy;

typedef struct {
    uint16_t node;
    uint64_t epoch, number;
    copy *copies; /* NULL: free */
} waiting;

typedef struct {
    waiting *at;
    size_t mask, count; /* one less than the places */
} table;

static size_t place_of(const table *t, uint16_t node, uint64_t epoch, uint64_t number) {
    uint64_t h = (number ^ epoch << 24 ^ (uint64_t)node << 48) * 0x9e3779b97f4a7c15u;
    size_t at = (size_t)(h >> 32) & t->mask;
    while (t->at[at].copies && (t->at[at].node != node || t->at[at].epoch != epoch || t->at[at].number != number)) at = (at + 1) & t->mask;
    return at;
}

static int table_grow(table *t) {
    table bigger = {calloc(t->at ? 2 * (t->mask + 1) : 1024, sizeof(waiting)), t->at ? 2 * t->mask + 1 : 1023, t->count};
    if (!bigger.at) return 0;
    for (size_t i = 0; t->at && i <= t->mask; i++)
        if (t->at[i].copies) bigger.at[place_of(&bigger, t->at[i].node, t->at[i].epoch, t->at[i].number)] = t->at[i];
    free(t->at);
    *t = bigger;
    return 1;
}

/* Where a message stands in the stream, which its reply subject says: $JS.ACK.STREAM.CONSUMER.DELIVERED.PLACE and three words more, or as many with two
 * words in front of the stream. 0 where it says something else. */
static uint64_t place_in_stream(const char *reply) {
    const char *words[12];
    unsigned count = 0;
    for (const char *at = reply; at && count < 12; at = strchr(at, '.'), at = at ? at + 1 : NULL) words[count++] = at;
    if (count != 9 && count < 11) return 0;
    return strtoull(words[count == 9 ? 5 : 7], NULL, 10);
}

/* Keeps a message until it is acknowledged. A delivery of a copy that is kept takes the place of the one before, whose acknowledgement the broker would
 * not take any more; another copy is kept beside it. 0 where memory is wanting. */
static int table_put(table *t, uint16_t node, uint64_t epoch, uint64_t number, const char *reply) {
    if ((!t->at || t->count * 2 > t->mask) && !table_grow(t)) return 0;
    waiting *w = &t->at[place_of(t, node, epoch, number)];
    size_t len = strlen(reply) + 1;
    copy *made = malloc(sizeof *made + len);
    if (!made) return 0;
    made->place = place_in_stream(reply);
    memcpy(made->reply, reply, len);
    t->count += !w->copies;
    copy **at = &w->copies;
    while (*at && (*at)->place != made->place) at = &(*at)->next;
    copy *before = *at;
    made->next = before ? before->next : NULL;
    free(before);
    *at = made;
    w->node = node, w->epoch = epoch, w->number = number;
    return 1;
}

/* Takes a message's copies out, and moves up what stands behind it. */
static copy *table_take(table *t, uint16_t node, uint64_t epoch, uint64_t number) {
    if (!t->at) return NULL;
    size_t at = place_of(t, node, epoch, number);
    copy *copies = t->at[at].copies;
    if (!copies) return NULL;
    t->at[at].copies = NULL;
    t->count--;
    for (size_t next = (at + 1) & t->mask; t->at[next].copies; next = (next + 1) & t->mask) {
        waiting moved = t->at[next];
        t->at[next].copies = NULL;
        t->at[place_of(t, moved.node, moved.epoch, moved.number)] = moved;
    }
    return copies;
}

/* Lets copies go, acknowledged over this connection or, where that is NULL, not. */
static void let_go(copy *copies, natsConnection *connection) {
    while (copies) {
        copy *c = copies;
        copies = c->next;
        if (connection) pull_acknowledge(connection, c->reply);
        free(c);
    }
}

static void table_free(table *t) {
    for (size_t i = 0; t->at && i <= t->mask; i++) let_go(t->at[i].copies, NULL);
    free(t->at);
}

/* ---- the hub on its stream */

typedef struct {
    broker broker;
    pull stream;
    int is_open; /* the stream */
    hubwork *work;
    table waits;
    uint64_t unknown; /* acknowledgements of what does not wait */
    unsigned long returns; /* of the connection, when the consumer was made */
    uint64_t read, last; /* the last place in the stream that was read, and that there was at the start */
    int has_heard;    /* whom the bucket names */
    page *page;       /* NULL: nobody asked for one */
} hub;

static void acknowledge(void *closure, uint16_t node, uint64_t epoch, uint64_t number) {
    hub *h = closure;
    copy *copies = table_take(&h->waits, node, epoch, number);
    h->unknown += !copies;
    let_go(copies, h->broker.connection);
}

static void note_foreign(void *closure, uint16_t node, const char *name) {
    (void)closure;
    fprintf(stderr, "hindsight-hub: node %u (%s) runs with another line nodes, size, triggerid or auto than the hub: what it says is refused\n", node, name);
}

static uint64_t number_at(const uint8_t *at, int bytes) {
    uint64_t n = 0;
    for (int i = 0; i < bytes; i++) n = n << 8 | at[i];
    return n;
}

static void take(hub *h, natsMsg *message) {
    const uint8_t *bytes = (const uint8_t *)natsMsg_GetData(message);
    const char *reply = natsMsg_GetReply(message);
    if (!reply) return; /* nothing that the stream delivers */
    uint64_t place = place_in_stream(reply);
    if (place > h->read) h->read = place;
    int fate = hubwork_deliver(h->work, bytes, (size_t)natsMsg_GetDataLength(message));
    /* the hub has read its front: epoch at place 2, number at 10, node at 18 */
    if (fate == HUBWORK_HELD && table_put(&h->waits, (uint16_t)number_at(bytes + 18, 2), number_at(bytes + 2, 8), number_at(bytes + 10, 8), reply)) return;
    if (fate == HUBWORK_NOW) pull_acknowledge(h->broker.connection, reply);
    if (fate == HUBWORK_LATER) pull_again(h->broker.connection, reply, LATER);
}

/* Takes what is there, at most so much; the first is waited for. */
static void take_batch(hub *h) {
    natsMsg *message;
    if (!h->is_open) nanosleep(&(struct timespec){.tv_nsec = 100000000}, NULL);
    for (int taken = 0; h->is_open && taken < BATCH && (message = pull_next(&h->stream, taken ? 0 : 20)); taken++) {
        take(h, message);
        natsMsg_Destroy(message);
    }
}

static void send_asks(hub *h) {
    char subject[BROKER_MOST_SUBJECT];
    uint16_t node;
    const uint8_t *bytes;
    size_t len;
    while (broker_is_there(&h->broker) && hubwork_next_ask(h->work, &node, &bytes, &len)) {
        broker_subject(&h->broker, "asks", node, subject);
        natsConnection_Publish(h->broker.connection, subject, bytes, (int)len);
    }
}

static int subscribe(hub *h, char *fault, size_t room) {
    char name[BROKER_MOST_SUBJECT], subject[BROKER_MOST_SUBJECT];
    jsConsumerConfig config;
    jsConsumerInfo *info = NULL;
    jsErrCode code = 0;
    if (broker_keep_stream(&h->broker)) {
        snprintf(fault, room, "the broker keeps no stream: is JetStream on?");
        return 0;
    }
    broker_name(&h->broker, "says", name);
    snprintf(subject, sizeof subject, "%s.says.*", h->broker.prefix);
    jsConsumerConfig_Init(&config);
    config.Durable = "hub";
    config.AckPolicy = js_AckExplicit;
    config.AckWait = (int64_t)ACK_WAIT * 1000000000;
    config.MaxAckPending = MOST_UNACKNOWLEDGED;
    config.FilterSubject = subject;
    /* a consumer of an earlier life would keep back for a while what that life took and did not acknowledge */
    js_DeleteConsumer(h->broker.stream, name, "hub", NULL, &code);
    natsStatus s = js_AddConsumer(&info, h->broker.stream, name, &config, NULL, &code);
    jsConsumerInfo_Destroy(info);
    h->is_open = s == NATS_OK && !pull_open(&h->stream, &h->broker, name, "hub");
    if (!h->is_open) snprintf(fault, room, "the broker has no consumer for a hub: %s (%d)", natsStatus_GetText(s), (int)code);
    return h->is_open;
}

/* Whether the broker has let go of what a node said: then another hub had it. */
static int was_heard(hub *h) {
    char name[BROKER_MOST_SUBJECT];
    jsStreamInfo *info = NULL;
    jsErrCode code = 0;
    broker_name(&h->broker, "says", name);
    int heard = js_GetStreamInfo(&info, h->broker.stream, name, NULL, &code) != NATS_OK || info->State.FirstSeq > 1;
    h->last = info && info->State.Msgs ? info->State.LastSeq : 0;
    jsStreamInfo_Destroy(info);
    return heard;
}

/* A hub that is opened over a store is not fresh. So one that found no store, and is not the first, is opened once more over the store that it made. */
static int open_anew(hub *h, const hubwork_options *options, char *fault, size_t room) {
    hubwork_close(h->work);
    h->work = hubwork_open(options, fault, room);
    return h->work != NULL;
}

static void hear(void *closure, uint16_t node, uint64_t epoch, const char *name) { hubwork_hear(((hub *)closure)->work, node, epoch, name); }

/* A hub that starts anew learns from the bucket who lived last, once it has read what the stream had at the start: of what stands there a life may be the
 * sender that is over. Whoever starts later says so itself. */
static void hear_lives(hub *h) {
    if (h->has_heard || h->read < h->last || !broker_is_there(&h->broker)) return;
    h->has_heard = 1;
    lease_each(&h->broker, hear, h);
}

static void print_counts(hub *h) {
    hubwork_counts c;
    hubwork_count(h->work, &c);
    printf("traces %" PRIu64 " whole %" PRIu64 " held %" PRIu64 " done %" PRIu64 " refused %" PRIu64 " full %" PRIu64 " acknowledged %" PRIu64 " asks %" PRIu64
           " faults %" PRIu64 " waiting %" PRIu64 " groups %" PRIu64 " bytes %" PRIu64 "\n",
           c.traces, c.whole, c.held, c.done, c.refused, c.full, c.acknowledged, c.asks, c.faults, c.waiting_messages, c.groups, c.bytes);
    fflush(stdout);
}

static void put_messages(metrics *m, const hubwork_counts *c) {
    metrics_put(m, METRICS_COUNTER, "hindsight_hub_messages_held_total", "Messages that wait, or waited, until what they serve is saved.", c->held);
    metrics_put(m, METRICS_COUNTER, "hindsight_hub_messages_done_total", "Messages that were acknowledged at once.", c->done);
    metrics_put(m, METRICS_COUNTER, "hindsight_hub_messages_refused_total", "Messages that are none.", c->refused);
    metrics_put(m, METRICS_COUNTER, "hindsight_hub_messages_full_total", "Messages that found no place, and come again.", c->full);
    metrics_put(m, METRICS_COUNTER, "hindsight_hub_messages_foreign_total", "Messages of nodes that run with other settings.", c->foreign);
    metrics_put(m, METRICS_GAUGE, "hindsight_hub_foreign_nodes", "Nodes that run with other settings.", c->foreign_nodes);
    metrics_put(m, METRICS_COUNTER, "hindsight_hub_received_bytes_total", "Bytes of all messages.", c->received);
    metrics_put(m, METRICS_COUNTER, "hindsight_hub_acknowledged_total", "Messages that waited and were acknowledged.", c->acknowledged);
    metrics_put(m, METRICS_COUNTER, "hindsight_hub_asks_total", "Asks that were sent to nodes.", c->asks);
}

static void put_traces(metrics *m, const hubwork_counts *c) {
    metrics_put(m, METRICS_COUNTER, "hindsight_hub_parts_saved_total", "Parts of traces that are on the disk.", c->traces);
    metrics_put(m, METRICS_COUNTER, "hindsight_hub_parts_whole_total", "Of them those with which their trace is whole.", c->whole);
    metrics_put(m, METRICS_COUNTER, "hindsight_hub_store_faults_total", "Tries to save a trace that failed.", c->faults);
    metrics_put(m, METRICS_GAUGE, "hindsight_hub_store_up", "0 where the last try to save a trace failed.", !c->last_fault);
    metrics_put(m, METRICS_GAUGE, "hindsight_hub_groups", "Groups that are followed.", c->groups);
    metrics_put(m, METRICS_GAUGE, "hindsight_hub_waiting_traces", "Traces of which pages wait.", c->waiting_traces);
    metrics_put(m, METRICS_GAUGE, "hindsight_hub_held_bytes", "Bytes of the pages that wait.", c->bytes);
    metrics_put(m, METRICS_GAUGE, "hindsight_hub_standings", "Words on how whole a life's part of a trace is.", c->standings);
    metrics_put(m, METRICS_GAUGE, "hindsight_hub_waiting_messages", "Messages that wait, once for each trace that they serve.", c->waiting_messages);
    metrics_put(m, METRICS_COUNTER, "hindsight_hub_passes_total", "Passes.", c->passes);
}

static void show_page(hub *h) {
    static char text[PAGE_TEXT];
    metrics m = {text, sizeof text, 0, NULL};
    hubwork_counts c;
    if (!h->page) return;
    hubwork_count(h->work, &c);
    metrics_put(&m, METRICS_GAUGE, "hindsight_hub_broker_up", "1 while the hub has its connection to the broker.", (uint64_t)broker_is_there(&h->broker));
    metrics_put(&m, METRICS_COUNTER, "hindsight_hub_broker_returns_total", "Lost connections to the broker that came back.", atomic_load(&h->broker.returns));
    put_messages(&m, &c);
    put_traces(&m, &c);
    page_set(h->page, text, m.len);
}

/* After a lost connection came back the consumer is made anew: a broker that was killed may have other places for what it is given than the consumer
 * has seen. What was not acknowledged comes again, and what was delivered before is not acknowledged any more. */
static void watch(hub *h) {
    char fault[200];
    unsigned long returns = atomic_load(&h->broker.returns);
    if ((returns == h->returns && h->is_open) || !broker_is_there(&h->broker)) return;
    pull_close(&h->stream);
    h->is_open = 0;
    table_free(&h->waits);
    h->waits = (table){NULL, 0, 0};
    if (subscribe(h, fault, sizeof fault)) h->returns = returns;
    else fprintf(stderr, "hindsight-hub: %s\n", fault);
}

static void run(hub *h, unsigned counts) {
    int64_t passed = milliseconds(), printed = passed, failed = 0;
    while (!ends) {
        watch(h);
        take_batch(h);
        hear_lives(h);
        send_asks(h);
        int64_t now = milliseconds();
        if (now - passed >= PASS) {
            passed = now;
            hubwork_pass(h->work);
            show_page(h);
        }
        /* a store that failed is tried again once a second */
        if (now - failed >= 1000 && hubwork_save(h->work, BATCH) < 0) {
            failed = now;
            fprintf(stderr, "hindsight-hub: %s\n", hubwork_fault(h->work));
        }
        if (counts && now - printed >= (int64_t)counts * 1000) {
            printed = now;
            print_counts(h);
        }
    }
    if (counts) print_counts(h);
    natsConnection_FlushTimeout(h->broker.connection, 2000);
}

/* ---- words */

static char *read_file(const char *path, size_t *len) {
    FILE *file = fopen(path, "rb");
    char *text = NULL;
    size_t room = 0;
    *len = 0;
    if (!file) return NULL;
    for (;;) {
        if (*len == room) {
            char *more = realloc(text, room = room ? 2 * room : 4096);
            if (!more) break;
            text = more;
        }
        size_t got = fread(text + *len, 1, room - *len, file);
        if (!got) break;
        *len += got;
    }
    if (ferror(file)) {
        free(text);
        text = NULL;
    }
    fclose(file);
    return text;
}

static int usage(void) {
    fputs("usage: hindsight-hub SETTINGS FOLDER [--url URL] [--prefix WORD] [--line-bytes N] [--kept-files N] [--counts SECONDS] [--metrics ADDRESS]\n", stderr);
    return 2;
}

static int read_number(const char *word, uint64_t *n) {
    char *behind;
    *n = strtoull(word, &behind, 10);
    return *word >= '0' && *word <= '9' && !*behind;
}

int main(int argc, char **argv) {
    const char *url = NULL, *prefix = NULL, *metrics_at = NULL;
    uint64_t line_bytes = 64 << 20, kept_files = 16, counts = 0;
    char fault[256] = "";
    static hub h;
    if (argc < 3 || argc % 2 == 0) return usage();
    for (int i = 3; i < argc; i += 2) {
        if (!strcmp(argv[i], "--url")) url = argv[i + 1];
        else if (!strcmp(argv[i], "--prefix")) prefix = argv[i + 1];
        else if (!strcmp(argv[i], "--metrics")) metrics_at = argv[i + 1];
        else if (!strcmp(argv[i], "--line-bytes") && read_number(argv[i + 1], &line_bytes)) continue;
        else if (!strcmp(argv[i], "--kept-files") && read_number(argv[i + 1], &kept_files)) continue;
        else if (!strcmp(argv[i], "--counts") && read_number(argv[i + 1], &counts)) continue;
        else return usage();
    }
    size_t len;
    char *settings = read_file(argv[1], &len);
    if (!settings) {
        fprintf(stderr, "hindsight-hub: %s cannot be read\n", argv[1]);
        return 2;
    }
    struct timeval now;
    gettimeofday(&now, NULL);
    hubwork_options options = {settings, len, (uint64_t)now.tv_sec * 1000000 + (uint64_t)now.tv_usec, {argv[2], line_bytes, (unsigned)kept_files}, acknowledge, &h, note_foreign};
    h.work = hubwork_open(&options, fault, sizeof fault);
    if (!h.work) {
        fprintf(stderr, "hindsight-hub: %s\n", fault);
        free(settings);
        return strncmp(fault, "settings", 8) ? 3 : 2;
    }
    struct sigaction action = {.sa_handler = end};
    sigaction(SIGTERM, &action, NULL);
    sigaction(SIGINT, &action, NULL);
    /* a file that may not grow is a fault of the store, as a disk that is full */
    sigaction(SIGXFSZ, &(struct sigaction){.sa_handler = SIG_IGN}, NULL);
    int status = 3, has_page = !metrics_at || (h.page = page_open(metrics_at, fault, sizeof fault)) != NULL;
    if (has_page && !broker_open(&h.broker, url, prefix, 30000, fault, sizeof fault)) {
        if (subscribe(&h, fault, sizeof fault) && (!was_heard(&h) || open_anew(&h, &options, fault, sizeof fault))) {
            run(&h, (unsigned)counts);
            status = 0;
        }
        pull_close(&h.stream);
        broker_close(&h.broker);
    }
    if (status) fprintf(stderr, "hindsight-hub: %s\n", fault);
    page_close(h.page);
    table_free(&h.waits);
    hubwork_close(h.work);
    free(settings);
    nats_Close();
    return status;
}
