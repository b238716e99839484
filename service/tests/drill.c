/* Drills: a NATS server, the program hindsight-hub and three nodes, each a list of messages that its carrier publishes. While traces are claimed
 * something fails. Whatever it was, each record has to be saved at the end, once, and no trace is called whole of which one is missing. Where nothing fails,
 * each trace is called whole.
 *
 *     drill FOLDER PORT HUB [DRILL]      FOLDER is empty; HUB is the program; drills are named by their prefix, and without one all are done */
#include "broker.h"
#include "carrier.h"
#include "expect.h"
#include "messages.h"
#include "processes.h"
#include "within.h"
#include <nats/nats.h>
#include <pthread.h>
#include <sqlite3.h>
#include <stdlib.h>
#include <sys/stat.h>

enum { NODES = 3, TRACES = 600, MOST = 16384 };

static const char *folder, *port, *hub_program, *store_name; /* the store's name in the folder */
static char url[64];
static uint8_t digest[HINDLIB_DIGEST]; /* of the settings */
static pid_t server, hub;

/* ---- processes */

static void start_server(void) {
    char store[300];
    snprintf(store, sizeof store, "%s/js", folder);
    char *words[] = {"nats-server", "-a", "127.0.0.1", "-p", (char *)(size_t)port, "-js", "-sd", store, NULL};
    server = process_start(words);
}

static void start_hub(const char *prefix) {
    char settings[300], store[300];
    snprintf(settings, sizeof settings, "%s/settings", folder);
    snprintf(store, sizeof store, "%s/%s", folder, store_name);
    char *words[] = {(char *)(size_t)hub_program, settings, store, "--url", url, "--prefix", (char *)(size_t)prefix, NULL};
    hub = process_start(words);
}

/* ---- a node */

typedef struct {
    uint8_t *bytes;
    size_t len;
    int done;
} message;

typedef struct {
    pthread_mutex_t lock;
    message messages[MOST];
    uint64_t count, offered;
    uint16_t node;
    uint64_t epoch;
    uint32_t pages, records;
    char asked[TRACES];
} node;

static void put(node *n, const writing *w) {
    message *m = &n->messages[n->count++];
    HOLDS(n->count <= MOST);
    m->bytes = malloc(w->len);
    HOLDS(m->bytes != NULL);
    memcpy(m->bytes, w->bytes, w->len);
    m->len = w->len;
}

static void trace_of(int t, uint8_t trace[16]) {
    memset(trace, 0, 16);
    trace[0] = 0x77;
    trace[14] = (uint8_t)(t >> 8);
    trace[15] = (uint8_t)t;
}

/* The node tells of a trace, reports a page of two records, and says that this is whole. */
static void tell(node *n, int t, uint16_t first, uint8_t why, uint16_t crumb) {
    static uint8_t bytes[4096], page[1024];
    static pthread_mutex_t buffers = PTHREAD_MUTEX_INITIALIZER;
    uint8_t trace[16];
    trace_of(t, trace);
    group_id group = {first, (uint32_t)t, 1, trace};
    pthread_mutex_lock(&buffers);
    writing w = {bytes, 0}, p = {page, 0};
    put_told(&w, n->epoch, n->count, n->node, &group, why, 1u << crumb, NULL, 0);
    put(n, &w);
    begin_page(&p, trace, n->node, 0, n->pages++, n->records);
    for (int r = 0; r < 2; r++) put_piece(&p, (uint64_t)t * 1000 + (uint64_t)r, "a record", 8);
    end_page(&p, 2);
    n->records += 2;
    w.len = 0;
    put_reported(&w, n->epoch, n->count, n->node, &group, 0, 0, p.bytes, p.len);
    put(n, &w);
    w.len = 0;
    put_standing(&w, n->epoch, n->count, n->node, trace, &group, SAYS_WHOLE, 0, 0, 1, 1u << crumb, 0);
    put(n, &w);
    pthread_mutex_unlock(&buffers);
}

static int node_pass(void *of) {
    (void)of;
    return 0;
}

static int node_next(void *of, uint64_t *number, const uint8_t **bytes, size_t *len) {
    node *n = of;
    pthread_mutex_lock(&n->lock);
    while (n->offered < n->count && n->messages[n->offered].done) n->offered++;
    int there = n->offered < n->count;
    if (there) {
        *number = n->offered;
        *bytes = n->messages[n->offered].bytes;
        *len = n->messages[n->offered].len;
    }
    pthread_mutex_unlock(&n->lock);
    return there;
}

static void node_sent(void *of, uint64_t number) {
    node *n = of;
    pthread_mutex_lock(&n->lock);
    n->offered = number + 1;
    pthread_mutex_unlock(&n->lock);
}

static int node_acknowledged(void *of, uint64_t number) {
    node *n = of;
    pthread_mutex_lock(&n->lock);
    int waited = number < n->count && !n->messages[number].done;
    if (waited) n->messages[number].done = 1;
    pthread_mutex_unlock(&n->lock);
    return waited;
}

static void node_again(void *of) {
    node *n = of;
    pthread_mutex_lock(&n->lock);
    n->offered = 0;
    pthread_mutex_unlock(&n->lock);
}

/* An ask of a trace is answered; one that was answered is told of again without its page. */
static void node_deliver(void *of, const uint8_t *bytes, size_t len) {
    node *n = of;
    HOLDS(len == 44 && bytes[1] == 3);
    uint16_t first = (uint16_t)(bytes[20] << 8 | bytes[21]);
    int t = bytes[41] << 8 | bytes[42];
    HOLDS(t < TRACES && first < NODES);
    pthread_mutex_lock(&n->lock);
    if (!n->asked[t]) {
        n->asked[t] = 1;
        tell(n, t, first, 1, first);
    } else {
        uint8_t again[256];
        uint8_t trace[16];
        trace_of(t, trace);
        group_id group = {first, (uint32_t)t, 1, trace};
        writing w = {again, 0};
        put_told(&w, n->epoch, n->count, n->node, &group, 1, 1u << first, NULL, 0);
        put(n, &w);
    }
    pthread_mutex_unlock(&n->lock);
}

static carrier *open_node(node *n, const char *prefix, int number) {
    char name[32], fault[200] = "";
    uint8_t hello[256];
    carrier *c = NULL;
    snprintf(name, sizeof name, "node-%d", number);
    carrier_options options = {.url = url, .prefix = prefix, .name = name, .nodes = NODES, .wait = 10000};
    carrier_answer answer = carrier_open(&options, &c, fault, sizeof fault);
    EXPECT(answer, CARRIER_DONE);
    if (!c) exit(1);
    pthread_mutex_init(&n->lock, NULL);
    n->node = carrier_node(c);
    n->epoch = carrier_epoch(c);
    writing w = {hello, 0};
    put_hello(&w, n->epoch, 0, n->node, digest, name);
    put(n, &w);
    carried of = {n, node_pass, node_next, node_sent, node_acknowledged, node_again, node_deliver};
    EXPECT(carrier_start(c, &of), CARRIER_DONE);
    return c;
}

/* ---- what was saved */

static long one_number(const char *query) {
    char path[300];
    sqlite3 *db = NULL;
    sqlite3_stmt *statement = NULL;
    long n = -1;
    snprintf(path, sizeof path, "%s/%s/traces.db", folder, store_name);
    if (sqlite3_open_v2(path, &db, SQLITE_OPEN_READWRITE, NULL) == SQLITE_OK) {
        sqlite3_busy_timeout(db, 2000);
        if (sqlite3_prepare_v2(db, query, -1, &statement, NULL) == SQLITE_OK && sqlite3_step(statement) == SQLITE_ROW)
            n = (long)sqlite3_column_int64(statement, 0);
    }
    sqlite3_finalize(statement);
    sqlite3_close(db);
    return n;
}

/* How many messages the broker's stream has. */
static long in_stream(const char *prefix) {
    broker b;
    char fault[200], name[BROKER_MOST_SUBJECT];
    jsStreamInfo *info = NULL;
    jsErrCode code = 0;
    long count = -1;
    if (broker_open(&b, url, prefix, 5000, fault, sizeof fault)) return -1;
    broker_name(&b, "says", name);
    if (js_GetStreamInfo(&info, b.stream, name, NULL, &code) == NATS_OK) count = (long)info->State.Msgs;
    jsStreamInfo_Destroy(info);
    broker_close(&b);
    return count;
}

/* One drill: traces are claimed, `trouble` happens after a third of them, and all has to be saved within `patience` seconds. Within `drains` seconds more
 * the stream has no message, unless that is 0: what was published twice, and came after its trace was saved, is held for half a minute. */
static void drill(const char *prefix, const char *name, void (*trouble)(const char *prefix), int patience, int drains) {
    static node nodes[NODES];
    carrier *carriers[NODES];
    char store[300];
    store_name = name;
    snprintf(store, sizeof store, "%s/%s", folder, name);
    EXPECT(mkdir(store, 0700), 0);
    start_server();
    start_hub(prefix);
    memset(nodes, 0, sizeof nodes);
    for (int i = 0; i < NODES; i++) carriers[i] = open_node(&nodes[i], prefix, i);
    for (int t = 0; t < TRACES; t++) {
        node *n = &nodes[t % NODES];
        pthread_mutex_lock(&n->lock);
        tell(n, t, n->node, 0, (uint16_t)((n->node + 1) % NODES));
        pthread_mutex_unlock(&n->lock);
        if (t == TRACES / 3 && trouble) trouble(prefix);
        if (t % 10 == 0) sleep_ms(5);
    }
    long saved = 0;
    int waited = 0;
    for (; waited < patience * 10 && saved < 4 * TRACES; waited++) {
        sleep_ms(100);
        saved = one_number("SELECT count(*) FROM records");
    }
    uint64_t repeats = 0;
    for (int i = 0; i < NODES; i++) {
        carrier_counts counts;
        EXPECT(carrier_stop(carriers[i], 20000), 1);
        carrier_count(carriers[i], &counts);
        repeats += counts.repeats;
        carrier_close(carriers[i]);
    }
    long left = drains ? in_stream(prefix) : 0;
    for (int i = 0; i < drains && left; i++) {
        sleep_ms(1000);
        left = in_stream(prefix);
    }
    EXPECT(left, 0);
    EXPECT(process_end(hub, SIGTERM), 1);
    process_end(server, SIGTERM);
    /* records are told apart by their keys, so a count of them is a count of each once */
    EXPECT(one_number("SELECT count(*) FROM records"), 4 * TRACES);
    EXPECT(one_number("SELECT count(DISTINCT trace) FROM traces"), TRACES);
    long whole = one_number("SELECT count(*) FROM traces WHERE part = 0 AND whole = 1");
    /* whole is said of no trace of which a record is missing in what was saved by then */
    EXPECT(one_number("SELECT count(*) FROM traces t WHERE whole = 1 AND (SELECT count(*) FROM records r WHERE r.trace = t.trace) <> 4"), 0);
    printf("%s: %ld records of %d traces saved, %ld called whole, within %d ms after the last claim, %lu repeats\n", name, saved, TRACES, whole, waited * 100,
           (unsigned long)repeats);
    /* a hub that is not the first is not sure of its nodes so soon, though it has a store of its own */
    if (!trouble) EXPECT(whole, strcmp(prefix, name) ? 0 : TRACES);
    for (int i = 0; i < NODES; i++)
        for (uint64_t m = 0; m < nodes[i].count; m++) free(nodes[i].messages[m].bytes);
}

static void hub_killed(const char *prefix) {
    process_end(hub, SIGKILL);
    sleep_ms(1000);
    start_hub(prefix);
}

static void broker_paused(const char *prefix) {
    (void)prefix;
    kill(server, SIGSTOP);
    sleep_ms(3000);
    kill(server, SIGCONT);
}

static void broker_killed(const char *prefix) {
    (void)prefix;
    process_end(server, SIGKILL);
    sleep_ms(1000);
    start_server();
}

static void both_killed(const char *prefix) {
    process_end(hub, SIGKILL);
    process_end(server, SIGKILL);
    start_server();
    start_hub(prefix);
}

static const struct {
    const char *prefix, *name;
    void (*trouble)(const char *prefix);
    int patience, drains; /* seconds */
} drills[] = {
    {"calm", "calm", NULL, 60, 60},
    {"calm", "another-hub", NULL, 60, 0},
    {"hub-killed", "hub-killed", hub_killed, 90, 0},
    {"broker-paused", "broker-paused", broker_paused, 90, 60},
    {"broker-killed", "broker-killed", broker_killed, 90, 0},
    {"both-killed", "both-killed", both_killed, 90, 0},
};

int main(int argc, char **argv) {
    char path[300];
    size_t done = 0;
    if (argc != 4 && argc != 5) return 2;
    setvbuf(stdout, NULL, _IOLBF, 0); /* what forks has nothing left to print */
    folder = argv[1];
    port = argv[2];
    hub_program = argv[3];
    snprintf(url, sizeof url, "nats://127.0.0.1:%s", port);
    snprintf(path, sizeof path, "%s/settings", folder);
    FILE *settings = fopen(path, "w");
    if (!settings) return 2;
    snprintf(path, sizeof path, "nodes %d\ntriggerid 1\n", NODES);
    hindlib_digest(path, strlen(path), digest);
    fputs(path, settings);
    fclose(settings);
    for (size_t i = 0; i < sizeof drills / sizeof *drills; i++) {
        if (argc == 5 && strcmp(argv[4], drills[i].prefix)) continue;
        drill(drills[i].prefix, drills[i].name, drills[i].trouble, drills[i].patience, drills[i].drains);
        done++;
    }
    nats_Close();
    return failed != 0 || !done;
}
