/* What a process left in its pool file: lives that end by SIGKILL, and what the next one hands out. Expected values are from the header, docs/RULES.md
 * ("What a process left") and docs/FORMATS.md ("The pool file").
 *
 *     salvage FOLDER      an empty folder for pool files */
#define _GNU_SOURCE
#include "expect.h"
#include "hindsight.h"
#include <dirent.h>
#include <errno.h>
#include <fcntl.h>
#include <limits.h>
#include <signal.h>
#include <stdlib.h>
#include <string.h>
#include <sys/mman.h>
#include <sys/resource.h>
#include <sys/stat.h>
#include <sys/wait.h>
#include <unistd.h>

static const char text[] = "nodes 2\nclients 2\nbuffers 64\nsize 256\nthreshold 24\npins 16\ntriggerid 1\n";
static const hind_trace_id first = {{1}}, second = {{2}};
static char folder[PATH_MAX - 100], pool[PATH_MAX];

/* ---- lives */

static hind_code open_life(uint64_t epoch, uint32_t kept, hind_node **node) {
    hind_node_options o = HIND_NODE_OPTIONS_INIT;
    o.epoch = epoch;
    o.settings = text;
    o.settings_len = sizeof text - 1;
    o.name = "front";
    o.pool_file = pool;
    o.pool_kept = kept;
    return hind_node_open(&o, node);
}

static hind_node *opened(uint64_t epoch) {
    hind_node *node = NULL;
    EXPECT(open_life(epoch, 0, &node), HIND_OK);
    return node;
}

static hind_hub *opened_hub(void) {
    hind_hub_options o = HIND_HUB_OPTIONS_INIT;
    hind_hub *hub = NULL;
    o.settings = text;
    o.settings_len = sizeof text - 1;
    o.is_fresh = 1;
    EXPECT(hind_hub_open(&o, &hub), HIND_OK);
    return hub;
}

static void write_text(hind_client *c, uint64_t moment, const char *what) { EXPECT(hind_point_at(c, moment, what, strlen(what)), HIND_OK); }

/* Messages that a life handed over before it ended. */
typedef struct {
    size_t count;
    struct {
        size_t len;
        uint8_t bytes[512];
    } all[64];
} handed;
static handed *over;

/* Passes, and hands over all messages: acknowledged or not. */
static void hand_over(hind_node *node, int acknowledges) {
    hind_message m;
    for (int pass = 0; pass < 4; pass++) {
        hind_node_pass(node);
        while (hind_node_next(node, &m) == HIND_OK) {
            over->all[over->count].len = m.len;
            memcpy(over->all[over->count++].bytes, m.bytes, m.len);
            hind_node_sent(node, m.number);
            if (acknowledges) hind_node_acknowledged(node, m.number);
        }
    }
}

static void deliver_handed(hind_hub *hub) {
    for (size_t i = 0; i < over->count; i++) HOLDS(hind_hub_deliver(hub, over->all[i].bytes, over->all[i].len) >= 0);
    over->count = 0;
}

/* A life in a process of its own, which dies where `lives` ends. */
static void live_and_die(uint64_t epoch, void (*lives)(hind_node *node, hind_client *c)) {
    int status = 0;
    pid_t child = fork();
    if (!child) {
        hind_node *node = opened(epoch);
        hind_client *c = NULL;
        EXPECT(hind_client_open(node, &c), HIND_OK);
        lives(node, c);
        if (failed) _exit(1);
        raise(SIGKILL);
    }
    EXPECT(waitpid(child, &status, 0), child);
    HOLDS(WIFSIGNALED(status));
}

/* Carries messages between a hub and its nodes for some passes. A node that is NULL is away, and what it is asked is lost. */
static void carry(hind_hub *hub, hind_node *const *nodes, size_t count, int passes) {
    hind_message m;
    for (; passes; passes--) {
        for (size_t i = 0; i < count; i++) {
            if (!nodes[i]) continue;
            hind_node_pass(nodes[i]);
            while (hind_node_next(nodes[i], &m) == HIND_OK) {
                HOLDS(hind_hub_deliver(hub, m.bytes, m.len) >= 0);
                EXPECT(hind_node_sent(nodes[i], m.number), HIND_OK);
                EXPECT(hind_node_acknowledged(nodes[i], m.number), HIND_OK);
            }
        }
        while (hind_hub_next(hub, &m) == HIND_OK)
            if (m.to < count && nodes[m.to]) EXPECT(hind_node_deliver(nodes[m.to], m.bytes, m.len), HIND_OK);
        hind_hub_pass(hub);
    }
}

/* ---- what comes out */

/* Takes the next trace: its records of this life, in one text, and how whole the life's part is. */
static int take(hind_hub *hub, const hind_trace_id *id, uint64_t epoch, char *records, size_t room, char *words, size_t words_room) {
    hind_trace_info info = {.size = sizeof info};
    hind_trace_life life;
    hind_trace *trace = NULL;
    hind_record r;
    size_t len = 0;
    *records = *words = 0;
    if (hind_hub_take(hub, &trace) != HIND_OK) return 0;
    EXPECT(hind_trace_get_info(trace, &info), HIND_OK);
    EXPECT(memcmp(&info.id, id, sizeof *id), 0);
    EXPECT(info.is_whole, 0);
    for (size_t at = 0; hind_trace_get_life(trace, at, &life) == HIND_OK; at++)
        if (!life.node && life.epoch == epoch) snprintf(words, words_room, "%s", life.wholeness);
    for (size_t at = 0; hind_trace_get_record(trace, at, &r) == HIND_OK; at++)
        if (!r.node && r.epoch == epoch) len += (size_t)snprintf(records + len, room - len, "%.*s;", (int)r.len, (const char *)r.payload);
    EXPECT(hind_hub_saved(hub, &info.id), HIND_OK);
    hind_trace_free(trace);
    return 1;
}

static void expect_left(hind_hub *hub, const hind_trace_id *id, uint64_t epoch, const char *wanted) {
    char records[512], words[64];
    HOLDS(take(hub, id, epoch, records, sizeof records, words, sizeof words));
    if (strcmp(records, wanted)) fprintf(stderr, "records: %s\n", records);
    EXPECT(strcmp(records, wanted), 0);
    EXPECT(strcmp(words, "salvaged"), 0);
}

/* How many files lie in the folder whose name begins so. */
static size_t files(const char *front) {
    struct dirent *entry;
    size_t count = 0;
    DIR *all = opendir(folder);
    while (all && (entry = readdir(all))) count += entry->d_name[0] != '.' && !strncmp(entry->d_name, front, strlen(front));
    if (all) closedir(all);
    return count;
}

static void clean(void) {
    char path[PATH_MAX + 300];
    struct dirent *entry;
    DIR *all = opendir(folder);
    while (all && (entry = readdir(all))) {
        snprintf(path, sizeof path, "%s/%s", folder, entry->d_name);
        if (entry->d_name[0] != '.') unlink(path);
    }
    if (all) closedir(all);
}

/* ---- a claimed request whose process is killed in its middle */

static void die_in_a_claimed_request(hind_node *node, hind_client *c) {
    EXPECT(hind_begin(c, &first), HIND_OK);
    write_text(c, 1, "one");
    EXPECT(hind_trigger(c, 1, NULL, NULL, 0), HIND_OK);
    hand_over(node, 1);
    write_text(c, 2, "two");
    write_text(c, 3, "three");
}

static void claimed_and_killed(void) {
    hind_hub *hub = opened_hub();
    hind_node_counts counts = {.size = sizeof counts};
    live_and_die(10, die_in_a_claimed_request);
    deliver_handed(hub);
    hind_node *node = opened(11);
    carry(hub, &node, 1, 400);
    expect_left(hub, &first, 10, "one;two;three;");
    EXPECT(hind_node_get_counts(node, &counts), HIND_OK);
    EXPECT(counts.salvaged, 1);
    EXPECT(counts.torn, 0);
    EXPECT(counts.salvaging, 0);
    EXPECT(hind_node_close(node), HIND_OK);
    /* the life after that one has nothing to say of it by itself */
    node = opened(12);
    carry(hub, &node, 1, 400);
    HOLDS(hind_hub_take(hub, &(hind_trace *){NULL}) == HIND_NOTHING);
    EXPECT(hind_node_close(node), HIND_OK);
    EXPECT(hind_hub_close(hub), HIND_OK);
}

/* The broker has nothing of what the node told: the next life tells it. */
static void die_unheard(hind_node *node, hind_client *c) {
    EXPECT(hind_begin(c, &first), HIND_OK);
    write_text(c, 1, "one");
    EXPECT(hind_trigger(c, 1, &first, &second, 1), HIND_OK);
    EXPECT(hind_end(c), HIND_OK);
    EXPECT(hind_begin(c, &second), HIND_OK);
    write_text(c, 2, "beside");
    hind_message m;
    for (int pass = 0; pass < 4; pass++) hind_node_pass(node);
    while (hind_node_next(node, &m) == HIND_OK && m.bytes[1] != 2) hind_node_sent(node, m.number);
}

static void claimed_and_unheard(void) {
    hind_hub *hub = opened_hub();
    hind_trace_info info = {.size = sizeof info};
    hind_trace *trace;
    live_and_die(10, die_unheard);
    over->count = 0;
    hind_node *node = opened(11);
    carry(hub, &node, 1, 400);
    /* the page of the lead left the pool when it was reported, and died with the memory of its process; that of the lateral was open */
    int seen = 0;
    while (hind_hub_take(hub, &trace) == HIND_OK) {
        hind_record r;
        EXPECT(hind_trace_get_info(trace, &info), HIND_OK);
        EXPECT(info.trigger, 1);
        EXPECT(info.is_whole, 0);
        if (!memcmp(&info.id, &second, sizeof second)) {
            seen = 1;
            EXPECT(hind_trace_get_record(trace, 0, &r), HIND_OK);
            EXPECT(r.core, UINT64_MAX);
            EXPECT(r.epoch, 10);
            EXPECT(r.len, 6);
            EXPECT(memcmp(r.payload, "beside", 6), 0);
        }
        EXPECT(hind_hub_saved(hub, &info.id), HIND_OK);
        hind_trace_free(trace);
    }
    HOLDS(seen);
    EXPECT(hind_node_close(node), HIND_OK);
    EXPECT(hind_hub_close(hub), HIND_OK);
}

/* ---- a trace that nobody had claimed */

static void die_unclaimed(hind_node *node, hind_client *c) {
    EXPECT(hind_begin(c, &first), HIND_OK);
    write_text(c, 1, "one");
    EXPECT(hind_end(c), HIND_OK);
    EXPECT(hind_begin(c, &second), HIND_OK);
    write_text(c, 2, "other");
    EXPECT(hind_end(c), HIND_OK);
    EXPECT(hind_begin(c, &first), HIND_OK);
    write_text(c, 3, "again");
    hand_over(node, 1);
}

static hind_node *other_node(void) {
    hind_node_options o = HIND_NODE_OPTIONS_INIT;
    hind_node *node = NULL;
    o.node = 1;
    o.epoch = 5;
    o.settings = text;
    o.settings_len = sizeof text - 1;
    EXPECT(hind_node_open(&o, &node), HIND_OK);
    return node;
}

/* A request that went to node 0 fails at this one. */
static void fail_there(hind_node *node) {
    hind_client *c = NULL;
    EXPECT(hind_client_open(node, &c), HIND_OK);
    EXPECT(hind_begin(c, &first), HIND_OK);
    write_text(c, 9, "failed there");
    EXPECT(hind_crumb(c, 0), HIND_OK);
    EXPECT(hind_trigger(c, 1, NULL, NULL, 0), HIND_OK);
    EXPECT(hind_end(c), HIND_OK);
    EXPECT(hind_client_close(c), HIND_OK);
}

/* The node is away when it is asked; the hub asks again once its next life says hello. */
static void asked_while_away(void) {
    hind_hub *hub = opened_hub();
    live_and_die(10, die_unclaimed);
    deliver_handed(hub);
    hind_node *nodes[2] = {NULL, other_node()};
    fail_there(nodes[1]);
    carry(hub, nodes, 2, 100);
    nodes[0] = opened(11);
    carry(hub, nodes, 2, 400);
    expect_left(hub, &first, 10, "one;again;");
    EXPECT(hind_node_close(nodes[0]), HIND_OK);
    EXPECT(hind_node_close(nodes[1]), HIND_OK);
    EXPECT(hind_hub_close(hub), HIND_OK);
}

static void asked_afterwards(void) {
    hind_hub *hub = opened_hub();
    live_and_die(10, die_unclaimed);
    deliver_handed(hub);
    hind_node *nodes[2] = {opened(11), other_node()};
    carry(hub, nodes, 2, 400);
    HOLDS(hind_hub_take(hub, &(hind_trace *){NULL}) == HIND_NOTHING);
    fail_there(nodes[1]);
    carry(hub, nodes, 2, 400);
    expect_left(hub, &first, 10, "one;again;");
    EXPECT(hind_node_close(nodes[0]), HIND_OK);
    EXPECT(hind_node_close(nodes[1]), HIND_OK);
    EXPECT(hind_hub_close(hub), HIND_OK);
}

static void triggered_afterwards(void) {
    hind_hub *hub = opened_hub();
    hind_client *c = NULL;
    live_and_die(10, die_unclaimed);
    deliver_handed(hub);
    hind_node *node = opened(11);
    EXPECT(hind_client_open(node, &c), HIND_OK);
    EXPECT(hind_trigger(c, 1, &second, NULL, 0), HIND_OK);
    carry(hub, &node, 1, 400);
    expect_left(hub, &second, 10, "other;");
    EXPECT(hind_client_close(c), HIND_OK);
    EXPECT(hind_node_close(node), HIND_OK);
    EXPECT(hind_hub_close(hub), HIND_OK);
}

/* ---- acknowledgements */

static size_t kinds_of(hind_node *node, char *kinds, uint64_t *numbers) {
    hind_message m;
    size_t count = 0;
    while (hind_node_next(node, &m) == HIND_OK) {
        kinds[count] = (char)('0' + m.bytes[1]);
        numbers[count++] = m.number;
        EXPECT(hind_node_sent(node, m.number + 1), HIND_NOTHING);
        EXPECT(hind_node_sent(node, m.number), HIND_OK);
    }
    kinds[count] = 0;
    return count;
}

static void acknowledged_in_any_order(void) {
    char kinds[32], again[32];
    uint64_t numbers[32], numbers_again[32];
    hind_node_counts counts = {.size = sizeof counts};
    live_and_die(10, die_in_a_claimed_request);
    over->count = 0;
    hind_node *node = opened(11);
    /* what is known of the life before, and its page; then the node's own hello */
    EXPECT(kinds_of(node, kinds, numbers), 3);
    EXPECT(strcmp(kinds, "541"), 0);
    EXPECT(hind_node_get_counts(node, &counts), HIND_OK);
    EXPECT(counts.salvaging, 2);
    EXPECT(counts.unacknowledged, 1);
    EXPECT(hind_node_acknowledged(node, numbers[1]), HIND_OK);
    EXPECT(hind_node_acknowledged(node, numbers[1]), HIND_NOTHING);
    EXPECT(hind_node_acknowledged(node, numbers[0] + 7), HIND_NOTHING);
    EXPECT(hind_node_again(node), HIND_OK);
    EXPECT(kinds_of(node, again, numbers_again), 2);
    EXPECT(strcmp(again, "51"), 0);
    EXPECT(numbers_again[0], numbers[0]);
    /* where it ends here the next life hands out anew what was not acknowledged */
    EXPECT(hind_node_close(node), HIND_OK);
    node = opened(12);
    EXPECT(kinds_of(node, kinds, numbers), 3);
    EXPECT(strcmp(kinds, "541"), 0);
    for (int i = 0; i < 3; i++) EXPECT(hind_node_acknowledged(node, numbers[i]), HIND_OK);
    EXPECT(hind_node_close(node), HIND_OK);
    node = opened(13);
    EXPECT(kinds_of(node, kinds, numbers), 1);
    EXPECT(strcmp(kinds, "1"), 0);
    EXPECT(hind_node_close(node), HIND_OK);
}

/* ---- files */

static void put_file(const char *path, const char *what) {
    FILE *f = fopen(path, "w");
    HOLDS(f && fputs(what, f) >= 0 && !fclose(f));
}

static void files_that_are_none(void) {
    hind_node *node = NULL;
    char read[64] = "";
    char before[PATH_MAX];
    put_file(pool, "notes of somebody");
    EXPECT(open_life(1, 0, &node), HIND_INVALID);
    HOLDS(!node);
    FILE *f = fopen(pool, "r");
    HOLDS(f && fgets(read, sizeof read, f) && !fclose(f));
    EXPECT(strcmp(read, "notes of somebody"), 0);
    EXPECT(files("pool"), 1);
    put_file(pool, "");
    EXPECT(open_life(1, 0, &node), HIND_OK);
    EXPECT(hind_node_close(node), HIND_OK);
    EXPECT(files("pool"), 1);
    memcpy(before, pool, sizeof pool);
    snprintf(pool, sizeof pool, "%s/none/pool", folder);
    EXPECT(open_life(1, 0, &node), HIND_SYSTEM);
    EXPECT(errno, ENOENT);
    memset(pool, 'x', sizeof pool - 1);
    EXPECT(open_life(1, 0, &node), HIND_TOOLONG);
    pool[0] = 0;
    EXPECT(open_life(1, 0, &node), HIND_INVALID);
    memcpy(pool, before, sizeof pool);
}

/* Somebody else's file is left alone, and so is what a link leads to. */
static void files_of_others(void) {
    hind_node *node = NULL;
    char other[PATH_MAX + 8];
    live_and_die(10, die_unclaimed);
    snprintf(other, sizeof other, "%s.other", pool);
    HOLDS(!rename(pool, other) && !symlink(other, pool));
    EXPECT(open_life(11, 0, &node), HIND_SYSTEM);
    EXPECT(errno, ELOOP);
    HOLDS(!unlink(pool) && !rename(other, pool));
    if (geteuid()) return; /* only root gives files away */
    HOLDS(!chown(pool, 65534, (gid_t)-1));
    EXPECT(open_life(11, 0, &node), HIND_SYSTEM);
    EXPECT(errno, EPERM);
    HOLDS(!node && files("pool") == 1 && !chown(pool, 0, (gid_t)-1));
    EXPECT(open_life(11, 0, &node), HIND_OK);
    EXPECT(hind_node_close(node), HIND_OK);
}

/* All room is taken when the node is opened, or none. */
static void no_room(void) {
    struct rlimit was, few;
    hind_node *node = NULL;
    HOLDS(!getrlimit(RLIMIT_FSIZE, &was) && signal(SIGXFSZ, SIG_IGN) != SIG_ERR);
    few = was;
    few.rlim_cur = 65536;
    HOLDS(!setrlimit(RLIMIT_FSIZE, &few));
    EXPECT(open_life(1, 0, &node), HIND_SYSTEM);
    EXPECT(errno, EFBIG);
    HOLDS(!node && !setrlimit(RLIMIT_FSIZE, &was));
    EXPECT(files("pool"), 0);
    EXPECT(open_life(1, 0, &node), HIND_OK);
    EXPECT(hind_node_close(node), HIND_OK);
}

/* What lies there stays as it is where the settings are refused. */
static void refused_settings(void) {
    hind_node_options o = HIND_NODE_OPTIONS_INIT;
    hind_node *node = NULL;
    struct stat was, is;
    live_and_die(10, die_unclaimed);
    HOLDS(!stat(pool, &was));
    o.pool_file = pool;
    for (int i = 0; i < 3; i++) {
        static const char *const refused[] = {"size 0\n", "buffers 99999999\n", "words that are none\n"};
        o.settings = refused[i];
        o.settings_len = strlen(refused[i]);
        EXPECT(hind_node_open(&o, &node), HIND_SETTINGS);
        HOLDS(!node && !stat(pool, &is) && was.st_ino == is.st_ino);
        EXPECT(files("pool"), 1);
    }
    o.settings = text;
    o.settings_len = sizeof text - 1;
    o.spare = 1;
    EXPECT(hind_node_open(&o, &node), HIND_ABI_WRONG);
}

static void one_process_has_it(void) {
    hind_node *node = opened(1), *second_node = NULL;
    hind_salvage *s = NULL;
    int status = 0;
    EXPECT(open_life(2, 0, &second_node), HIND_TAKEN);
    HOLDS(!second_node);
    EXPECT(hind_salvage_open(pool, &s), HIND_TAKEN);
    HOLDS(!s);
    pid_t child = fork();
    if (!child) _exit(open_life(2, 0, &second_node) == HIND_TAKEN ? 0 : 1);
    EXPECT(waitpid(child, &status, 0), child);
    EXPECT(status, 0);
    EXPECT(files("pool"), 1);
    EXPECT(hind_node_close(node), HIND_OK);
    EXPECT(open_life(2, 0, &node), HIND_OK);
    EXPECT(hind_node_close(node), HIND_OK);
}

/* A process that a service forked lives on: its pool is free all the same. */
static void leave_a_child(hind_node *node, hind_client *c) {
    (void)node;
    volatile size_t *runs = &over->all[0].len;
    *runs = 0;
    pid_t child = fork();
    if (!child)
        for (*runs = 1;;) pause();
    while (!*runs) usleep(1000);
    over->count = (size_t)child;
    EXPECT(hind_begin(c, &first), HIND_OK);
    write_text(c, 1, "one");
}

static void forked_children_keep_nothing(void) {
    live_and_die(1, leave_a_child);
    hind_node *node = opened(2);
    EXPECT(files("pool"), 2);
    EXPECT(kill((pid_t)over->count, SIGKILL), 0);
    over->count = 0;
    EXPECT(hind_node_close(node), HIND_OK);
}

/* A client that is in use keeps the memory of a node that was closed, and the next node has the path all the same. */
static void closed_beneath_a_client(void) {
    hind_node *node = opened(1);
    hind_client *c = NULL;
    EXPECT(hind_client_open(node, &c), HIND_OK);
    EXPECT(hind_begin(c, &first), HIND_OK);
    write_text(c, 1, "one");
    EXPECT(hind_node_close(node), HIND_OK);
    node = opened(2);
    EXPECT(hind_point_at(c, 2, "two", 3), HIND_CLOSED);
    EXPECT(hind_client_close(c), HIND_OK);
    EXPECT(files("pool"), 2);
    EXPECT(hind_node_close(node), HIND_OK);
}

static void few_are_kept(void) {
    hind_node *node = NULL;
    for (uint64_t epoch = 1; epoch <= 5; epoch++) live_and_die(epoch, die_unclaimed);
    EXPECT(files("pool"), 3);
    EXPECT(files("pool.0000000000000003"), 1);
    EXPECT(files("pool.0000000000000004"), 1);
    EXPECT(open_life(6, 4, &node), HIND_OK);
    EXPECT(hind_node_close(node), HIND_OK);
    EXPECT(files("pool"), 4);
    /* a life that left no page is not kept */
    EXPECT(open_life(7, 4, &node), HIND_OK);
    EXPECT(hind_node_close(node), HIND_OK);
    EXPECT(files("pool"), 4);
    EXPECT(open_life(8, 1, &node), HIND_OK);
    EXPECT(hind_node_close(node), HIND_OK);
    EXPECT(files("pool"), 2);
    EXPECT(files("pool.0000000000000005"), 1);
}

/* ---- reading by hand */

static void read_by_hand(void) {
    hind_salvage *s = NULL;
    hind_salvage_info info = {.size = sizeof info};
    hind_salvaged_page page;
    hind_record r;
    live_and_die(10, die_unclaimed);
    EXPECT(hind_salvage_open(pool, &s), HIND_OK);
    EXPECT(hind_salvage_get_info(s, &info), HIND_OK);
    EXPECT(info.node, 0);
    EXPECT(info.epoch, 10);
    EXPECT(strcmp(info.name, "front"), 0);
    EXPECT(info.buffers, 64);
    EXPECT(info.pages, 3);
    EXPECT(info.torn, 0);
    EXPECT(hind_salvage_get_page(s, 0, &page), HIND_OK);
    EXPECT(memcmp(&page.trace, &first, sizeof first), 0);
    EXPECT(page.page, 0);
    EXPECT(page.first, 0);
    EXPECT(page.records, 1);
    EXPECT(hind_salvage_get_page(s, 1, &page), HIND_OK);
    EXPECT(memcmp(&page.trace, &first, sizeof first), 0);
    EXPECT(page.page, 2);
    EXPECT(page.first, 2);
    EXPECT(hind_salvage_get_record(s, 1, 0, &r), HIND_OK);
    EXPECT(r.moment, 3);
    EXPECT(r.number, 2);
    EXPECT(r.epoch, 10);
    EXPECT(r.core, UINT64_MAX);
    EXPECT(r.len, 5);
    EXPECT(memcmp(r.payload, "again", 5), 0);
    EXPECT(hind_salvage_get_record(s, 1, 1, &r), HIND_INVALID);
    EXPECT(hind_salvage_get_record(s, 3, 0, &r), HIND_INVALID);
    EXPECT(hind_salvage_get_page(s, 2, &page), HIND_OK);
    EXPECT(memcmp(&page.trace, &second, sizeof second), 0);
    EXPECT(hind_salvage_get_page(s, 3, &page), HIND_INVALID);
    EXPECT(hind_salvage_get_page(s, 0, NULL), HIND_INVALID);
    EXPECT(hind_salvage_get_info(NULL, &info), HIND_INVALID);
    hind_salvage_close(s);
    hind_salvage_close(NULL);
    EXPECT(hind_salvage_open(NULL, &s), HIND_INVALID);
    EXPECT(hind_salvage_open(folder, &s), HIND_INVALID);
    EXPECT(hind_salvage_open("/nowhere/at/all", &s), HIND_SYSTEM);
}

/* Where the first buffer of the file is that shows a page of this trace. */
static off_t place_of(int fd, const hind_trace_id *trace) {
    uint8_t buffer[48];
    struct stat found;
    HOLDS(!fstat(fd, &found));
    for (off_t at = 4096; at + 48 <= found.st_size; at += 8)
        if (pread(fd, buffer, sizeof buffer, at) == sizeof buffer && !memcmp(buffer, trace, 16) && !buffer[16] && (buffer[30] || buffer[31]) && !buffer[28] && buffer[29]) return at;
    return -1;
}

/* A page whose counts do not add up is counted and stays where it is. */
static void torn_pages(void) {
    hind_hub *hub = opened_hub();
    hind_client *c = NULL;
    hind_salvage *s = NULL;
    hind_salvage_info info = {.size = sizeof info};
    hind_node_counts counts = {.size = sizeof counts};
    live_and_die(10, die_unclaimed);
    over->count = 0;
    int fd = open(pool, O_RDWR);
    off_t at = place_of(fd, &second);
    HOLDS(at > 0 && pwrite(fd, "\x09", 1, at + 29) == 1);
    close(fd);
    EXPECT(hind_salvage_open(pool, &s), HIND_OK);
    EXPECT(hind_salvage_get_info(s, &info), HIND_OK);
    EXPECT(info.pages, 2);
    EXPECT(info.torn, 1);
    hind_salvage_close(s);
    hind_node *node = opened(11);
    EXPECT(hind_client_open(node, &c), HIND_OK);
    EXPECT(hind_trigger(c, 1, &first, &second, 1), HIND_OK);
    carry(hub, &node, 1, 400);
    EXPECT(hind_node_get_counts(node, &counts), HIND_OK);
    EXPECT(counts.salvaged, 2);
    EXPECT(counts.torn, 1);
    /* a front that says something else is no pool file */
    EXPECT(hind_client_close(c), HIND_OK);
    EXPECT(hind_node_close(node), HIND_OK);
    fd = open(pool, O_RDWR);
    HOLDS(pwrite(fd, "\x7f", 1, 21) == 1);
    close(fd);
    EXPECT(hind_salvage_open(pool, &s), HIND_INVALID);
    EXPECT(open_life(12, 0, &node), HIND_INVALID);
    EXPECT(hind_hub_close(hub), HIND_OK);
}

/* What a life of another number left is kept, and not said by this one. */
static void another_number(void) {
    hind_node_options o = HIND_NODE_OPTIONS_INIT;
    hind_node *node = NULL;
    char kinds[32];
    uint64_t numbers[32];
    live_and_die(10, die_in_a_claimed_request);
    over->count = 0;
    o.node = 1;
    o.epoch = 11;
    o.settings = text;
    o.settings_len = sizeof text - 1;
    o.pool_file = pool;
    EXPECT(hind_node_open(&o, &node), HIND_OK);
    EXPECT(kinds_of(node, kinds, numbers), 1);
    EXPECT(files("pool"), 2);
    EXPECT(hind_node_close(node), HIND_OK);
}

/* Buffers of each size lie in the file, so that all of them outlive the process. */
static void sizes(void) {
    static const unsigned all[] = {64, 65, 100, 4088, 32768};
    for (size_t i = 0; i < sizeof all / sizeof *all; i++) {
        hind_node_options o = HIND_NODE_OPTIONS_INIT;
        hind_node *node = NULL;
        hind_client *c = NULL;
        hind_salvage *s = NULL;
        hind_salvage_info info = {.size = sizeof info};
        char settings[128];
        clean();
        snprintf(settings, sizeof settings, "clients 3\nbuffers 31\nthreshold 8\npins 8\nsize %u\nbacklog 40\n", all[i]);
        o.settings = settings;
        o.settings_len = strlen(settings);
        o.pool_file = pool;
        EXPECT(hind_node_open(&o, &node), HIND_OK);
        EXPECT(hind_client_open(node, &c), HIND_OK);
        for (int trace = 0; trace < 31; trace++) {
            EXPECT(hind_begin(c, &(hind_trace_id){{1, (uint8_t)trace}}), HIND_OK);
            write_text(c, 1, "x");
            if (trace < 30) EXPECT(hind_end(c), HIND_OK);
        }
        EXPECT(hind_node_close(node), HIND_OK);
        EXPECT(hind_salvage_open(pool, &s), HIND_OK);
        EXPECT(hind_salvage_get_info(s, &info), HIND_OK);
        EXPECT(info.pages, 31);
        hind_salvage_close(s);
        EXPECT(hind_client_close(c), HIND_OK);
    }
}

int main(int argc, char **argv) {
    static void (*const tests[])(void) = {claimed_and_killed, claimed_and_unheard, asked_while_away, asked_afterwards, triggered_afterwards, acknowledged_in_any_order, files_that_are_none, files_of_others, no_room, refused_settings,
                                          one_process_has_it, forked_children_keep_nothing, closed_beneath_a_client, few_are_kept, read_by_hand, torn_pages, another_number, sizes};
    if (argc != 2) return 2;
    snprintf(folder, sizeof folder, "%s", argv[1]);
    over = mmap(NULL, sizeof *over, PROT_READ | PROT_WRITE, MAP_SHARED | MAP_ANONYMOUS, -1, 0);
    for (size_t i = 0; i < sizeof tests / sizeof *tests; i++) {
        int before = failed;
        snprintf(pool, sizeof pool, "%s/pool", folder);
        clean();
        tests[i]();
        if (failed != before) fprintf(stderr, "in test %zu\n", i);
    }
    clean();
    return failed != 0;
}
