/* A crash at any moment: what lies in the pool file of a process that was killed, or that stands still behind any one of its instructions. No record may be
 * damaged or stand under another trace, no page may be torn, and the last record whose call returned is there.
 *
 *     crash kills N FILE     kills N writers with an agent beside them, each at a random moment
 *     crash steps N FILE     steps a writer with its agent through N instructions
 *
 * A record of the number n has the moment n and belongs to the trace n / PER_TRACE; its payload is the number, and bytes that follow from it. */
#define _GNU_SOURCE
#include "pool.h"
#include <signal.h>
#include <stdio.h>
#include <stdlib.h>
#include <string.h>
#include <sys/mman.h>
#include <sys/ptrace.h>
#include <sys/wait.h>
#include <time.h>
#include <unistd.h>

enum { PER_TRACE = 25, MOST_PAYLOAD = 128, BEHIND = 12 /* traces: a trigger names one that is over */, PIECES = 512, PAGE_FRONT = 32, PIECE_FRONT = 10 };

static const char for_kills[] = "nodes 1\nclients 1\nbuffers 512\nsize 256\nthreshold 128\npins 64\nbacklog 256\ntriggerid 1 100 1000 1000000\n";
static const char for_steps[] = "nodes 1\nclients 1\nbuffers 24\nsize 256\nthreshold 8\npins 4\nbacklog 32\ntriggerid 1 100 1000 1000000\n";
static const char *pool;

/* What a writer shows of itself. */
typedef struct {
    volatile uint64_t begun, done; /* points that were called, points that returned */
    volatile uint64_t passes;
    volatile int is_dry;           /* a page found no buffer: then nothing can be said of its records */
} shown;
static shown *own;

static size_t len_of(uint64_t n) { return 8 + (n * 2654435761u >> 7) % (MOST_PAYLOAD - 8); }

static hind_trace_id trace_of(uint64_t n) {
    hind_trace_id id = {{1}};
    for (int i = 0; i < 8; i++) id.bytes[15 - i] = (uint8_t)(n >> 8 * i);
    return id;
}

/* ---- the writer */

static void quit(const char *why) {
    fprintf(stderr, "the writer: %s\n", why);
    _exit(9);
}

static hind_node *open_node(const char *settings) {
    hind_node_options o = HIND_NODE_OPTIONS_INIT;
    hind_node *node;
    o.epoch = 1;
    o.settings = settings;
    o.settings_len = strlen(settings);
    o.pool_file = pool;
    if (hind_node_open(&o, &node)) quit("no node");
    return node;
}

static void write_point(hind_client *c, uint64_t n) {
    uint8_t payload[MOST_PAYLOAD];
    size_t len = len_of(n);
    memcpy(payload, &n, 8);
    memset(payload + 8, (int)(n & 255), len - 8);
    own->begun = n + 1;
    hind_code code = hind_point_at(c, n, payload, len);
    if (code == HIND_DRY) own->is_dry = 1;
    else if (code) quit(hind_errname(code));
    own->done = n + 1;
}

static void write_trace(hind_client *c, uint64_t t) {
    hind_trace_id id = trace_of(t), earlier = trace_of(t - BEHIND);
    if (hind_begin(c, &id)) quit("no trace");
    for (uint64_t n = t * PER_TRACE; n < (t + 1) * PER_TRACE; n++) write_point(c, n);
    if (t % 7 == 0 && t >= BEHIND && hind_trigger(c, 1, &earlier, NULL, 0)) quit("no trigger");
    if (hind_end(c)) quit("no end");
}

static void make_pass(hind_node *node) {
    hind_message m;
    if (hind_node_pass(node) == HIND_NOMEM) quit("no pass");
    while (hind_node_next(node, &m) == HIND_OK) {
        hind_node_sent(node, m.number);
        hind_node_acknowledged(node, m.number);
    }
    own->passes++;
}

static void *passes(void *node) {
    for (;;) make_pass(node);
    return NULL;
}

/* The agent keeps up, so that the pool is not dry. */
static void write_and_pass(void) {
    hind_node *node = open_node(for_kills);
    hind_client *c;
    pthread_t agent;
    if (hind_client_open(node, &c) || pthread_create(&agent, NULL, passes, node)) quit("no client");
    for (uint64_t t = 0;; t++) {
        uint64_t now = own->passes;
        write_trace(c, t);
        while (t % 2 && own->passes < now + 2) __builtin_ia32_pause();
    }
}

static void write_by_steps(void) {
    hind_node *node = open_node(for_steps);
    hind_client *c;
    if (hind_client_open(node, &c)) quit("no client");
    for (uint64_t t = 0;; t++) {
        hind_trace_id id = trace_of(t), earlier = trace_of(t - 1);
        if (t == 40) raise(SIGSTOP); /* from here on by steps */
        if (hind_begin(c, &id)) quit("no trace");
        for (uint64_t n = t * PER_TRACE; n < (t + 1) * PER_TRACE; n++) write_point(c, n);
        if (t % 3 == 1 && hind_trigger(c, 1, &earlier, NULL, 0)) quit("no trigger");
        if (hind_end(c)) quit("no end");
        make_pass(node);
    }
}

/* ---- what lies in the file */

typedef struct {
    unsigned long states, pages, torn, records, damaged, of_others, early, last_gone;
} found;

static void look_at_piece(const uint8_t *payload, const hindcore_piece *piece, const hindcore_page *page, uint64_t begun, uint64_t wanted, int *has_last, found *f) {
    uint64_t n = UINT64_MAX;
    f->records++;
    if (piece->len >= 8) memcpy(&n, payload, 8);
    int is_sound = piece->len >= 8 && piece->len == len_of(n) && piece->moment == n;
    for (size_t i = 8; is_sound && i < piece->len; i++) is_sound = payload[i] == (uint8_t)(n & 255);
    hind_trace_id id = trace_of(n / PER_TRACE);
    if (!is_sound) f->damaged++;
    else if (memcmp(&id, &page->trace, sizeof id)) f->of_others++;
    else if (n >= begun) f->early++;
    else if (n == wanted) *has_last = 1;
}

static void look(const uint8_t *bytes, uint64_t begun, uint64_t done, found *f) {
    static hindcore_piece pieces[PIECES];
    uint64_t first = pool_number(bytes + 24, 8);
    uint32_t block = (uint32_t)pool_number(bytes + 12, 4), stride = (uint32_t)pool_number(bytes + 16, 4), count = (uint32_t)pool_number(bytes + 20, 4);
    int has_last = !done;
    f->states++;
    for (uint32_t b = 0; b < count; b++) {
        const uint8_t *at = bytes + first + (uint64_t)b * stride;
        hindcore_page page;
        uint32_t answer = hindcore_page_read(at, block, &page, pieces, PIECES);
        f->torn += answer != HINDCORE_DONE && answer != HINDCORE_NOTHING;
        f->pages += answer == HINDCORE_DONE;
        at += PAGE_FRONT;
        for (uint32_t i = 0; answer == HINDCORE_DONE && i < page.pieces; i++) {
            look_at_piece(at + PIECE_FRONT, &pieces[i], &page, begun, done - 1, &has_last, f);
            at += PIECE_FRONT + pieces[i].len;
        }
    }
    f->last_gone += !has_last;
}

static int tell(const found *f, const char *what) {
    printf("%s: %lu states, %lu pages, %lu torn, %lu records, %lu damaged, %lu under another trace, %lu before their call, last finished record gone %lu times\n", what, f->states, f->pages,
           f->torn, f->records, f->damaged, f->of_others, f->early, f->last_gone);
    return f->torn || f->damaged || f->of_others || f->early || f->last_gone || !f->records;
}

static int map(pool_file *f) {
    hind_code code = pool_open(pool, 0, f);
    if (code) fprintf(stderr, "%s: %s\n", pool, hind_errname(code));
    return !code;
}

/* The first buffer that shows a page with a record, or NULL. */
static uint8_t *first_page(uint8_t *bytes) {
    uint32_t block = (uint32_t)pool_number(bytes + 12, 4), count = (uint32_t)pool_number(bytes + 20, 4);
    for (uint32_t b = 0; b < count; b++) {
        uint8_t *at = bytes + pool_number(bytes + 24, 8) + b * pool_number(bytes + 16, 4);
        hindcore_piece one;
        hindcore_page page;
        if (hindcore_page_read(at, block, &page, &one, 1) == HINDCORE_DONE && page.pieces) return at;
    }
    return NULL;
}

/* Whether each fault that is looked for is seen where a byte of a sound file is another one; -1 where the file shows no page. */
static int sees_faults(const uint8_t *bytes, size_t len) {
    static const struct {
        size_t place;
        size_t counted; /* in `found` */
    } faults[] = {{PAGE_FRONT + PIECE_FRONT + 7, offsetof(found, damaged)}, {0, offsetof(found, of_others)}, {31, offsetof(found, torn)}};
    uint8_t *copy = malloc(len), *page = NULL;
    int sees = copy != NULL;
    if (copy) memcpy(copy, bytes, len);
    if (copy) page = first_page(copy);
    for (size_t i = 0; page && i < sizeof faults / sizeof *faults; i++) {
        found f = {0};
        page[faults[i].place] ^= 1;
        look(copy, UINT64_MAX, 0, &f);
        page[faults[i].place] ^= 1;
        sees = sees && *(unsigned long *)((char *)&f + faults[i].counted) > 0;
    }
    if (!sees) fprintf(stderr, "a fault is not seen\n");
    free(copy);
    return page ? sees : -sees;
}

/* ---- kills */

static int one_kill(found *f, unsigned *dry) {
    pool_file file;
    int status;
    memset(own, 0, sizeof *own);
    pid_t child = fork();
    if (!child) write_and_pass();
    while (!own->passes && !waitpid(child, &status, WNOHANG)) usleep(100);
    usleep(200 + (unsigned)rand() % 12000);
    kill(child, SIGKILL);
    if (waitpid(child, &status, 0) != child || !WIFSIGNALED(status)) return 0;
    *dry += (unsigned)own->is_dry;
    if (!map(&file)) return 0;
    if (!own->is_dry) look(file.bytes, own->begun, own->done, f);
    int sees = sees_faults(file.bytes, file.len);
    pool_close(&file);
    return !unlink(pool) && sees;
}

static int kills(unsigned count) {
    found f = {0};
    unsigned dry = 0;
    for (unsigned i = 0; i < count; i++)
        if (!one_kill(&f, &dry)) return 1;
    printf("dry: %u of %u\n", dry, count);
    return tell(&f, "kills") || f.states * 2 < count;
}

/* ---- steps */

/* The file as it is while its process lives. */
static const uint8_t *live(size_t *len) {
    FILE *f = fopen(pool, "r");
    uint8_t *at = MAP_FAILED;
    if (f && !fseek(f, 0, SEEK_END)) at = mmap(NULL, *len = (size_t)ftell(f), PROT_READ, MAP_SHARED, fileno(f), 0);
    if (f) fclose(f);
    return at == MAP_FAILED ? NULL : at;
}

static int steps(unsigned long count) {
    found f = {0};
    int status;
    pid_t child = fork();
    if (!child) {
        ptrace(PTRACE_TRACEME, 0, 0, 0);
        write_by_steps();
    }
    if (waitpid(child, &status, 0) != child || !WIFSTOPPED(status)) return 1;
    size_t len = 0;
    const uint8_t *bytes = live(&len);
    uint64_t from = own->done;
    for (; bytes && f.states < count; look(bytes, own->begun, own->done, &f)) {
        if (ptrace(PTRACE_SINGLESTEP, child, 0, 0) || waitpid(child, &status, 0) != child || !WIFSTOPPED(status)) return 1;
        if (own->is_dry) break;
    }
    printf("points %llu, passes %llu, dry %d\n", (unsigned long long)(own->done - from), (unsigned long long)own->passes, own->is_dry);
    kill(child, SIGKILL);
    waitpid(child, &status, 0);
    unlink(pool);
    return tell(&f, "steps") || f.states < count || sees_faults(bytes, len) != 1;
}

int main(int argc, char **argv) {
    if (argc != 4) return 2;
    pool = argv[3];
    own = mmap(NULL, sizeof *own, PROT_READ | PROT_WRITE, MAP_SHARED | MAP_ANONYMOUS, -1, 0);
    if (own == MAP_FAILED) return 2;
    return strcmp(argv[1], "steps") ? kills((unsigned)atoi(argv[2])) : steps(strtoul(argv[2], NULL, 10));
}
