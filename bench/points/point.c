/* What a point costs its thread, in nanoseconds of the thread's own processor time.
 *
 *     point KIND THREADS BUFFERS SIZE REPS BYTES..
 *
 * KIND is `ours` (hindcore_point, with a thread that takes each full page and gives its buffer back), `ours:N` (the same, with a segment
 * begun and ended for each N points) or `copy` (memcpy of the payload, ten bytes apart, into as much memory). Each thread writes into
 * BUFFERS buffers of SIZE bytes of its own, twice over before its time is taken, so that no page of memory is new to the process then. A line
 * for each payload and repetition: kind, threads, payload, MiB for each thread, nanoseconds a point (mean of the threads), and of all that
 * was written points, null pages, pages taken. */
#define _GNU_SOURCE
#include "hindcore.h"
#include <pthread.h>
#include <sched.h>
#include <stdatomic.h>
#include <stdint.h>
#include <stdio.h>
#include <stdlib.h>
#include <string.h>
#include <sys/mman.h>
#include <time.h>

enum { MOST_THREADS = 8, MOST_BYTES = 8192 };

/* What a thread of the bench has. Two of them share no cache line. */
struct writer {
    _Alignas(128) hindcore_client client;
    uint8_t *area;
    double spent;
    long points;
};

static struct writer writers[MOST_THREADS];
static hindcore_port port;
static uint8_t payload[MOST_BYTES];
static int ours, threads;
static size_t buffers, size, bytes;
static long points, warms, segment;
static unsigned long pages;
static pthread_barrier_t begins;
static atomic_int over;

static double processor_time(void) {
    struct timespec t;
    clock_gettime(CLOCK_THREAD_CPUTIME_ID, &t);
    return (double)t.tv_sec * 1e9 + (double)t.tv_nsec;
}

static void must(int holds, const char *what) {
    if (!holds) {
        fprintf(stderr, "point: %s\n", what);
        exit(1);
    }
}

static void write_points(struct writer *w, long count) {
    hindcore_trace trace = {{0}};
    for (long done = 0; done < count;) {
        long end = done + segment < count ? done + segment : count;
        memcpy(trace.bytes, &done, sizeof done);
        trace.bytes[15] = 1;
        must(hindcore_begin(&w->client, &trace) == HINDCORE_DONE, "begin");
        for (; done < end; done++) {
            uint32_t code = hindcore_point(&w->client, (uint64_t)done, payload, bytes);
            must(code == HINDCORE_DONE || code == HINDCORE_DRY, "point"); /* null pages are counted */
        }
        must(hindcore_end(&w->client) == HINDCORE_DONE, "end");
    }
}

static void copy_points(struct writer *w, long count) {
    size_t at = 0, room = buffers * size;
    for (long i = 0; i < count; i++) {
        if (at + bytes + 10 > room) at = 0;
        memcpy(w->area + at + 10, payload, bytes);
        at += bytes + 10;
        __asm__ volatile("" ::: "memory");
    }
}

static void *writes(void *arg) {
    struct writer *w = arg;
    void (*const writes_points)(struct writer *, long) = ours ? write_points : copy_points;
    writes_points(w, warms);
    pthread_barrier_wait(&begins);
    double from = processor_time();
    writes_points(w, points);
    w->spent = processor_time() - from;
    return NULL;
}

/* Waits as long as an agent does that found nothing: ten microseconds. One that looked all the time would have its writers' cache lines. */
static void wait_a_little(void) {
    struct timespec from, now;
    clock_gettime(CLOCK_MONOTONIC, &from);
    do {
        for (int i = 0; i < 20; i++) __builtin_ia32_pause();
        clock_gettime(CLOCK_MONOTONIC, &now);
    } while ((now.tv_sec - from.tv_sec) * 1000000000 + now.tv_nsec - from.tv_nsec < 10000);
}

/* Takes what comes of every client and gives it back, until the writers are done and nothing comes. */
static void *takes(void *arg) {
    (void)arg;
    for (int last = 0, any = 1; any || !last;) {
        last = atomic_load(&over);
        any = 0;
        for (uint16_t client = 0; client < threads; client++)
            for (int n = 0; n < 64 && hindcore_take(&port, client) == HINDCORE_DONE; n++) {
                any = 1;
                pages++;
            }
        for (uint16_t client = 0; client < threads; client++) hindcore_take_notes(&port, client);
        if (!any) wait_a_little();
    }
    return NULL;
}

static void make_ours(void) {
    char settings[160];
    hindcore_fault fault;
    size_t all = buffers * (size_t)threads; /* so many chunks may wait, and no outbox is ever full */
    /* threshold and pins are the agent's, which is not here */
    int len = snprintf(settings, sizeof settings, "triggerid 1\nnodes 2\nbuffers %zu\nsize %zu\nthreshold 0\npins 0\nclients %d\nbacklog %zu\n",
                       all, size, threads, all);
    memset(&port, 0, sizeof port);
    must(hindcore_open((const uint8_t *)settings, (size_t)len, 0, &port, &fault) == HINDCORE_DONE, "open");
    for (int i = 0; i < threads; i++) {
        memset(&writers[i].client, 0, sizeof writers[i].client);
        must(hindcore_client_open(&port, &writers[i].client) == HINDCORE_DONE, "client_open");
    }
}

static unsigned long close_ours(void) {
    unsigned long nulls = 0;
    for (int i = 0; i < threads; i++) {
        hindcore_count counts;
        must(hindcore_counts(&writers[i].client, &counts) == HINDCORE_DONE, "counts");
        nulls += counts.null_pages;
        must(hindcore_client_free(&writers[i].client) == HINDCORE_DONE, "free");
    }
    must(hindcore_port_free(&port) == HINDCORE_DONE, "free");
    return nulls;
}

static void run(const char *kind, int prints) {
    pthread_t ids[MOST_THREADS], taker;
    unsigned long nulls = 0;
    double each = 0;
    pthread_barrier_init(&begins, NULL, (unsigned)threads);
    atomic_store(&over, 0);
    pages = 0;
    if (ours) {
        make_ours();
        must(!pthread_create(&taker, NULL, takes, NULL), "thread");
    }
    for (int i = 0; i < threads; i++) must(!pthread_create(&ids[i], NULL, writes, &writers[i]), "thread");
    for (int i = 0; i < threads; i++) pthread_join(ids[i], NULL);
    if (ours) {
        for (int i = 0; i < threads; i++) {
            uint64_t waits;
            do hindcore_flush(&writers[i].client, &waits);
            while (waits);
        }
        atomic_store(&over, 1);
        pthread_join(taker, NULL);
        nulls = close_ours();
    }
    for (int i = 0; i < threads; i++) each += writers[i].spent / (double)points / threads;
    if (prints) printf("%s %d %zu %.2f %.2f %ld %lu %lu\n", kind, threads, bytes, (double)(buffers * size) / 1048576, each, (warms + points) * threads,
                      nulls, pages);
    fflush(stdout);
    pthread_barrier_destroy(&begins);
}

int main(int argc, char **argv) {
    must(argc > 6, "KIND THREADS BUFFERS SIZE REPS BYTES..");
    ours = !strncmp(argv[1], "ours", 4);
    threads = atoi(argv[2]);
    buffers = (size_t)atol(argv[3]);
    size = (size_t)atol(argv[4]);
    must(threads >= 1 && threads <= MOST_THREADS, "from 1 to 8 threads");
    memset(payload, 7, sizeof payload);
    for (int i = 0; !ours && i < threads; i++) {
        writers[i].area = mmap(NULL, buffers * size, PROT_READ | PROT_WRITE, MAP_PRIVATE | MAP_ANONYMOUS | MAP_POPULATE, -1, 0);
        must(writers[i].area != MAP_FAILED, "memory");
    }
    for (int a = 6; a < argc; a++) {
        bytes = (size_t)atol(argv[a]);
        must(bytes <= MOST_BYTES, "at most 8,192 bytes");
        /* each thread fills its memory at least four times over */
        points = (long)(4 * buffers * size / (bytes + 10));
        if (points < 200000) points = 200000;
        warms = (long)(2 * buffers * size / (bytes + 10));
        segment = ours && argv[1][4] == ':' ? atol(argv[1] + 5) : points + warms;
        must(segment > 0, "a segment has a point");
        for (int rep = -1; rep < atoi(argv[5]); rep++) run(argv[1], rep >= 0);
    }
    return 0;
}
