/* What a tracepoint of LTTng-UST costs its thread; a session in snapshot mode runs. Words and lines as in point.c. */
#define _GNU_SOURCE
#define LTTNG_UST_TRACEPOINT_CREATE_PROBES
#define LTTNG_UST_TRACEPOINT_DEFINE
#include "lttng_point.h"
#include <pthread.h>
#include <stdio.h>
#include <stdlib.h>
#include <string.h>
#include <time.h>

enum { MOST_THREADS = 8, MOST_BYTES = 8192 };

static uint8_t payload[MOST_BYTES];
static long points;
static size_t bytes;
static double spent[MOST_THREADS];
static pthread_barrier_t begins;

static double processor_time(void) {
    struct timespec t;
    clock_gettime(CLOCK_THREAD_CPUTIME_ID, &t);
    return (double)t.tv_sec * 1e9 + (double)t.tv_nsec;
}

static void *writes(void *arg) {
    pthread_barrier_wait(&begins);
    double from = processor_time();
    for (long i = 0; i < points; i++) lttng_ust_tracepoint(peers, point, (uint64_t)i, payload, (uint32_t)bytes);
    *(double *)arg = processor_time() - from;
    return NULL;
}

int main(int argc, char **argv) {
    if (argc < 7) return 2;
    int threads = atoi(argv[2]);
    size_t room = (size_t)atol(argv[3]) * (size_t)atol(argv[4]);
    if (threads < 1 || threads > MOST_THREADS) return 2;
    memset(payload, 7, sizeof payload);
    for (int a = 6; a < argc; a++) {
        bytes = (size_t)atol(argv[a]);
        if (bytes > MOST_BYTES) return 2;
        points = (long)(2 * room / (bytes + 10));
        if (points < 100000) points = 100000;
        if (points > 400000) points = 400000;
        for (int rep = -1; rep < atoi(argv[5]); rep++) {
            pthread_t ids[MOST_THREADS];
            double each = 0;
            pthread_barrier_init(&begins, NULL, (unsigned)threads);
            for (int i = 0; i < threads; i++) pthread_create(&ids[i], NULL, writes, &spent[i]);
            for (int i = 0; i < threads; i++) {
                pthread_join(ids[i], NULL);
                each += spent[i] / (double)points / threads;
            }
            if (rep >= 0) printf("%s %d %zu %.2f %.2f %ld 0 0\n", argv[1], threads, bytes, (double)room / 1048576, each, points * threads);
            fflush(stdout);
            pthread_barrier_destroy(&begins);
        }
    }
    return 0;
}
