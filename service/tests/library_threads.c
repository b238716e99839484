/* Threads that come and go, signal handlers that write, forks, and a node that is closed while threads write.
 *
 *     library_threads [THREADS]      how many threads come and go, 10,000 unless it is said */
#include "expect.h"
#include "hindsight.h"
#include <pthread.h>
#include <signal.h>
#include <stdlib.h>
#include <string.h>
#include <sys/wait.h>
#include <time.h>
#include <unistd.h>

static const char text[] = "triggerid 1\nnodes 4\nbuffers 256\nsize 256\nthreshold 64\npins 64\nclients 8\nbacklog 8\n";
static const hind_trace_id id = {{1}};
static hind_node *node;
static int ends; /* the thread that makes passes ends */

static hind_node *opened(hind_node_id number) {
    hind_node_options o = HIND_NODE_OPTIONS_INIT;
    hind_node *made = NULL;
    o.node = number;
    o.settings = text;
    o.settings_len = sizeof text - 1;
    EXPECT(hind_node_open(&o, &made), HIND_OK);
    return made;
}

static void sleep_ms(long ms) {
    struct timespec t = {ms / 1000, ms % 1000 * 1000000};
    nanosleep(&t, NULL);
}

/* Passes, and messages that go nowhere. */
static void *passes(void *of) {
    hind_node *n = of;
    hind_message m;
    hind_node_counts counts = {.size = sizeof counts};
    while (!__atomic_load_n(&ends, __ATOMIC_RELAXED)) {
        uint64_t points = counts.points;
        HOLDS(hind_node_pass(n) >= 0);
        EXPECT(hind_node_get_counts(n, &counts), HIND_OK);
        HOLDS(counts.points >= points && counts.used_clients <= counts.clients); /* while clients write */
        sleep_ms(1);
        while (hind_node_next(n, &m) == HIND_OK) {
            (void)hind_node_sent(n, m.number);
            (void)hind_node_acknowledged(n, m.number);
        }
    }
    return NULL;
}

static pthread_t start_passes(void) {
    pthread_t thread;
    __atomic_store_n(&ends, 0, __ATOMIC_RELAXED);
    HOLDS(!pthread_create(&thread, NULL, passes, node));
    return thread;
}

static void end_passes(pthread_t thread) {
    __atomic_store_n(&ends, 1, __ATOMIC_RELAXED);
    HOLDS(!pthread_join(thread, NULL));
}

/* ---- threads that come and go */

/* A thread writes and goes, and leaves its trace open now and then. */
static void *comes_and_goes(void *arg) {
    size_t number = (size_t)arg;
    hind_client *c, *same;
    hind_trace_id trace = {{9, (uint8_t)(number >> 16), (uint8_t)(number >> 8), (uint8_t)number}};
    hind_code code;
    /* those that went before may have left traces that a pass has to end */
    while ((code = hind_client_get(node, &c)) == HIND_FULL) sleep_ms(1);
    EXPECT(code, HIND_OK);
    if (code) return NULL;
    EXPECT(hind_client_get(node, &same), HIND_OK);
    HOLDS(c == same);
    EXPECT(hind_begin(c, &trace), HIND_OK);
    code = hind_point(c, &number, sizeof number);
    HOLDS(code == HIND_OK || code == HIND_FULL || code == HIND_DRY);
    if (number % 3) (void)hind_end(c);
    if (number % 7 == 0) (void)hind_trigger(c, 1, &trace, NULL, 0);
    return NULL;
}

static void many_threads(size_t count) {
    pthread_t threads[8], passing;
    node = opened(0);
    passing = start_passes();
    for (size_t done = 0; done < count; done += 8) {
        for (size_t i = 0; i < 8; i++) HOLDS(!pthread_create(&threads[i], NULL, comes_and_goes, (void *)(done + i)));
        for (size_t i = 0; i < 8; i++) HOLDS(!pthread_join(threads[i], NULL));
        if (failed) exit(1);
    }
    end_passes(passing);
    /* all are there again, and none has an open trace */
    hind_client *c[9];
    for (int i = 0; i < 16; i++) HOLDS(hind_node_pass(node) >= 0);
    for (int i = 0; i < 8; i++) {
        EXPECT(hind_client_open(node, &c[i]), HIND_OK);
        EXPECT(hind_end(c[i]), HIND_NOTRACE);
    }
    EXPECT(hind_client_open(node, &c[8]), HIND_MANY);
    for (int i = 0; i < 8; i++) EXPECT(hind_client_close(c[i]), HIND_OK);
    EXPECT(hind_node_close(node), HIND_OK);
}

/* A thread's other destructors may write: the client that they get is given back too. */
static pthread_key_t of_others;

static void writes_at_the_end(void *left) {
    hind_client *c;
    EXPECT(hind_client_get(node, &c), HIND_OK);
    EXPECT(hind_begin(c, &id), HIND_OK);
    EXPECT(hind_point(c, "the last words", 14), HIND_OK);
    if ((size_t)left > 1) HOLDS(!pthread_setspecific(of_others, (void *)((size_t)left - 1)));
}

static void *ends_with_words(void *arg) {
    hind_client *c;
    EXPECT(hind_client_get(node, &c), HIND_OK);
    HOLDS(!pthread_setspecific(of_others, arg));
    if (arg == (void *)2) pthread_exit(NULL);
    return NULL;
}

static void words_at_the_end(void) {
    hind_node_counts counts = {.size = sizeof counts};
    pthread_t thread;
    node = opened(0);
    HOLDS(!pthread_key_create(&of_others, writes_at_the_end));
    for (size_t i = 0; i < 40; i++) {
        HOLDS(!pthread_create(&thread, NULL, ends_with_words, (void *)(i % 2 + 1)));
        HOLDS(!pthread_join(thread, NULL));
        HOLDS(hind_node_pass(node) >= 0);
    }
    HOLDS(!pthread_key_delete(of_others));
    EXPECT(hind_node_get_counts(node, &counts), HIND_OK);
    HOLDS(counts.points >= 40 && counts.used_clients == 0);
    EXPECT(hind_node_close(node), HIND_OK);
}

/* Traces that found no place when their thread ended are ended by passes. */
static void *leaves_open(void *arg) {
    hind_client *c;
    (void)arg;
    EXPECT(hind_client_get(node, &c), HIND_OK);
    EXPECT(hind_begin(c, &id), HIND_OK);
    for (int i = 0; i < 100000; i++) {
        hind_code code = hind_point(c, text, 60);
        if (code != HIND_OK && code != HIND_DRY) break;
    }
    return NULL;
}

static void full_when_it_ends(void) {
    pthread_t threads[8];
    hind_client *c;
    node = opened(0);
    for (size_t i = 0; i < 8; i++) {
        HOLDS(!pthread_create(&threads[i], NULL, leaves_open, NULL));
        HOLDS(!pthread_join(threads[i], NULL));
    }
    for (int i = 0; i < 16; i++) HOLDS(hind_node_pass(node) >= 0);
    for (int i = 0; i < 8; i++) {
        EXPECT(hind_client_open(node, &c), HIND_OK);
        EXPECT(hind_end(c), HIND_NOTRACE);
        EXPECT(hind_client_close(c), HIND_OK);
    }
    EXPECT(hind_node_close(node), HIND_OK);
}

/* ---- a node that is closed while threads write */

static void *writes_until_closed(void *has_one) {
    hind_client *c;
    hind_code code = HIND_OK;
    EXPECT(hind_client_get(node, &c), HIND_OK);
    pthread_barrier_wait(has_one);
    while (code != HIND_CLOSED) {
        code = hind_begin(c, &id);
        HOLDS(code == HIND_OK || code == HIND_CLOSED || code == HIND_OPEN);
        code = hind_point(c, text, 30);
        HOLDS(code == HIND_OK || code == HIND_CLOSED || code == HIND_FULL || code == HIND_DRY);
        code = hind_end(c);
        HOLDS(code == HIND_OK || code == HIND_CLOSED || code == HIND_FULL);
        if (failed) break;
    }
    return NULL;
}

static void closed_meanwhile(void) {
    for (int round = 0; round < 20; round++) {
        pthread_t threads[4], passing;
        pthread_barrier_t have_one;
        node = opened(0);
        passing = start_passes();
        HOLDS(!pthread_barrier_init(&have_one, NULL, 5));
        for (int i = 0; i < 4; i++) HOLDS(!pthread_create(&threads[i], NULL, writes_until_closed, &have_one));
        pthread_barrier_wait(&have_one);
        sleep_ms(5);
        end_passes(passing);
        EXPECT(hind_node_close(node), HIND_OK);
        for (int i = 0; i < 4; i++) HOLDS(!pthread_join(threads[i], NULL));
        pthread_barrier_destroy(&have_one);
    }
}

/* ---- a signal handler that writes */

static hind_client *of_handler;
static volatile sig_atomic_t handled, interrupted, recorded, others;

static void handler(int number) {
    static char from[] = "from ", a_handler[] = "a handler";
    const struct iovec both[] = {{from, 5}, {a_handler, 9}};
    (void)number;
    switch (handled % 2 ? hind_pointv(of_handler, both, 2) : hind_point(of_handler, "from a handler", 14)) {
    case HIND_OK: case HIND_DRY: recorded++; break; /* a dry point is done */
    case HIND_BUSY: interrupted++; break;
    case HIND_NOTRACE: case HIND_FULL: break;
    default: others++;
    }
    handled++;
}

static void signals(void) {
    struct sigaction action;
    struct itimerspec often = {{0, 50000}, {0, 50000}};
    struct sigevent event;
    hind_client_counts counts = {.size = sizeof counts};
    uint64_t own = 0;
    timer_t timer;
    node = opened(0);
    pthread_t passing;
    sigset_t all, before;
    sigfillset(&all);
    pthread_sigmask(SIG_BLOCK, &all, &before); /* the handler runs in this thread alone */
    passing = start_passes();
    pthread_sigmask(SIG_SETMASK, &before, NULL);
    EXPECT(hind_client_get(node, &of_handler), HIND_OK);
    memset(&action, 0, sizeof action);
    action.sa_handler = handler;
    sigaction(SIGUSR1, &action, NULL);
    memset(&event, 0, sizeof event);
    event.sigev_notify = SIGEV_SIGNAL;
    event.sigev_signo = SIGUSR1;
    HOLDS(!timer_create(CLOCK_MONOTONIC, &event, &timer));
    timer_settime(timer, 0, &often, NULL);
    for (long i = 0; i < 50000000 && (interrupted < 50 || recorded < 50); i++) {
        hind_trace_id trace = {{3, (uint8_t)(i >> 8), (uint8_t)i}};
        hind_code code = hind_begin(of_handler, &trace);
        HOLDS(code == HIND_OK || code == HIND_OPEN);
        const struct iovec halves[] = {{(void *)(uintptr_t)text, 16}, {(void *)(uintptr_t)(text + 16), 16}};
        code = i % 2 ? hind_pointv_at(of_handler, 5, halves, 2) : hind_point_at(of_handler, 5, text, 32);
        HOLDS(code == HIND_OK || code == HIND_FULL || code == HIND_DRY);
        own += code == HIND_OK || code == HIND_DRY;
        code = hind_end(of_handler);
        HOLDS(code == HIND_OK || code == HIND_FULL);
    }
    timer_delete(timer);
    EXPECT(others, 0);
    HOLDS(handled >= interrupted + recorded && recorded > 0);
    /* what was recorded is what both were told */
    EXPECT(hind_client_get_counts(of_handler, &counts), HIND_OK);
    EXPECT(counts.points, own + (uint64_t)recorded);
    printf("signals: %d handled, %d interrupted a call, %d recorded\n", (int)handled, (int)interrupted, (int)recorded);
    end_passes(passing);
    EXPECT(hind_node_close(node), HIND_OK);
}

/* ---- forks */

static void in_child(hind_client *c) {
    hind_message m;
    hind_client *other = c;
    uint64_t before = 0;
    EXPECT(hind_begin(c, &id), HIND_FORKED);
    EXPECT(hind_point(c, "x", 1), HIND_FORKED);
    EXPECT(hind_pointv(c, NULL, 0), HIND_FORKED);
    EXPECT(hind_crumb(c, 1), HIND_FORKED);
    EXPECT(hind_crumb_of(c, &id, 1), HIND_FORKED);
    EXPECT(hind_trigger(c, 1, &id, NULL, 0), HIND_FORKED);
    EXPECT(hind_sample(c, 0, 0), HIND_FORKED);
    EXPECT(hind_end(c), HIND_FORKED);
    EXPECT(hind_flush(c, &before), HIND_FORKED);
    EXPECT(hind_write(c, "E", 1, NULL, NULL), HIND_FORKED);
    EXPECT(hind_client_close(c), HIND_FORKED);
    EXPECT(hind_client_get(node, &other), HIND_FORKED);
    HOLDS(!other);
    EXPECT(hind_client_open(node, &other), HIND_FORKED);
    EXPECT(hind_node_pass(node), HIND_FORKED);
    EXPECT(hind_node_next(node, &m), HIND_FORKED);
    EXPECT(hind_node_sent(node, 0), HIND_FORKED);
    EXPECT(hind_node_acknowledged(node, 0), HIND_FORKED);
    EXPECT(hind_node_again(node), HIND_FORKED);
    EXPECT(hind_node_hello(node), HIND_FORKED);
    EXPECT(hind_node_deliver(node, "x", 1), HIND_FORKED);
    EXPECT(hind_node_fd(node), -1);
    EXPECT(hind_node_get_counts(node, &(hind_node_counts){.size = sizeof(hind_node_counts)}), HIND_FORKED);
    EXPECT(hind_node_close(node), HIND_FORKED);
#if !defined(__SANITIZE_ADDRESS__) && !defined(__SANITIZE_THREAD__)
    /* A node of its own works, with a client of the same thread. A sanitizer's allocator may be locked here for ever, by a thread that the parent has. */
    hind_node *own = opened(1);
    EXPECT(hind_client_get(own, &other), HIND_OK);
    HOLDS(other != c);
    EXPECT(hind_begin(other, &id), HIND_OK);
    EXPECT(hind_point(other, "x", 1), HIND_OK);
    EXPECT(hind_end(other), HIND_OK);
    HOLDS(hind_node_pass(own) >= 0);
    EXPECT(hind_node_close(own), HIND_OK);
#endif
}

static void forks(void) {
    hind_client *c;
    pthread_t passing;
    node = opened(0);
    passing = start_passes();
    EXPECT(hind_client_get(node, &c), HIND_OK);
    EXPECT(hind_begin(c, &id), HIND_OK);
    for (int round = 0; round < 20; round++) {
        int status = 0;
        pid_t child = fork();
        if (!child) {
            alarm(60); /* what hangs ends */
            in_child(c);
            _exit(failed != 0);
        }
        HOLDS(waitpid(child, &status, 0) == child);
        EXPECT(status, 0);
    }
    EXPECT(hind_point(c, "the parent goes on", 18), HIND_OK);
    EXPECT(hind_end(c), HIND_OK);
    end_passes(passing);
    EXPECT(hind_node_close(node), HIND_OK);
}

int main(int argc, char **argv) {
    setvbuf(stdout, NULL, _IOLBF, 0); /* what forks has nothing left to print */
    many_threads(argc > 1 ? (size_t)atoi(argv[1]) : 10000);
    words_at_the_end();
    full_when_it_ends();
    closed_meanwhile();
    signals();
    forks();
    return failed != 0;
}
