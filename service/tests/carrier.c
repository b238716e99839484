/* The carrier over a NATS server that this program starts, stops, kills and starts again. The node is a plain list of messages.
 *
 *     carrier FOLDER PORT [victim]      FOLDER is empty, and takes what the server stores; `victim` is how the program calls itself */
#include "carrier.h"
#include "expect.h"
#include "processes.h"
#include "pull.h"
#include <nats/nats.h>
#include <pthread.h>
#include <stdatomic.h>
#include <stdlib.h>

enum { MOST = 20000 };

static char folder[256], port[16], url[64];
static pid_t server;

static void start_server(void) {
    char *words[] = {"nats-server", "-a", "127.0.0.1", "-p", port, "-js", "-sd", folder, NULL};
    server = process_start(words);
}

/* ---- a node: messages 0 to count-1, each of which waits until it is acknowledged */

typedef struct {
    pthread_mutex_t lock;
    uint64_t count, first; /* those below `first` are acknowledged */
    uint64_t offered;      /* those below are handed out */
    char done[MOST];
    uint64_t asks, agains, passes;
    uint8_t bytes[64];
} node;

static int node_pass(void *of) {
    node *n = of;
    n->passes++;
    return 0;
}

static int node_next(void *of, uint64_t *number, const uint8_t **bytes, size_t *len) {
    node *n = of;
    while (n->offered < n->count && n->done[n->offered]) n->offered++;
    if (n->offered >= n->count) return 0;
    *number = n->offered;
    memset(n->bytes, 0x5a, sizeof n->bytes);
    memcpy(n->bytes, &n->offered, 8);
    *bytes = n->bytes;
    *len = 8 + n->offered % 50;
    return 1;
}

static void node_sent(void *of, uint64_t number) {
    node *n = of;
    HOLDS(number == n->offered);
    n->offered = number + 1;
}

static int node_acknowledged(void *of, uint64_t number) {
    node *n = of;
    if (number >= n->count || n->done[number]) return 0;
    n->done[number] = 1;
    return 1;
}

static void node_again(void *of) {
    node *n = of;
    n->agains++;
    n->offered = 0;
}

static void node_deliver(void *of, const uint8_t *bytes, size_t len) {
    node *n = of;
    HOLDS(len == 3 && !memcmp(bytes, "ask", 3));
    n->asks++;
}

static carried carried_of(node *n) {
    return (carried){n, node_pass, node_next, node_sent, node_acknowledged, node_again, node_deliver};
}

static uint64_t acknowledged(const node *n) {
    uint64_t count = 0;
    for (uint64_t i = 0; i < n->count; i++) count += (uint64_t)n->done[i];
    return count;
}

/* ---- what the stream keeps */

/* Takes all that the stream of a prefix has, and answers how often each message came. */
static void read_stream(const char *prefix, unsigned *came) {
    broker b;
    pull p;
    natsMsg *message;
    char stream[BROKER_MOST_SUBJECT], fault[200];
    jsConsumerConfig config;
    jsErrCode code = 0;
    HOLDS(!broker_open(&b, url, prefix, 5000, fault, sizeof fault));
    broker_name(&b, "says", stream);
    jsConsumerConfig_Init(&config);
    config.Durable = "reader";
    config.AckPolicy = js_AckExplicit;
    HOLDS(js_AddConsumer(NULL, b.stream, stream, &config, NULL, &code) == NATS_OK);
    HOLDS(!pull_open(&p, &b, stream, "reader"));
    while ((message = pull_next(&p, 500)) != NULL) {
        uint64_t number;
        HOLDS(natsMsg_GetDataLength(message) >= 8);
        memcpy(&number, natsMsg_GetData(message), 8);
        HOLDS(number < MOST);
        HOLDS(natsMsg_GetDataLength(message) == (int)(8 + number % 50));
        came[number]++;
        pull_acknowledge(b.connection, natsMsg_GetReply(message));
        natsMsg_Destroy(message);
    }
    pull_close(&p);
    broker_close(&b);
}

static carrier *opened(const char *prefix, const char *name, uint16_t nodes, unsigned lease, carrier_answer expected) {
    carrier_options options = {.url = url, .prefix = prefix, .name = name, .nodes = nodes, .lease = lease, .wait = 5000};
    carrier *made = NULL;
    char fault[200] = "";
    carrier_answer answer = carrier_open(&options, &made, fault, sizeof fault);
    if (answer != expected) fprintf(stderr, "carrier_open answers %d, not %d: %s\n", answer, expected, fault);
    HOLDS(answer == expected);
    HOLDS((made != NULL) == (answer == CARRIER_DONE));
    HOLDS((fault[0] != 0) == (answer != CARRIER_DONE));
    return made;
}

/* Carries so many messages while `trouble` happens; all have to be acknowledged and kept within a minute. */
static void carries(const char *what, const char *prefix, uint64_t count, void (*trouble)(void)) {
    static unsigned came[MOST];
    node *n = calloc(1, sizeof *n);
    carrier_counts counts;
    HOLDS(n != NULL);
    n->count = count;
    carrier *c = opened(prefix, "writer", 4, 0, CARRIER_DONE);
    carried of = carried_of(n);
    HOLDS(carrier_start(c, &of) == CARRIER_DONE);
    HOLDS(carrier_start(c, &of) == CARRIER_RUNS);
    if (trouble) trouble();
    HOLDS(carrier_stop(c, 60000));
    carrier_count(c, &counts);
    HOLDS(acknowledged(n) == count);
    HOLDS(counts.published >= count && counts.acknowledged >= count);
    HOLDS(counts.repeats == n->agains);
    if (!trouble) HOLDS(counts.published == count && counts.acknowledged == count && !counts.repeats && !counts.refused);
    memset(came, 0, sizeof came);
    read_stream(prefix, came);
    uint64_t twice = 0;
    for (uint64_t i = 0; i < count; i++) {
        HOLDS(came[i] >= 1);
        twice += came[i] - 1;
    }
    if (!trouble) HOLDS(!twice);
    printf("%s: %lu messages, %lu published, %lu came twice, %lu repeats, %lu returns\n", what, (unsigned long)count, (unsigned long)counts.published,
           (unsigned long)twice, (unsigned long)counts.repeats, (unsigned long)counts.returns);
    carrier_close(c);
    free(n);
}

static void pause_server(void) {
    sleep_ms(5);
    kill(server, SIGSTOP);
    sleep_ms(3000);
    kill(server, SIGCONT);
}

static void kill_server(void) {
    sleep_ms(20);
    process_end(server, SIGKILL);
    sleep_ms(1000);
    start_server();
}

static void end_and_start(void) {
    sleep_ms(20);
    process_end(server, SIGTERM);
    sleep_ms(3000);
    start_server();
}

/* Asks reach the node that they are for. */
static void asks(void) {
    node *n = calloc(1, sizeof *n);
    natsConnection *connection = NULL;
    char subject[64];
    HOLDS(n != NULL);
    carrier *c = opened("asked", "asked", 4, 0, CARRIER_DONE);
    carried of = carried_of(n);
    HOLDS(carrier_start(c, &of) == CARRIER_DONE);
    HOLDS(natsConnection_ConnectTo(&connection, url) == NATS_OK);
    snprintf(subject, sizeof subject, "asked.asks.%u", carrier_node(c));
    for (int i = 0; i < 100; i++) HOLDS(natsConnection_Publish(connection, subject, "ask", 3) == NATS_OK);
    snprintf(subject, sizeof subject, "asked.asks.%u", carrier_node(c) + 1u);
    HOLDS(natsConnection_Publish(connection, subject, "not for it", 10) == NATS_OK);
    HOLDS(natsConnection_Flush(connection) == NATS_OK);
    carrier_counts counts = {0};
    for (int i = 0; i < 100 && counts.asks < 100; i++) {
        sleep_ms(20);
        carrier_count(c, &counts);
    }
    HOLDS(carrier_stop(c, 1000));
    HOLDS(n->asks == 100 && counts.asks == 100);
    HOLDS(n->passes > 0);
    natsConnection_Destroy(connection);
    carrier_close(c);
    free(n);
    printf("asks: 100 came\n");
}

/* Names have one number each, and one life at a time. */
static void names(void) {
    static const char strange[] = "a/b c\xc3\xa9=*>";
    char longest[66];
    memset(longest, 'n', 65);
    longest[65] = 0;
    carrier *first = opened("named", strange, 2, 0, CARRIER_DONE);
    opened("named", strange, 2, 0, CARRIER_LIVE);
    carrier *second = opened("named", "second", 2, 0, CARRIER_DONE);
    HOLDS(carrier_node(first) == 0 && carrier_node(second) == 1);
    HOLDS(carrier_epoch(first) != carrier_epoch(second));
    opened("named", "third", 2, 0, CARRIER_MANY);
    opened("named", "third", 2, 0, CARRIER_MANY); /* the refused one left no lease */
    opened("named", "", 2, 0, CARRIER_NAME);
    opened("named", longest, 2, 0, CARRIER_NAME);
    uint64_t before = carrier_epoch(second);
    carrier_close(second);
    second = opened("named", "second", 2, 0, CARRIER_DONE);
    HOLDS(carrier_node(second) == 1 && carrier_epoch(second) > before);
    carrier_close(second);
    carrier_close(first);
    printf("names: one number and one life each\n");
}

/* The process that is killed: it is this program anew, since what forks has none of the threads that carry. It says its epoch. */
static int victim(void) {
    carrier *c = opened("killed", "victim", 4, 2000, CARRIER_DONE);
    printf("%llu\n", (unsigned long long)carrier_epoch(c));
    fflush(stdout);
    sleep_ms(60000);
    return 1;
}

/* A process that is killed leaves its name when its lease ends. */
static void killed(const char *program) {
    int pipes[2];
    char said[32] = "";
    uint64_t waited = 0;
    HOLDS(!pipe(pipes));
    pid_t child = fork();
    if (!child) {
        dup2(pipes[1], STDOUT_FILENO);
        close(pipes[0]);
        close(pipes[1]);
        execl(program, program, folder, port, "victim", (char *)NULL);
        _exit(127);
    }
    close(pipes[1]);
    HOLDS(read(pipes[0], said, sizeof said - 1) > 0);
    uint64_t before = strtoull(said, NULL, 10);
    process_end(child, SIGKILL);
    carrier_options options = {.url = url, .prefix = "killed", .name = "victim", .nodes = 4, .lease = 2000, .wait = 1000};
    carrier *c = NULL;
    char fault[200];
    HOLDS(carrier_open(&options, &c, fault, sizeof fault) == CARRIER_LIVE);
    while (carrier_open(&options, &c, fault, sizeof fault) == CARRIER_LIVE && waited < 10000) {
        sleep_ms(100);
        waited += 100;
    }
    HOLDS(c != NULL);
    HOLDS(carrier_node(c) == 0 && carrier_epoch(c) > before);
    carrier_close(c);
    close(pipes[0]);
    printf("killed: the name was free again after %lu ms\n", (unsigned long)waited);
}

/* A life whose lease ran out while another one took its name publishes nothing more. */
static void lost(void) {
    node *n = calloc(1, sizeof *n);
    carrier_counts counts = {0};
    HOLDS(n != NULL);
    n->count = 10;
    carrier *c = opened("lost", "late", 4, 1500, CARRIER_DONE); /* it is not started, so nothing renews its lease */
    carrier *later = NULL;
    carrier_options options = {.url = url, .prefix = "lost", .name = "late", .nodes = 4, .lease = 60000, .wait = 1000};
    char fault[200];
    for (int i = 0; i < 100 && carrier_open(&options, &later, fault, sizeof fault) == CARRIER_LIVE; i++) sleep_ms(100);
    HOLDS(later != NULL && carrier_node(later) == carrier_node(c));
    carried of = carried_of(n);
    HOLDS(carrier_start(c, &of) == CARRIER_DONE);
    for (int i = 0; i < 100 && !counts.is_lost; i++) {
        sleep_ms(50);
        carrier_count(c, &counts);
    }
    HOLDS(counts.is_lost);
    uint64_t published = counts.published;
    n->count = 20;
    sleep_ms(300);
    carrier_count(c, &counts);
    HOLDS(counts.published == published && published <= 10);
    carrier_stop(c, 10);
    carrier_close(c); /* leaves the later life's lease */
    opened("lost", "late", 4, 60000, CARRIER_LIVE);
    carrier_close(later);
    free(n);
    printf("lost: nothing is published by a life that another one followed\n");
}

/* A broker without JetStream, or none, is said. */
static void nobody(void) {
    char right[64];
    snprintf(right, sizeof right, "%s", url);
    snprintf(url, sizeof url, "nats://127.0.0.1:1");
    carrier_options options = {.url = url, .name = "n", .nodes = 4};
    carrier *c = NULL;
    char fault[200] = "";
    HOLDS(carrier_open(&options, &c, fault, sizeof fault) == CARRIER_BROKER && !c && fault[0]);
    options.prefix = "no.word";
    HOLDS(carrier_open(&options, &c, fault, sizeof fault) == CARRIER_BROKER && !c && strstr(fault, "prefix"));
    snprintf(url, sizeof url, "%s", right);
    printf("nobody: said\n");
}

int main(int argc, char **argv) {
    if (argc != 3 && argc != 4) return 2;
    setvbuf(stdout, NULL, _IOLBF, 0); /* what forks has nothing left to print */
    snprintf(folder, sizeof folder, "%s", argv[1]);
    snprintf(port, sizeof port, "%s", argv[2]);
    snprintf(url, sizeof url, "nats://127.0.0.1:%s", port);
    if (argc == 4) return victim();
    nobody();
    start_server();
    names();
    asks();
    killed(argv[0]);
    lost();
    carries("plain", "plain", 5000, NULL);
    carries("paused", "paused", MOST, pause_server);
    carries("ended", "ended", MOST, end_and_start);
    carries("killed", "broken", MOST, kill_server);
    process_end(server, SIGTERM);
    nats_Close();
    return failed != 0;
}
