/* A service that is killed in the middle of a claimed request. Its buffers lie in a file, so its next life hands out what it wrote. This process is the
 * hub; the service's two lives are children, whose messages come by a pipe. */
#include <hindsight.h>
#include <signal.h>
#include <stdio.h>
#include <stdlib.h>
#include <string.h>
#include <sys/wait.h>
#include <unistd.h>

static const char settings[] = "nodes 1\nbuffers 1024\ntriggerid 1\n", *pool_file;

static void say(const char *what) {
    fprintf(stderr, "crash: %s\n", what);
    exit(1);
}

/* ---- the service */

static hind_node *open_node(uint64_t epoch) {
    hind_node_options o = HIND_NODE_OPTIONS_INIT;
    hind_node *node;
    o.settings = settings;
    o.settings_len = strlen(settings);
    o.name = "checkout";
    o.epoch = epoch;
    o.pool_file = pool_file;
    hind_code code = hind_node_open(&o, &node);
    if (code) say(hind_strerror(code));
    return node;
}

static void hand_over(hind_node *node, int pipe) {
    hind_message m;
    for (int pass = 0; pass < 10; pass++) {
        hind_node_pass(node);
        while (hind_node_next(node, &m) == HIND_OK) {
            if (write(pipe, &m.len, sizeof m.len) != sizeof m.len || write(pipe, m.bytes, m.len) != (ssize_t)m.len) say("the pipe is closed");
            hind_node_sent(node, m.number);
            hind_node_acknowledged(node, m.number);
        }
    }
}

static void die_in_a_request(int pipe) {
    const hind_trace_id trace = {{[15] = 0xa2}};
    hind_node *node = open_node(1);
    hind_client *c;
    if (hind_client_get(node, &c)) say("no client");
    hind_begin(c, &trace);
    hind_point_at(c, 1000, "a request came", 14);
    hind_trigger(c, 1, NULL, NULL, 0); /* it takes too long: the trace is claimed */
    hand_over(node, pipe);
    hind_point_at(c, 2000, "the cart is read", 16);
    hind_point_at(c, 3000, "the total is wrong", 18);
    raise(SIGKILL);
}

static void live_again(int pipe) {
    hind_node *node = open_node(2);
    hand_over(node, pipe);
    hind_node_close(node);
}

/* ---- the hub */

static int read_all(int from, void *to, size_t len) {
    for (size_t got = 0; got < len;) {
        ssize_t n = read(from, (char *)to + got, len - got);
        if (n <= 0) return 0;
        got += (size_t)n;
    }
    return 1;
}

/* A life of the service, whose messages the hub takes. */
static void live(hind_hub *hub, void (*lives)(int pipe)) {
    static unsigned char bytes[32831];
    size_t len;
    int ends[2];
    if (pipe(ends)) say("no pipe");
    pid_t child = fork();
    if (!child) {
        lives(ends[1]);
        _exit(0);
    }
    close(ends[1]);
    while (read_all(ends[0], &len, sizeof len) && len <= sizeof bytes && read_all(ends[0], bytes, len))
        if (hind_hub_deliver(hub, bytes, len) < 0) say("the hub takes no more");
    close(ends[0]);
    waitpid(child, NULL, 0);
}

static void print(const hind_trace *trace) {
    hind_trace_info info = {.size = sizeof info};
    hind_trace_life life;
    hind_record r;
    hind_trace_get_info(trace, &info);
    printf("trace ..%02x%02x, trigger %u, %s\n", info.id.bytes[14], info.id.bytes[15], info.trigger, info.is_whole ? "whole" : "not whole");
    for (size_t at = 0; hind_trace_get_life(trace, at, &life) == HIND_OK; at++) printf("  %s, life %llu: %s\n", life.name, (unsigned long long)life.epoch, life.wholeness);
    for (size_t at = 0; hind_trace_get_record(trace, at, &r) == HIND_OK; at++) printf("  at %llu ns: %.*s\n", (unsigned long long)r.moment, (int)r.len, (const char *)r.payload);
}

int main(int argc, char **argv) {
    hind_hub_options o = HIND_HUB_OPTIONS_INIT;
    hind_hub *hub;
    hind_trace *trace;
    if (argc != 2) say("crash FILE: where the service has its pool, as /dev/shm/checkout.pool");
    pool_file = argv[1];
    o.settings = settings;
    o.settings_len = strlen(settings);
    o.is_fresh = 1;
    if (hind_hub_open(&o, &hub)) return 1;
    live(hub, die_in_a_request);
    live(hub, live_again);
    for (int pass = 0; pass < 300; pass++) hind_hub_pass(hub); /* nobody knows what else the first life had: half a minute goes by */
    if (hind_hub_take(hub, &trace) != HIND_OK) say("no trace");
    print(trace);
    hind_trace_free(trace);
    hind_hub_close(hub);
    return 0;
}
