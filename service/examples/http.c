/* A small HTTP server that traces its requests, with the hub in the same process. The trace of a request that failed, or took 50 ms and more, is
 * printed as a line of OTLP's JSON.
 *
 *     http PORT      then: curl localhost:PORT/      curl localhost:PORT/slow      curl localhost:PORT/fail */
#include <hindsight.h>
#include <arpa/inet.h>
#include <pthread.h>
#include <signal.h>
#include <stdio.h>
#include <stdlib.h>
#include <string.h>
#include <strings.h>
#include <time.h>
#include <unistd.h>

static const char settings[] = "nodes 1\nclients 64\nbuffers 4096\ntriggerid 1\ntriggerid 2\n";
enum { FAILED = 1, SLOW = 2 }; /* trigger ids */

static hind_node *node;
static hind_hub *hub;

/* ---- the thread that makes passes, carries messages, and prints what is claimed */

static void print_line(void *closure, const char *line, size_t len) {
    (void)closure;
    fwrite(line, 1, len, stdout);
    fflush(stdout);
}

static void print_traces(void) {
    hind_trace *trace;
    while (hind_hub_take(hub, &trace) == HIND_OK) {
        hind_trace_info info = {.size = sizeof info};
        hind_trace_otlp(trace, print_line, NULL);
        hind_trace_get_info(trace, &info);
        hind_hub_saved(hub, &info.id);
        hind_trace_free(trace);
    }
}

static void *carries(void *arg) {
    const struct timespec millisecond = {0, 1000000};
    hind_message m;
    (void)arg;
    for (unsigned passes = 0;; passes++) {
        hind_node_pass(node);
        while (hind_node_next(node, &m) == HIND_OK && hind_hub_deliver(hub, m.bytes, m.len) >= 0) {
            hind_node_sent(node, m.number);
            hind_node_acknowledged(node, m.number);
        }
        while (hind_hub_next(hub, &m) == HIND_OK) hind_node_deliver(node, m.bytes, m.len);
        if (passes % 100 == 0) hind_hub_pass(hub);
        print_traces();
        nanosleep(&millisecond, NULL);
    }
    return NULL;
}

/* ---- a request */

/* The value of a header, in place; NULL where it is not there. */
static char *header(char *request, const char *name) {
    size_t len = strlen(name);
    for (char *line = strstr(request, "\r\n"); line; line = strstr(line, "\r\n")) {
        line += 2;
        if (!strncasecmp(line, name, len) && line[len] == ':') return line + len + 1 + strspn(line + len + 1, " ");
    }
    return NULL;
}

/* The same as a text of its own, empty where it is not there. */
static void copy_header(char *request, const char *name, char *text, size_t room) {
    const char *found = header(request, name);
    snprintf(text, room, "%.*s", found ? (int)strcspn(found, "\r") : 0, found ? found : "");
}

/* What the request says of its trace, or a trace of its own. */
static hind_context context_of(char *request) {
    hind_context context;
    char parent[HIND_TRACEPARENT_SIZE], state[HIND_TRACESTATE_SIZE];
    copy_header(request, "traceparent", parent, sizeof parent);
    copy_header(request, "tracestate", state, sizeof state);
    if (hind_context_read(parent, state, &context) != HIND_OK) hind_new_context(&context);
    return context;
}

static int work(hind_client *client, hind_span_id span, const char *path) {
    const struct timespec tenth = {0, 100000000};
    hind_span_text(client, span, "url.path", path);
    if (!strcmp(path, "/slow")) nanosleep(&tenth, NULL);
    if (strcmp(path, "/fail")) return 200;
    hind_span_event(client, span, "the database does not answer");
    return 500;
}

static int answer(hind_client *client, const hind_context *context, const char *path) {
    struct timespec began, ended;
    hind_span_id span;
    hind_new_span(&span);
    clock_gettime(CLOCK_MONOTONIC, &began);
    hind_begin_from(client, context);
    hind_span_start(client, span, context->span, HIND_KIND_SERVER, "request");
    int status = work(client, span, path);
    clock_gettime(CLOCK_MONOTONIC, &ended);
    hind_span_int(client, span, "http.response.status_code", status);
    hind_span_end(client, span, status < 500 ? HIND_STATUS_OK : HIND_STATUS_ERROR, NULL);
    if (status >= 500) hind_trigger(client, FAILED, NULL, NULL, 0);
    else if ((ended.tv_sec - began.tv_sec) * 1000 + (ended.tv_nsec - began.tv_nsec) / 1000000 >= 50) hind_trigger(client, SLOW, NULL, NULL, 0);
    hind_end(client);
    return status;
}

static void *serves(void *arg) {
    int connection = (int)(size_t)arg;
    char request[4096] = "", path[256] = "/", reply[128];
    hind_client *client;
    ssize_t len = read(connection, request, sizeof request - 1);
    if (len > 0 && sscanf(request, "GET %255s", path) == 1 && hind_client_get(node, &client) == HIND_OK) {
        hind_context context = context_of(request);
        int status = answer(client, &context, path);
        int size = snprintf(reply, sizeof reply, "HTTP/1.1 %d -\r\nContent-Length: 0\r\nConnection: close\r\n\r\n", status);
        if (write(connection, reply, (size_t)size) != size) perror("write");
    }
    close(connection);
    return NULL;
}

int main(int argc, char **argv) {
    hind_node_options for_node = HIND_NODE_OPTIONS_INIT;
    hind_hub_options for_hub = HIND_HUB_OPTIONS_INIT;
    struct sockaddr_in at = {.sin_family = AF_INET, .sin_port = htons((uint16_t)(argc > 1 ? atoi(argv[1]) : 8080)), .sin_addr = {htonl(INADDR_LOOPBACK)}};
    int server = socket(AF_INET, SOCK_STREAM, 0), yes = 1;
    pthread_t thread;
    for_node.settings = for_hub.settings = settings;
    for_node.settings_len = for_hub.settings_len = strlen(settings);
    for_node.name = "http";
    for_hub.is_fresh = 1;
    if (hind_node_open(&for_node, &node) || hind_hub_open(&for_hub, &hub)) return 1;
    signal(SIGPIPE, SIG_IGN);
    setsockopt(server, SOL_SOCKET, SO_REUSEADDR, &yes, sizeof yes);
    if (bind(server, (struct sockaddr *)&at, sizeof at) || listen(server, 64) || pthread_create(&thread, NULL, carries, NULL)) return 1;
    for (;;) {
        int connection = accept(server, NULL, NULL);
        if (connection < 0 || pthread_create(&thread, NULL, serves, (void *)(size_t)connection)) continue;
        pthread_detach(thread);
    }
}
