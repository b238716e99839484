/* The first tier of the shop: it answers carts, and has 200 ms for each. What takes longer fails.
 *
 *     front PORT MIDDLE      MIDDLE is the URL of the second tier
 *
 * SHOP_SETTINGS names the file of settings, SHOP_BROKER the server of NATS, SHOP_FAILED a file that gets a line for each cart that failed: its trace, and
 * whether it was late or got no answer. SHOP_DEADLINE is another number of milliseconds. With SHOP_TRACING_OFF nothing is traced. */
#define _POSIX_C_SOURCE 200809L
#include <arpa/inet.h>
#include <curl/curl.h>
#include <hindsight_nats.h>
#include <microhttpd.h>
#include <pthread.h>
#include <signal.h>
#include <stdatomic.h>
#include <stdio.h>
#include <stdlib.h>
#include <string.h>
#include <strings.h>
#include <time.h>

enum { FAILED = 1 /* a trigger id */, SLOWEST = 0 /* an autotrigger */ };

static const char *middle;
static double deadline = 200; /* milliseconds */
static FILE *failures;
static _Atomic(hind_nats *) nats;
static atomic_uint peer = HIND_NO_NODE; /* the node of the second tier, as its last answer named it */
static atomic_uint carts;

/* ---- tracing, which is started as often as it takes: meanwhile the shop is open */

static char *read_settings(void) {
    static char text[65536];
    FILE *file = fopen(getenv("SHOP_SETTINGS") ? getenv("SHOP_SETTINGS") : "settings", "r");
    size_t len = file ? fread(text, 1, sizeof text - 1, file) : 0;
    if (file) fclose(file);
    text[len] = 0;
    return text;
}

static void *traces(void *arg) {
    const struct timespec second = {1, 0};
    hind_nats_options options = HIND_NATS_OPTIONS_INIT;
    hind_nats *made = NULL;
    hind_code code;
    options.url = getenv("SHOP_BROKER");
    options.name = "front";
    options.settings = read_settings();
    options.settings_len = strlen(options.settings);
    options.wait_ms = 5000;
    options.pass_ms = 10;
    while ((code = hind_nats_start(&options, &made)) == HIND_TAKEN || code == HIND_AWAY) {
        fprintf(stderr, "front: no tracing yet: %s\n", hind_nats_error());
        nanosleep(&second, NULL);
    }
    if (code) fprintf(stderr, "front: no tracing: %s\n", hind_nats_error());
    atomic_store(&nats, made);
    return arg;
}

/* ---- one cart */

typedef struct {
    hind_client *client; /* NULL, to which each call answers INVALID, while nothing is traced */
    hind_context next;   /* what the second tier is told */
    struct timespec began;
} cart;

static double milliseconds_since(const struct timespec *began) {
    struct timespec now;
    clock_gettime(CLOCK_MONOTONIC, &now);
    return (double)(now.tv_sec - began->tv_sec) * 1e3 + (double)(now.tv_nsec - began->tv_nsec) / 1e6;
}

static void begin(cart *c, struct MHD_Connection *connection) {
    hind_nats *of = atomic_load(&nats);
    hind_context came;
    clock_gettime(CLOCK_MONOTONIC, &c->began);
    c->client = NULL;
    if (!of || hind_client_get(hind_nats_node(of), &c->client)) return;
    const char *parent = MHD_lookup_connection_value(connection, MHD_HEADER_KIND, "traceparent");
    const char *state = MHD_lookup_connection_value(connection, MHD_HEADER_KIND, "tracestate");
    if (!parent || hind_context_read(parent, state, &came)) {
        memset(&came, 0, sizeof came);
        hind_new_trace(&came.trace);
        came.node = HIND_NO_NODE;
    }
    c->next = came;
    c->next.node = hind_nats_number(of);
    hind_new_span(&c->next.span);
    hind_begin_from(c->client, &came);
    hind_span_start(c->client, c->next.span, came.span, HIND_KIND_SERVER, "GET /cart");
}

static void note_failure(const cart *c, long answered) {
    char line[34] = "";
    if (!failures) return;
    for (int i = 0; c->client && i < 16; i++) snprintf(line + 2 * i, 3, "%02x", c->next.trace.bytes[i]);
    fprintf(failures, "%s %s\n", line, answered == 200 ? "late" : "unanswered");
    fflush(failures);
}

static int end(cart *c, long answered) {
    double took = milliseconds_since(&c->began);
    int is_late = took > deadline, status = answered == 200 && !is_late ? 200 : 500;
    hind_span_int(c->client, c->next.span, "http.response.status_code", status);
    if (is_late) hind_span_event(c->client, c->next.span, "the cart came too late");
    hind_span_end(c->client, c->next.span, status == 200 ? HIND_STATUS_OK : HIND_STATUS_ERROR, NULL);
    hind_sample(c->client, SLOWEST, (uint64_t)(took * 1000));
    if (status != 200) {
        hind_trigger(c->client, FAILED, NULL, NULL, 0);
        note_failure(c, answered);
    }
    hind_end(c->client);
    return status;
}

/* ---- the second tier */

static size_t drop(char *bytes, size_t size, size_t count, void *closure) {
    (void)bytes;
    (void)closure;
    return size * count;
}

static size_t read_header(char *line, size_t size, size_t count, void *closure) {
    static const char name[] = "Hindsight-Node:";
    unsigned *node = closure;
    char number[8] = "";
    size_t front = sizeof name - 1;
    if (size * count > front && size * count - front < sizeof number && !strncasecmp(line, name, front)) {
        memcpy(number, line + front, size * count - front);
        *node = (unsigned)strtoul(number, NULL, 10);
    }
    return size * count;
}

static pthread_key_t connections;

/* A connection for each thread, which goes with it. */
static CURL *connection_of_thread(void) {
    CURL *curl = pthread_getspecific(connections);
    if (!curl) {
        curl = curl_easy_init();
        pthread_setspecific(connections, curl);
        curl_easy_setopt(curl, CURLOPT_NOSIGNAL, 1L);
        curl_easy_setopt(curl, CURLOPT_TIMEOUT_MS, 5000L);
        curl_easy_setopt(curl, CURLOPT_WRITEFUNCTION, drop);
        curl_easy_setopt(curl, CURLOPT_HEADERFUNCTION, read_header);
    }
    return curl;
}

static struct curl_slist *headers_of(const cart *c) {
    char parent[HIND_TRACEPARENT_SIZE], state[HIND_TRACESTATE_SIZE], line[HIND_TRACESTATE_SIZE + 16];
    if (!c->client || hind_context_write(&c->next, NULL, parent, state)) return NULL;
    snprintf(line, sizeof line, "traceparent: %s", parent);
    struct curl_slist *headers = curl_slist_append(NULL, line);
    snprintf(line, sizeof line, "tracestate: %s", state);
    return curl_slist_append(headers, line);
}

/* A crumb to the second tier is left before, by the number that it had at its last answer, so that it is there where no answer comes. */
static long ask(cart *c, unsigned item) {
    char url[300];
    unsigned known = atomic_load(&peer), node = known;
    long status = 0;
    CURL *curl = connection_of_thread();
    struct curl_slist *headers = headers_of(c);
    snprintf(url, sizeof url, "%s/reserve?item=%u", middle, item);
    curl_easy_setopt(curl, CURLOPT_URL, url);
    curl_easy_setopt(curl, CURLOPT_HTTPHEADER, headers);
    curl_easy_setopt(curl, CURLOPT_HEADERDATA, &node);
    if (known != HIND_NO_NODE) hind_crumb(c->client, (hind_node_id)known);
    if (curl_easy_perform(curl) == CURLE_OK) curl_easy_getinfo(curl, CURLINFO_RESPONSE_CODE, &status);
    if (node != known) {
        atomic_store(&peer, node);
        hind_crumb(c->client, (hind_node_id)node);
    }
    curl_slist_free_all(headers);
    return status;
}

/* ---- serving */

static enum MHD_Result reply(struct MHD_Connection *connection, int status, char *text, enum MHD_ResponseMemoryMode mode) {
    struct MHD_Response *response = MHD_create_response_from_buffer(strlen(text), text, mode);
    MHD_add_response_header(response, MHD_HTTP_HEADER_CONTENT_TYPE, "text/plain");
    enum MHD_Result result = MHD_queue_response(connection, (unsigned)status, response);
    MHD_destroy_response(response);
    return result;
}

static enum MHD_Result serves(void *closure, struct MHD_Connection *connection, const char *path, const char *method, const char *version, const char *data,
                              size_t *data_len, void **state) {
    (void)closure, (void)method, (void)version, (void)data, (void)data_len, (void)state;
    if (!strcmp(path, "/metrics")) {
        static __thread char text[8192];
        size_t len;
        hind_nats *of = atomic_load(&nats);
        if (!of || hind_nats_metrics(of, text, sizeof text, &len)) *text = 0;
        return reply(connection, 200, text, MHD_RESPMEM_MUST_COPY);
    }
    cart c;
    begin(&c, connection);
    int status = end(&c, ask(&c, atomic_fetch_add(&carts, 1)));
    return reply(connection, status, status == 200 ? "your cart\n" : "no cart\n", MHD_RESPMEM_PERSISTENT);
}

int main(int argc, char **argv) {
    pthread_t thread;
    sigset_t ends;
    int number;
    struct sockaddr_in at = {.sin_family = AF_INET, .sin_addr = {htonl(INADDR_LOOPBACK)}};
    if (argc != 3) return 2;
    at.sin_port = htons((uint16_t)atoi(argv[1]));
    middle = argv[2];
    if (getenv("SHOP_DEADLINE")) deadline = atof(getenv("SHOP_DEADLINE"));
    if (getenv("SHOP_FAILED")) failures = fopen(getenv("SHOP_FAILED"), "a");
    signal(SIGPIPE, SIG_IGN);
    sigemptyset(&ends);
    sigaddset(&ends, SIGTERM);
    pthread_sigmask(SIG_BLOCK, &ends, NULL);
    curl_global_init(CURL_GLOBAL_DEFAULT);
    pthread_key_create(&connections, curl_easy_cleanup);
    if (!getenv("SHOP_TRACING_OFF") && pthread_create(&thread, NULL, traces, NULL)) return 1;
    struct MHD_Daemon *daemon = MHD_start_daemon(MHD_USE_THREAD_PER_CONNECTION | MHD_USE_INTERNAL_POLLING_THREAD | MHD_USE_POLL, 0, NULL, NULL, serves, NULL, MHD_OPTION_SOCK_ADDR,
                                                 (struct sockaddr *)&at, MHD_OPTION_CONNECTION_LIMIT, 48u, MHD_OPTION_END);
    if (!daemon) return 1;
    sigwait(&ends, &number);
    MHD_stop_daemon(daemon);
    return hind_nats_stop(atomic_load(&nats), 5000) != HIND_OK;
}
