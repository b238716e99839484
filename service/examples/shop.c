/* A service whose node a NATS server carries. It answers a hundred requests, of which every tenth fails, and ends.
 *
 *     shop NAME [URL] */
#define _POSIX_C_SOURCE 200809L
#include <hindsight_nats.h>
#include <stdio.h>
#include <string.h>
#include <time.h>

static const char settings[] = "nodes 4\ntriggerid 1\n"; /* the hub reads the same lines from a file */

/* What an answer takes. */
static void work(void) {
    const struct timespec millisecond = {0, 1000000};
    nanosleep(&millisecond, NULL);
}

static void request(hind_client *client, int number) {
    hind_trace_id trace;
    hind_span_id span, none = {{0}};
    int fails = number % 10 == 9;
    hind_new_trace(&trace);
    hind_new_span(&span);
    hind_begin(client, &trace);
    hind_span_start(client, span, none, HIND_KIND_SERVER, "GET /cart");
    hind_span_int(client, span, "number", number);
    work();
    if (fails) hind_span_event(client, span, "the database does not answer");
    hind_span_end(client, span, fails ? HIND_STATUS_ERROR : HIND_STATUS_OK, NULL);
    if (fails) hind_trigger(client, 1, NULL, NULL, 0);
    hind_end(client);
}

int main(int argc, char **argv) {
    hind_nats_options options = HIND_NATS_OPTIONS_INIT;
    hind_nats *nats;
    hind_client *client;
    options.name = argc > 1 ? argv[1] : "shop";
    options.url = argc > 2 ? argv[2] : NULL;
    options.settings = settings;
    options.settings_len = strlen(settings);
    options.wait_ms = 5000;
    if (hind_nats_start(&options, &nats) || hind_client_get(hind_nats_node(nats), &client)) {
        fprintf(stderr, "shop: %s\n", hind_nats_error());
        return 1;
    }
    for (int number = 0; number < 100; number++) request(client, number);
    hind_client_close(client); /* what waits in it is handed over */
    return hind_nats_stop(nats, 5000) != HIND_OK;
}
