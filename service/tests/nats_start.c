/* Services whose nodes a NATS server carries: started, refused, stopped, and killed. What they claim is saved by the program hindsight-hub.
 *
 *     nats_start FOLDER PORT HUB      FOLDER is empty; HUB is the program
 *     nats_start FOLDER PORT          a service with a pool file that dies in the middle of a claimed request */
#include "expect.h"
#include "hindsight_nats.h"
#include "processes.h"
#include <nats/nats.h>
#include <sqlite3.h>
#include <stdlib.h>
#include <string.h>
#include <sys/stat.h>
#include <sys/wait.h>

static const char settings[] = "nodes 2\ntriggerid 1\nbuffers 1024\n";
static const char *folder, *port, *hub_program;
static char url[64];
static pid_t server, hub;

static void run_server(void) {
    char store[300];
    snprintf(store, sizeof store, "%s/js", folder);
    char *words[] = {"nats-server", "-a", "127.0.0.1", "-p", (char *)(size_t)port, "-js", "-sd", store, NULL};
    server = process_start(words);
}

static void run_hub(void) {
    char path[300], store[300];
    snprintf(path, sizeof path, "%s/settings", folder);
    snprintf(store, sizeof store, "%s/store", folder);
    char *words[] = {(char *)(size_t)hub_program, path, store, "--url", url, NULL};
    hub = process_start(words);
}

static hind_nats_options named(const char *name) {
    hind_nats_options o = HIND_NATS_OPTIONS_INIT;
    o.url = url;
    o.name = name;
    o.settings = settings;
    o.settings_len = sizeof settings - 1;
    o.wait_ms = 5000;
    return o;
}

static hind_nats *started(const char *name) {
    hind_nats_options o = named(name);
    hind_nats *nats = NULL;
    hind_code code = hind_nats_start(&o, &nats);
    if (code) fprintf(stderr, "%s: %s\n", name, hind_nats_error());
    EXPECT(code, HIND_OK);
    if (code) exit(1);
    return nats;
}

static void is_refused(const hind_nats_options *o, hind_code code, const char *says) {
    hind_nats *nats = (hind_nats *)&url;
    EXPECT(hind_nats_start(o, &nats), code);
    HOLDS(!nats && strstr(hind_nats_error(), says));
}

/* Before the server runs. */
static void nobody(void) {
    hind_nats_options o = named("n");
    hind_nats_counts counts = {.size = sizeof counts};
    char longest[66];
    memset(longest, 'n', 65);
    longest[65] = 0;
    EXPECT(strcmp(hind_nats_error(), ""), 0);
    is_refused(NULL, HIND_INVALID, "argument");
    EXPECT(hind_nats_start(&o, NULL), HIND_INVALID);
    o.wait_ms = 0;
    is_refused(&o, HIND_AWAY, url);
    o.prefix = "no.word";
    is_refused(&o, HIND_AWAY, "prefix");
    o = named(NULL);
    is_refused(&o, HIND_INVALID, "argument");
    o = named("");
    is_refused(&o, HIND_INVALID, "argument");
    o = named(longest);
    is_refused(&o, HIND_TOOLONG, "longer");
    o = named("n");
    o.pass_ms = 1001;
    is_refused(&o, HIND_INVALID, "argument");
    o = named("n");
    o.abi = 7;
    is_refused(&o, HIND_ABI_WRONG, "ABI");
    EXPECT(hind_nats_stop(NULL, 0), HIND_OK);
    HOLDS(!hind_nats_node(NULL));
    EXPECT(hind_nats_get_counts(NULL, &counts), HIND_INVALID);
    EXPECT(hind_nats_number(NULL), HIND_NO_NODE);
    EXPECT(hind_nats_metrics(NULL, longest, 65, &(size_t){0}), HIND_INVALID);
}

/* While two others have their names. */
static void refused(void) {
    hind_nats_options o = named("front");
    is_refused(&o, HIND_TAKEN, "has this name");
    o = named("third");
    is_refused(&o, HIND_MANY, "another name");
}

/* Settings that are refused leave the name free. */
static void refused_settings(void) {
    hind_nats_options o = named("front");
    uint32_t line;
    o.settings = "nodes 2\nnodes 2\n";
    o.settings_len = strlen(o.settings);
    is_refused(&o, HIND_SETTINGS, "settings, line 2: ");
    HOLDS(strstr(hind_settings_error(&line), "twice") && line == 2);
    o.settings = "nodes 0\n";
    o.settings_len = strlen(o.settings);
    is_refused(&o, HIND_SETTINGS, "settings");
}

/* ---- requests over two services */

static void request(hind_nats *front, hind_nats *back, uint8_t number) {
    const hind_trace_id id = {{0x55, [15] = number}};
    hind_context context = {id, {{1}}, 0, 0};
    hind_client *f, *b;
    EXPECT(hind_client_get(hind_nats_node(front), &f), HIND_OK);
    EXPECT(hind_client_get(hind_nats_node(back), &b), HIND_OK);
    EXPECT(hind_begin(f, &id), HIND_OK);
    EXPECT(hind_point_at(f, number, "asks", 4), HIND_OK);
    EXPECT(hind_begin_from(b, &context), HIND_OK);
    EXPECT(hind_point_at(b, number, "answers", 7), HIND_OK);
    EXPECT(hind_end(b), HIND_OK);
    EXPECT(hind_crumb(f, 1), HIND_OK);
    EXPECT(hind_end(f), HIND_OK);
    if (number % 10 == 0) EXPECT(hind_trigger(f, 1, &id, NULL, 0), HIND_OK);
    sleep_ms(5);
}

static long one_number(const char *query) {
    char path[300];
    sqlite3 *db = NULL;
    sqlite3_stmt *statement = NULL;
    long n = -1;
    snprintf(path, sizeof path, "%s/store/traces.db", folder);
    if (sqlite3_open_v2(path, &db, SQLITE_OPEN_READWRITE, NULL) == SQLITE_OK) {
        sqlite3_busy_timeout(db, 2000);
        if (sqlite3_prepare_v2(db, query, -1, &statement, NULL) == SQLITE_OK && sqlite3_step(statement) == SQLITE_ROW)
            n = (long)sqlite3_column_int64(statement, 0);
    }
    sqlite3_finalize(statement);
    sqlite3_close(db);
    return n;
}

static void in_child(hind_nats *nats) {
    hind_client *c;
    EXPECT(hind_client_get(hind_nats_node(nats), &c), HIND_FORKED);
    EXPECT(hind_nats_stop(nats, 0), HIND_FORKED);
    EXPECT(hind_nats_metrics(nats, NULL, 0, &(size_t){0}), HIND_FORKED);
}

static void forks(hind_nats *nats) {
    int status = 0;
    pid_t child = fork();
    if (!child) {
        alarm(60); /* what hangs ends */
        in_child(nats);
        _exit(failed != 0);
    }
    HOLDS(waitpid(child, &status, 0) == child);
    EXPECT(status, 0);
}

/* The numbers of a node that wrote a hundred records, of which its hub has ten. */
static void numbers(hind_nats *front) {
    char text[8192];
    size_t all = 0, len = 0;
    EXPECT(hind_nats_metrics(front, text, sizeof text, NULL), HIND_INVALID);
    EXPECT(hind_nats_metrics(front, NULL, 0, &all), HIND_TOOLONG);
    EXPECT(hind_nats_metrics(front, text, 100, &len), HIND_TOOLONG);
    HOLDS(len == all && strlen(text) == 99);
    EXPECT(hind_nats_metrics(front, text, sizeof text, &len), HIND_OK);
    HOLDS(len == strlen(text));
    HOLDS(strstr(text, "\nhindsight_node_records_total{node=\"front\"} 100\n"));
    HOLDS(strstr(text, "\nhindsight_node_reports_total{node=\"front\"} 10\n"));
    HOLDS(strstr(text, "\nhindsight_node_limited_triggers_total{node=\"front\"} 0\n"));
    HOLDS(strstr(text, "\nhindsight_node_broker_up{node=\"front\"} 1\n"));
}

/* A hub that starts anew learns at once how nodes are called, which have said so before. */
static void hub_anew(hind_nats *front, hind_nats *back) {
    EXPECT(process_end(hub, SIGTERM), 1);
    run_hub();
    sleep_ms(1500); /* a trigger id admits one more each second */
    request(front, back, 110);
    for (int i = 0; i < 300 && one_number("SELECT count(*) FROM records") < 22; i++) sleep_ms(100);
    EXPECT(one_number("SELECT count(*) FROM records"), 22);
    EXPECT(one_number("SELECT count(*) FROM lives WHERE hex(trace) LIKE '%6E'"), 2);
    EXPECT(one_number("SELECT count(*) FROM lives WHERE service NOT IN ('front', 'back')"), 0);
}

static void services(void) {
    hind_nats *front = started("front"), *back = started("back");
    hind_nats_counts counts = {.size = sizeof counts};
    refused();
    forks(front);
    for (int number = 1; number <= 100; number++) request(front, back, (uint8_t)number);
    /* a trigger id admits ten in a burst */
    for (int i = 0; i < 300 && one_number("SELECT count(*) FROM records") < 20; i++) sleep_ms(100);
    EXPECT(one_number("SELECT count(*) FROM records"), 20);
    EXPECT(one_number("SELECT count(*) FROM traces WHERE whole = 1"), 10);
    EXPECT(hind_nats_get_counts(front, &counts), HIND_OK);
    HOLDS(counts.is_there && !counts.is_lost && !counts.is_spent && counts.published >= 31 && counts.asks == 0);
    EXPECT(hind_nats_number(front), 0);
    EXPECT(hind_nats_number(back), 1);
    numbers(front);
    EXPECT(hind_nats_get_counts(back, &counts), HIND_OK);
    HOLDS(counts.asks >= 10);
    hub_anew(front, back);
    EXPECT(hind_nats_stop(back, 10000), HIND_OK);
    EXPECT(hind_nats_stop(front, 10000), HIND_OK);
    refused_settings();
    /* a name is free again at once */
    front = started("front");
    EXPECT(hind_nats_stop(front, 10000), HIND_OK);
}

/* ---- a service that is killed */

static hind_nats *started_with_pool(void) {
    hind_nats_options o = named("front");
    hind_nats *nats = NULL;
    char pool[300];
    snprintf(pool, sizeof pool, "%s/pool", folder);
    o.pool_file = pool;
    hind_code code = HIND_TAKEN;
    /* a name is free again after 15 seconds, and a machine that does other work may let the server wait */
    for (int i = 0; i < 300 && (code == HIND_TAKEN || code == HIND_AWAY); i++) {
        code = hind_nats_start(&o, &nats);
        if (code) sleep_ms(100);
    }
    EXPECT(code, HIND_OK);
    return nats;
}

static const hind_trace_id unfinished = {{0x66}};

static void die_in_a_request(void) {
    hind_nats *front = started_with_pool();
    hind_nats_counts counts = {.size = sizeof counts};
    hind_client *c;
    if (!front || hind_client_get(hind_nats_node(front), &c)) return;
    EXPECT(hind_begin(c, &unfinished), HIND_OK);
    EXPECT(hind_point_at(c, 1, "came", 4), HIND_OK);
    EXPECT(hind_trigger(c, 1, NULL, NULL, 0), HIND_OK);
    /* who it is, what it claims, and how the claim stands */
    for (int i = 0; i < 100 && counts.acknowledged < 3; i++) {
        sleep_ms(50);
        (void)hind_nats_get_counts(front, &counts);
    }
    EXPECT(hind_point_at(c, 2, "goes on", 7), HIND_OK);
    raise(SIGKILL);
}

/* What it left comes to the hub, which never calls it whole. */
static void killed(const char *self) {
    char *words[] = {(char *)(size_t)self, (char *)(size_t)folder, (char *)(size_t)port, NULL};
    int status = 0;
    pid_t child = process_start(words);
    HOLDS(waitpid(child, &status, 0) == child);
    HOLDS(WIFSIGNALED(status) && WTERMSIG(status) == SIGKILL);
    hind_nats *front = started_with_pool();
    for (int i = 0; i < 600 && one_number("SELECT count(*) FROM records WHERE hex(trace) LIKE '66%'") < 2; i++) sleep_ms(100);
    EXPECT(one_number("SELECT count(*) FROM records WHERE hex(trace) LIKE '66%' AND core = -1"), 2);
    EXPECT(one_number("SELECT count(*) FROM lives WHERE hex(trace) LIKE '66%' AND service = 'front' AND wholeness = 'salvaged'"), 1);
    EXPECT(one_number("SELECT count(*) FROM traces WHERE hex(trace) LIKE '66%' AND whole = 0"), 1);
    EXPECT(hind_nats_stop(front, 10000), HIND_OK);
}

/* What cannot be acknowledged is told. */
static void away(void) {
    hind_nats *front = started("front"), *back = started("back");
    process_end(server, SIGTERM);
    for (int number = 101; number <= 120; number++) request(front, back, (uint8_t)number);
    EXPECT(hind_nats_stop(front, 100), HIND_AWAY);
    (void)hind_nats_stop(back, 100);
}

int main(int argc, char **argv) {
    char path[300];
    if (argc != 3 && argc != 4) return 2;
    setvbuf(stdout, NULL, _IOLBF, 0); /* what forks has nothing left to print */
    folder = argv[1];
    port = argv[2];
    snprintf(url, sizeof url, "nats://127.0.0.1:%s", port);
    if (argc == 3) {
        die_in_a_request();
        return 1;
    }
    hub_program = argv[3];
    snprintf(path, sizeof path, "%s/settings", folder);
    FILE *file = fopen(path, "w");
    if (!file) return 2;
    fputs(settings, file);
    fclose(file);
    snprintf(path, sizeof path, "%s/store", folder);
    EXPECT(mkdir(path, 0700), 0);
    nobody();
    run_server();
    run_hub();
    services();
    killed(argv[0]);
    EXPECT(process_end(hub, SIGTERM), 1);
    away();
    nats_Close();
    return failed != 0;
}
