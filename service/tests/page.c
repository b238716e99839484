/* The page of numbers: what it answers to requests that are right, wrong and slow, and how numbers are written.
 *
 *     page PORT */
#include "expect.h"
#include "metrics.h"
#include "page.h"
#include <arpa/inet.h>
#include <stdlib.h>
#include <string.h>
#include <sys/socket.h>
#include <time.h>
#include <unistd.h>

static const char *port;

static int connected(void) {
    struct sockaddr_in at = {.sin_family = AF_INET, .sin_port = htons((uint16_t)atoi(port)), .sin_addr = {htonl(INADDR_LOOPBACK)}};
    int to = socket(AF_INET, SOCK_STREAM, 0);
    HOLDS(!connect(to, (struct sockaddr *)&at, sizeof at));
    return to;
}

/* What comes to a request that is written in pieces. */
static const char *asked(const char *first, const char *second) {
    static char reply[2 * PAGE_REPLY];
    const struct timespec some = {0, 20000000};
    size_t len = 0;
    ssize_t got;
    int to = connected();
    HOLDS(write(to, first, strlen(first)) == (ssize_t)strlen(first));
    nanosleep(&some, NULL);
    if (*second) HOLDS(write(to, second, strlen(second)) == (ssize_t)strlen(second));
    while ((got = read(to, reply + len, sizeof reply - 1 - len)) > 0) len += (size_t)got;
    reply[len] = 0;
    close(to);
    return reply;
}

static int begins(const char *text, const char *with) { return !strncmp(text, with, strlen(with)); }

static void requests(void) {
    char fault[200] = "";
    char *much = calloc(1, 3 * PAGE_TEXT);
    page *p = page_open(port, fault, sizeof fault);
    if (!p) {
        fprintf(stderr, "page: %s\n", fault);
        exit(1);
    }
    HOLDS(begins(asked("GET /metrics HTTP/1.1\r\n\r\n", ""), "HTTP/1.1 200 OK\r\n"));
    page_set(p, "a 1\n", 4);
    HOLDS(strstr(asked("GET /metrics HT", "TP/1.1\r\nHost: x\r\n\r\n"), "Content-Length: 4\r\nConnection: close\r\n\r\na 1\n") != NULL);
    HOLDS(begins(asked("GET /metrics?x=1 HTTP/1.1\r\n\r\n", ""), "HTTP/1.1 200 OK\r\n"));
    HOLDS(begins(asked("GET /metricses HTTP/1.1\r\n\r\n", ""), "HTTP/1.1 404 "));
    HOLDS(begins(asked("POST /metrics HTTP/1.1\r\n\r\n", ""), "HTTP/1.1 405 "));
    /* one who says nothing is let go after two seconds; meanwhile others wait */
    int silent = connected();
    HOLDS(begins(asked("GET /metrics HTTP/1.1\r\n\r\n", ""), "HTTP/1.1 200 OK\r\n"));
    close(silent);
    /* a request that has no end is cut, and so is a text that is too long */
    memset(much, 'a', 3 * PAGE_TEXT - 1);
    HOLDS(page_answer(much, PAGE_REQUEST, "", 0, much + PAGE_TEXT) < PAGE_REPLY && begins(much + PAGE_TEXT, "HTTP/1.1 400 "));
    page_set(p, much, 3 * PAGE_TEXT - 1);
    HOLDS(strstr(asked("GET /metrics HTTP/1.1\r\n\r\n", ""), "Content-Length: 8192\r\n") != NULL);
    HOLDS(!page_open(port, fault, sizeof fault) && strstr(fault, "no page at"));
    page_close(p);
    free(much);
    for (int i = 0; i < 6; i++) {
        static const char *const wrong[] = {"", "x", "0", "65536", "1.2.3:80", "80:"};
        HOLDS(!page_open(wrong[i], fault, sizeof fault) && strstr(fault, "is no address"));
    }
    page_close(NULL);
}

static void numbers(void) {
    char text[200];
    metrics m = {text, sizeof text, 0, NULL};
    metrics_put(&m, METRICS_COUNTER, "a_total", "What a is.", 18446744073709551615u);
    HOLDS(!strcmp(text, "# HELP a_total What a is.\n# TYPE a_total counter\na_total 18446744073709551615\n"));
    m = (metrics){text, sizeof text, 0, "a\"b\\c\nd"};
    metrics_put(&m, METRICS_GAUGE, "a", "What a is.", 0);
    HOLDS(!strcmp(text, "# HELP a What a is.\n# TYPE a gauge\na{node=\"a\\\"b\\\\c\\nd\"} 0\n"));
    /* each room too small has the front, and says how many bytes all has */
    size_t all = m.len;
    for (size_t room = 0; room <= all; room++) {
        char less[100];
        memset(less, 'x', sizeof less);
        m = (metrics){less, room, 0, "a\"b\\c\nd"};
        metrics_put(&m, METRICS_GAUGE, "a", "What a is.", 0);
        EXPECT(m.len, all);
        if (room) HOLDS(strlen(less) == room - 1 && !memcmp(less, text, room - 1));
        HOLDS(less[room] == 'x');
    }
}

int main(int argc, char **argv) {
    if (argc != 2) return 2;
    port = argv[1];
    numbers();
    requests();
    if (!failed) puts("page: ok");
    return failed != 0;
}
