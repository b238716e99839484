#define _GNU_SOURCE
#include "page.h"
#include <arpa/inet.h>
#include <errno.h>
#include <poll.h>
#include <pthread.h>
#include <signal.h>
#include <stdio.h>
#include <stdlib.h>
#include <string.h>
#include <sys/socket.h>
#include <sys/time.h>
#include <unistd.h>

enum { PATIENCE = 2 /* seconds for one who asks */, ENDS_WITHIN = 200 /* milliseconds */ };

struct page {
    int listener;
    pthread_t thread;
    pthread_mutex_t lock; /* around what follows */
    int is_over;
    size_t len;
    char text[PAGE_TEXT];
};

/* ---- what is answered */

static size_t put_reply(char reply[PAGE_REPLY], const char *status, const char *text, size_t len) {
    int head = snprintf(reply, PAGE_REPLY, "HTTP/1.1 %s\r\nContent-Type: text/plain; version=0.0.4\r\nContent-Length: %zu\r\nConnection: close\r\n\r\n", status, len);
    memcpy(reply + head, text, len);
    return (size_t)head + len;
}

static int begins_with(const char *request, size_t len, const char *word) { return len >= strlen(word) && !memcmp(request, word, strlen(word)); }

int page_ends(const char *request, size_t len) { return memmem(request, len, "\r\n\r\n", 4) != NULL; }

size_t page_answer(const char *request, size_t len, const char *text, size_t text_len, char reply[PAGE_REPLY]) {
    if (!page_ends(request, len)) return put_reply(reply, "400 Bad Request", "", 0);
    if (!begins_with(request, len, "GET ")) return put_reply(reply, "405 Method Not Allowed", "", 0);
    if (!begins_with(request, len, "GET /metrics ") && !begins_with(request, len, "GET /metrics?")) return put_reply(reply, "404 Not Found", "", 0);
    return put_reply(reply, "200 OK", text, text_len < PAGE_TEXT ? text_len : PAGE_TEXT);
}

/* ---- the thread, which answers one after the other */

static size_t read_request(int from, char request[PAGE_REQUEST]) {
    size_t len = 0;
    while (len < PAGE_REQUEST && !page_ends(request, len)) {
        ssize_t got = recv(from, request + len, PAGE_REQUEST - len, 0);
        if (got <= 0) break;
        len += (size_t)got;
    }
    return len;
}

static void answer(page *p, int to) {
    static char request[PAGE_REQUEST], reply[PAGE_REPLY];
    const struct timeval patience = {PATIENCE, 0};
    setsockopt(to, SOL_SOCKET, SO_RCVTIMEO, &patience, sizeof patience);
    setsockopt(to, SOL_SOCKET, SO_SNDTIMEO, &patience, sizeof patience);
    size_t len = read_request(to, request);
    pthread_mutex_lock(&p->lock);
    size_t size = page_answer(request, len, p->text, p->len, reply);
    pthread_mutex_unlock(&p->lock);
    for (size_t sent = 0; sent < size;) {
        ssize_t n = send(to, reply + sent, size - sent, MSG_NOSIGNAL);
        if (n <= 0) break;
        sent += (size_t)n;
    }
}

static int is_over(page *p) {
    pthread_mutex_lock(&p->lock);
    int over = p->is_over;
    pthread_mutex_unlock(&p->lock);
    return over;
}

static void *answers(void *arg) {
    page *p = arg;
    while (!is_over(p)) {
        struct pollfd waits = {p->listener, POLLIN, 0};
        if (poll(&waits, 1, ENDS_WITHIN) <= 0) continue;
        int to = accept4(p->listener, NULL, NULL, SOCK_CLOEXEC);
        if (to < 0) continue;
        answer(p, to);
        close(to);
    }
    return NULL;
}

/* ---- opening */

static int read_address(const char *text, struct sockaddr_in *at) {
    char host[64] = "127.0.0.1", *behind;
    const char *colon = strrchr(text, ':'), *port = colon ? colon + 1 : text;
    if (colon && (size_t)(colon - text) < sizeof host) {
        memcpy(host, text, (size_t)(colon - text));
        host[colon - text] = 0;
    }
    unsigned long number = strtoul(port, &behind, 10);
    at->sin_family = AF_INET;
    at->sin_port = htons((uint16_t)number);
    return *port >= '0' && *port <= '9' && !*behind && number && number < 65536 && inet_pton(AF_INET, host, &at->sin_addr) == 1;
}

static int listens(const struct sockaddr_in *at) {
    int yes = 1, listener = socket(AF_INET, SOCK_STREAM | SOCK_CLOEXEC | SOCK_NONBLOCK, 0);
    if (listener < 0) return -1;
    setsockopt(listener, SOL_SOCKET, SO_REUSEADDR, &yes, sizeof yes);
    if (!bind(listener, (const struct sockaddr *)at, sizeof *at) && !listen(listener, 16)) return listener;
    close(listener);
    return -1;
}

/* The thread takes no signal. */
static int start(page *p) {
    sigset_t all, before;
    sigfillset(&all);
    pthread_sigmask(SIG_BLOCK, &all, &before);
    int failed = pthread_create(&p->thread, NULL, answers, p);
    pthread_sigmask(SIG_SETMASK, &before, NULL);
    return !failed;
}

page *page_open(const char *at, char *fault, size_t room) {
    struct sockaddr_in address = {0};
    if (!read_address(at, &address)) {
        snprintf(fault, room, "%.60s is no address for a page: PORT, or A.B.C.D:PORT", at);
        return NULL;
    }
    page *p = calloc(1, sizeof *p);
    if (p) p->listener = listens(&address);
    if (p && p->listener >= 0) {
        pthread_mutex_init(&p->lock, NULL);
        if (start(p)) return p;
        close(p->listener);
    }
    snprintf(fault, room, "no page at %.60s: %s", at, strerror(errno));
    free(p);
    return NULL;
}

void page_set(page *p, const char *text, size_t len) {
    pthread_mutex_lock(&p->lock);
    p->len = len < PAGE_TEXT ? len : PAGE_TEXT;
    memcpy(p->text, text, p->len);
    pthread_mutex_unlock(&p->lock);
}

void page_close(page *p) {
    if (!p) return;
    pthread_mutex_lock(&p->lock);
    p->is_over = 1;
    pthread_mutex_unlock(&p->lock);
    pthread_join(p->thread, NULL);
    close(p->listener);
    pthread_mutex_destroy(&p->lock);
    free(p);
}
