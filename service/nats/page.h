/* A page of text at http://ADDRESS/metrics: a thread of its own answers with what was set last. */
#ifndef PAGE_H
#define PAGE_H
#include <stddef.h>

enum { PAGE_TEXT = 8192, PAGE_REQUEST = 4096, PAGE_REPLY = PAGE_TEXT + 256 };

typedef struct page page;

/* Listens at an address, as "9090", which is of 127.0.0.1, or "0.0.0.0:9090". NULL: `fault` says why. */
page *page_open(const char *at, char *fault, size_t room);
void page_set(page *p, const char *text, size_t len);
void page_close(page *p);

/* What is answered to the front of a request, as far as it was read: how many bytes `reply` has. */
size_t page_answer(const char *request, size_t len, const char *text, size_t text_len, char reply[PAGE_REPLY]);
/* Whether a request of so many bytes has come to its end. */
int page_ends(const char *request, size_t len);

#endif
