/* What a process left in its pool file, page by page. */
#include "pool.h"
#include <stdlib.h>
#include <string.h>

enum { MOST_PIECES = 3276, PAGE_FRONT = 32, PIECE_FRONT = 10 }; /* docs/FORMATS.md, "The page" */

struct hind_salvage {
    pool_file file;
    struct found {
        hindcore_page page;
        size_t buffer;
    } *pages;
    size_t count, torn;
    size_t read; /* the page that `pieces` has, and one more; 0: none */
    hindcore_piece pieces[MOST_PIECES];
};

static int in_order(const void *a, const void *b) {
    const struct found *x = a, *y = b;
    int order = memcmp(&x->page.trace, &y->page.trace, sizeof x->page.trace);
    if (order) return order;
    if (x->page.client != y->page.client) return x->page.client < y->page.client ? -1 : 1;
    return x->page.page < y->page.page ? -1 : x->page.page > y->page.page;
}

static hind_code look(hind_salvage *s) {
    s->pages = malloc((s->file.front.count + (size_t)1) * sizeof *s->pages);
    if (!s->pages) return HIND_NOMEM;
    for (size_t i = 0; i < s->file.front.count; i++) {
        struct found *f = &s->pages[s->count];
        uint32_t answer = hindcore_page_read(pool_buffer(&s->file, i), s->file.front.block, &f->page, s->pieces, 0);
        if (answer == HINDCORE_MEMORY) return HIND_NOMEM;
        s->torn += answer == HINDCORE_TORN;
        if (answer != HINDCORE_DONE || !f->page.pieces) continue;
        f->buffer = i;
        s->count++;
    }
    qsort(s->pages, s->count, sizeof *s->pages, in_order);
    return HIND_OK;
}

hind_code hind_salvage_open(const char *pool_file, hind_salvage **salvage) {
    if (salvage) *salvage = NULL;
    if (!salvage || !pool_file) return HIND_INVALID;
    hind_salvage *s = calloc(1, sizeof *s);
    if (!s) return HIND_NOMEM;
    hind_code code = pool_open(pool_file, 0, &s->file);
    if (!code) code = look(s);
    if (code) hind_salvage_close(s);
    else *salvage = s;
    return code == HIND_NOTHING ? HIND_SYSTEM : code;
}

void hind_salvage_close(hind_salvage *salvage) {
    if (!salvage) return;
    pool_close(&salvage->file);
    free(salvage->pages);
    free(salvage);
}

hind_code hind_salvage_get_info(const hind_salvage *salvage, hind_salvage_info *info) {
    if (!salvage) return HIND_INVALID;
    const pool_front *f = &salvage->file.front;
    hind_salvage_info own = {sizeof own, f->node, f->epoch, f->name, f->opened, f->count, salvage->count, salvage->torn};
    return hindlib_give(info, &own, sizeof own);
}

hind_code hind_salvage_get_page(const hind_salvage *salvage, size_t at, hind_salvaged_page *page) {
    if (!salvage || !page || at >= salvage->count) return HIND_INVALID;
    const hindcore_page *p = &salvage->pages[at].page;
    *page = (hind_salvaged_page){.client = p->client, .page = p->page, .first = p->record, .records = p->pieces};
    memcpy(&page->trace, &p->trace, sizeof page->trace);
    return HIND_OK;
}

/* Where the payload of a piece lies. */
static const uint8_t *payload_of(const hind_salvage *s, size_t page, size_t at) {
    const uint8_t *place = pool_buffer(&s->file, s->pages[page].buffer) + PAGE_FRONT + PIECE_FRONT;
    for (size_t i = 0; i < at; i++) place += s->pieces[i].len + PIECE_FRONT;
    return place;
}

static int read_pieces(hind_salvage *s, size_t page) {
    hindcore_page same;
    if (s->read == page + 1) return 1;
    s->read = hindcore_page_read(pool_buffer(&s->file, s->pages[page].buffer), s->file.front.block, &same, s->pieces, MOST_PIECES) == HINDCORE_DONE ? page + 1 : 0;
    return s->read != 0;
}

hind_code hind_salvage_get_record(hind_salvage *salvage, size_t page, size_t at, hind_record *record) {
    if (!salvage || !record || page >= salvage->count) return HIND_INVALID;
    const hindcore_page *p = &salvage->pages[page].page;
    if (at >= p->pieces) return HIND_INVALID;
    if (!read_pieces(salvage, page)) return HIND_NOMEM;
    *record = (hind_record){salvage->file.front.node, p->client, salvage->file.front.epoch, UINT64_MAX, (uint64_t)p->record + at, 0, salvage->pieces[at].moment,
                            payload_of(salvage, page, at), (size_t)salvage->pieces[at].len};
    return HIND_OK;
}
