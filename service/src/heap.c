/* What the core calls for memory. It stands in the core's archive, in the place of the kit's own. */
#include "heap.h"
#include <stdlib.h>
#include <string.h>

/* What the core wants to be answered: whether there is memory, and where. */
typedef struct {
    uint64_t is_done;
    void *at;
} taken;

taken rattle_alloc(size_t size, size_t align);
taken rattle_realloc(void *at, size_t was, size_t size, size_t align);
void rattle_dealloc(void *at);

typedef struct {
    const uint8_t *from;
    size_t len; /* 0: not in use */
} foreign;

static foreign all[HINDHEAP_FOREIGN];
static size_t used; /* how many are in use */
static __thread hindheap_places *places;

void hindheap_place(hindheap_places *of) { places = of; }

int hindheap_add(const uint8_t *from, size_t len) {
    for (size_t i = 0; i < HINDHEAP_FOREIGN; i++) {
        if (__atomic_load_n(&all[i].len, __ATOMIC_RELAXED)) continue;
        __atomic_store_n(&all[i].from, from, __ATOMIC_SEQ_CST);
        __atomic_store_n(&all[i].len, len, __ATOMIC_SEQ_CST);
        __atomic_fetch_add(&used, 1, __ATOMIC_SEQ_CST);
        return 1;
    }
    return 0;
}

void hindheap_remove(const uint8_t *from) {
    for (size_t i = 0; i < HINDHEAP_FOREIGN; i++) {
        if (!__atomic_load_n(&all[i].len, __ATOMIC_RELAXED) || __atomic_load_n(&all[i].from, __ATOMIC_RELAXED) != from) continue;
        __atomic_fetch_sub(&used, 1, __ATOMIC_SEQ_CST);
        __atomic_store_n(&all[i].len, 0, __ATOMIC_SEQ_CST);
    }
}

/* While a place is given to other memory its length is 0, so what is read between two equal lengths is the begin of memory of that length. */
static int is_in(const foreign *of, const uint8_t *at) {
    for (;;) {
        size_t len = __atomic_load_n(&of->len, __ATOMIC_SEQ_CST);
        if (!len) return 0;
        const uint8_t *from = __atomic_load_n(&of->from, __ATOMIC_SEQ_CST);
        if (__atomic_load_n(&of->len, __ATOMIC_SEQ_CST) == len) return (uintptr_t)at - (uintptr_t)from < len;
    }
}

static int is_foreign(const void *at) {
    if (!__atomic_load_n(&used, __ATOMIC_SEQ_CST)) return 0;
    for (size_t i = 0; i < HINDHEAP_FOREIGN; i++)
        if (is_in(&all[i], at)) return 1;
    return 0;
}

static taken answer(void *at) {
    static uint64_t nowhere;
    return at ? (taken){1, at} : (taken){0, &nowhere};
}

taken rattle_alloc(size_t size, size_t align) {
    hindheap_places *p = places;
    if (p && align == 1 && size == p->block && p->taken < p->count) return answer(p->first + p->stride * p->taken++);
    return answer(malloc(size ? size : align));
}

taken rattle_realloc(void *at, size_t was, size_t size, size_t align) {
    if (!is_foreign(at)) return answer(realloc(at, size ? size : align));
    void *moved = malloc(size ? size : align);
    if (moved) memcpy(moved, at, was < size ? was : size);
    return answer(moved);
}

void rattle_dealloc(void *at) {
    if (!is_foreign(at)) free(at);
}
