/* Memory that is refused: the linker has malloc, realloc and free go through here (--wrap). */
#ifndef REFUSING_H
#define REFUSING_H
#include <stddef.h>

void *__real_malloc(size_t size);
void *__real_realloc(void *old, size_t size);
void __real_free(void *old);
void *__wrap_malloc(size_t size);
void *__wrap_realloc(void *old, size_t size);
void __wrap_free(void *old);

static long allocations, refused_at = -1, live;
static int refuses_on; /* all behind it are refused too */

static int is_refused(void) {
    long number = allocations++;
    return number == refused_at || (refuses_on && refused_at >= 0 && number > refused_at);
}

void *__wrap_malloc(size_t size) {
    if (is_refused()) return NULL;
    live++;
    return __real_malloc(size);
}

void *__wrap_realloc(void *old, size_t size) {
    if (is_refused()) return NULL;
    live += !old;
    return __real_realloc(old, size);
}

void __wrap_free(void *old) {
    live -= old != NULL;
    __real_free(old);
}

#endif
