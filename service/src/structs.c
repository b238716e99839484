/* Structs that begin with their size, so that they can grow. */
#include "within.h"
#include <string.h>

static int has_more(const uint8_t *bytes, size_t from, size_t to) {
    while (from < to && !bytes[from]) from++;
    return from < to;
}

/* A later header has more fields: where one of them is set, this library would do something else than it says. */
hind_code hindlib_read_options(void *own, size_t size, const void *given) {
    size_t its;
    uint32_t abi;
    if (!given) return HIND_INVALID;
    memcpy(&its, given, sizeof its);
    if (its < sizeof its + sizeof abi || its > 4096) return HIND_INVALID;
    memcpy(&abi, (const uint8_t *)given + sizeof its, sizeof abi);
    if (abi != HIND_ABI || has_more(given, size, its)) return HIND_ABI_WRONG;
    memset(own, 0, size);
    memcpy(own, given, its < size ? its : size);
    return HIND_OK;
}

hind_code hindlib_give(void *to, const void *own, size_t size) {
    size_t its;
    if (!to) return HIND_INVALID;
    memcpy(&its, to, sizeof its);
    if (its <= sizeof its || its > 4096) return HIND_INVALID;
    memset((uint8_t *)to + sizeof its, 0, its - sizeof its);
    memcpy((uint8_t *)to + sizeof its, (const uint8_t *)own + sizeof its, (its < size ? its : size) - sizeof its);
    return HIND_OK;
}
