/* The memory of the core: malloc's, but for the buffers of a node whose pool lies in a file. */
#ifndef HEAP_H
#define HEAP_H
#include <stddef.h>
#include <stdint.h>

#pragma GCC visibility push(hidden)

/* Places of one size, one behind the other, for what a thread takes while it is told to. */
typedef struct {
    uint8_t *first;
    size_t block, stride, count; /* bytes of a place, bytes from one to the next, places */
    size_t taken;
} hindheap_places;

/* What this thread takes from now on has its memory there where it is bytes, and as many as a place has; NULL: none has. */
void hindheap_place(hindheap_places *places);

enum { HINDHEAP_FOREIGN = 64 };
/* Memory that is not malloc's: what the core frees of it stays as it is. At most HINDHEAP_FOREIGN at once: 1, or 0 where there is no place. One
 * thread at a time may add or remove. */
int hindheap_add(const uint8_t *from, size_t len);
void hindheap_remove(const uint8_t *from);

#pragma GCC visibility pop
#endif
