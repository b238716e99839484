/* Numbers in Prometheus' text form (version 0.0.4), written into a room of fixed size. */
#ifndef METRICS_H
#define METRICS_H
#include <stddef.h>
#include <stdint.h>

#pragma GCC visibility push(hidden)

typedef struct {
    char *text; /* ends in a 0 byte where `room` is not 0 */
    size_t room, len; /* `len`: of all that was written, also of what found no room */
    const char *node; /* the label `node` of each line; NULL: no label */
} metrics;

enum { METRICS_COUNTER, METRICS_GAUGE };

/* One number with its help, a line of plain words. */
void metrics_put(metrics *m, int kind, const char *name, const char *help, uint64_t value);

#pragma GCC visibility pop

#endif
