/* The trace that a hub gives out, as one value: its rows joined to records, by the lives of nodes that wrote them, with what is said of each. */
#ifndef GATHER_H
#define GATHER_H
#include "hindcore.h"
#include "otlp.h"

typedef struct {
    otlp_trace trace;
    otlp_part *parts;
    otlp_record *records;
    uint8_t *payloads;
    char *words;
} gathered;

/* Gathers the trace that hindcore_hub_take has just given out, of a service with so many nodes. `name_of` answers the name of a node, "" where it
 * is not known. A record of which a middle piece is missing counts as a missing one. 1, or 0 where memory is wanting. It is to be freed in both
 * cases. */
int gather(hindcore_hub *hub, const hindcore_trace *id, uint16_t nodes, const char *(*name_of)(void *closure, uint16_t node), void *closure, gathered *g);
void gathered_free(gathered *g);

#endif
