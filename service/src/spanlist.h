/* Which records of a life of a node speak of which span (docs/FORMATS.md, "A trace as OTLP"). */
#ifndef SPANLIST_H
#define SPANLIST_H
#include "otlp.h"

enum { NO_RECORD = -1 };

typedef struct {
    hind_span_id id;
    long first, last; /* its records, each with the next one in `next` */
    long start, end;  /* the records that start and end it, or NO_RECORD */
} span;

/* Spans in the order in which records first speak of them. */
typedef struct {
    const otlp_part *part;
    span *spans;
    long count;
    long *next;  /* of each record the next one of its span, or NO_RECORD */
    long *table; /* spans by their ids: open addressing */
    size_t mask;
} span_list;

/* 1, or 0 where memory is wanting; the list is to be freed in both cases. */
int span_list_make(span_list *s, const otlp_part *part);
void span_list_free(span_list *s);

#endif
