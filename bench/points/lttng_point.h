/* A tracepoint of LTTng-UST with a sequence of bytes. */
#undef LTTNG_UST_TRACEPOINT_PROVIDER
#define LTTNG_UST_TRACEPOINT_PROVIDER peers
#undef LTTNG_UST_TRACEPOINT_INCLUDE
#define LTTNG_UST_TRACEPOINT_INCLUDE "./lttng_point.h"
#if !defined(LTTNG_POINT_H) || defined(LTTNG_UST_TRACEPOINT_HEADER_MULTI_READ)
#define LTTNG_POINT_H
#include <lttng/tracepoint.h>
#include <stdint.h>
LTTNG_UST_TRACEPOINT_EVENT(peers, point, LTTNG_UST_TP_ARGS(uint64_t, id, uint8_t *, bytes, uint32_t, len),
    LTTNG_UST_TP_FIELDS(lttng_ust_field_integer(uint64_t, id, id) lttng_ust_field_sequence(uint8_t, bytes, bytes, uint32_t, len)))
#endif
#include <lttng/tracepoint-event.h>
