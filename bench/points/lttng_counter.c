/* A clock for LTTng-UST that counts and reads no time, so that a tracepoint is measured without its clock. */
#include <lttng/ust-clock.h>
#include <stdint.h>
#include <string.h>

static uint64_t count(void) {
    static __thread uint64_t ticks;
    return ++ticks;
}

static uint64_t frequency(void) { return 1000000000; }

static const char *name(void) { return "counter"; }

static int uuid(char *out) {
    memcpy(out, "5f4dcc3b-5aa7-65d6-1d83-27deb882cf99", LTTNG_UST_UUID_STR_LEN);
    return 0;
}

static const char *description(void) { return "counts"; }

void lttng_ust_clock_plugin_init(void);
void lttng_ust_clock_plugin_init(void) {
    if (lttng_ust_trace_clock_set_read64_cb(count) || lttng_ust_trace_clock_set_freq_cb(frequency) || lttng_ust_trace_clock_set_uuid_cb(uuid) || lttng_ust_trace_clock_set_name_cb(name) ||
        lttng_ust_trace_clock_set_description_cb(description))
        return;
    lttng_ust_enable_trace_clock_override();
}
