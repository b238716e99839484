#include "metrics.h"
#include <inttypes.h>
#include <stdio.h>
#include <string.h>

static void put(metrics *m, const char *text, size_t len) {
    if (m->len < m->room) {
        size_t fits = m->room - m->len - 1;
        memcpy(m->text + m->len, text, len < fits ? len : fits);
        m->text[m->len + (len < fits ? len : fits)] = 0;
    }
    m->len += len;
}

static void put_text(metrics *m, const char *text) { put(m, text, strlen(text)); }

/* A label's value has '\\', '"' and a new line spelled. */
static void put_label(metrics *m, const char *value) {
    for (; *value; value++) {
        if (*value == '\\') put_text(m, "\\\\");
        else if (*value == '"') put_text(m, "\\\"");
        else if (*value == '\n') put_text(m, "\\n");
        else put(m, value, 1);
    }
}

void metrics_put(metrics *m, int kind, const char *name, const char *help, uint64_t value) {
    char number[32];
    put_text(m, "# HELP ");
    put_text(m, name);
    put_text(m, " ");
    put_text(m, help);
    put_text(m, "\n# TYPE ");
    put_text(m, name);
    put_text(m, kind == METRICS_COUNTER ? " counter\n" : " gauge\n");
    put_text(m, name);
    if (m->node) {
        put_text(m, "{node=\"");
        put_label(m, m->node);
        put_text(m, "\"}");
    }
    snprintf(number, sizeof number, " %" PRIu64 "\n", value);
    put_text(m, number);
}
