/* A service that was compiled with a header of an earlier version, over the library of today: its structs are as long as they were then, and nothing is
 * written behind them. It makes no call that version 0.1.0 has not. */
#include "expect.h"
#include "hindsight.h"
#include <string.h>

static const char text[] = "nodes 1\nbuffers 1024\ntriggerid 1\n";

static void carry(hind_node *node, hind_hub *hub) {
    hind_message m;
    for (int pass = 0; pass < 10; pass++) {
        HOLDS(hind_node_pass(node) >= 0);
        while (hind_node_next(node, &m) == HIND_OK && hind_hub_deliver(hub, m.bytes, m.len) >= 0) {
            EXPECT(hind_node_sent(node, m.number), HIND_OK);
            EXPECT(hind_node_acknowledged(node, m.number), HIND_OK);
        }
        while (hind_hub_next(hub, &m) == HIND_OK) EXPECT(hind_node_deliver(node, m.bytes, m.len), HIND_OK);
        EXPECT(hind_hub_pass(hub), HIND_OK);
    }
}

int main(void) {
    hind_node_options for_node = HIND_NODE_OPTIONS_INIT;
    hind_hub_options for_hub = HIND_HUB_OPTIONS_INIT;
    struct {
        hind_client_counts client;
        uint64_t behind_client;
        hind_hub_counts hub;
        uint64_t behind_hub;
        hind_trace_info info;
        uint64_t behind_info;
    } told;
    const hind_trace_id id = {{7}};
    hind_trace_life life;
    hind_record record;
    hind_node *node;
    hind_hub *hub;
    hind_client *c;
    hind_trace *trace;
    memset(&told, 0x5a, sizeof told);
    told.client.size = sizeof told.client;
    told.hub.size = sizeof told.hub;
    told.info.size = sizeof told.info;
    for_node.settings = for_hub.settings = text;
    for_node.settings_len = for_hub.settings_len = strlen(text);
    for_node.name = "kept";
    HOLDS(hind_version() >= HIND_VERSION_NUMBER);
    EXPECT(hind_node_open(&for_node, &node), HIND_OK);
    EXPECT(hind_hub_open(&for_hub, &hub), HIND_OK);
    EXPECT(hind_client_get(node, &c), HIND_OK);
    EXPECT(hind_begin(c, &id), HIND_OK);
    EXPECT(hind_point_at(c, 5, "x", 1), HIND_OK);
    EXPECT(hind_trigger(c, 1, NULL, NULL, 0), HIND_OK);
    EXPECT(hind_end(c), HIND_OK);
    EXPECT(hind_client_get_counts(c, &told.client), HIND_OK);
    EXPECT(told.client.points, 1);
    EXPECT(told.client.dropped_notes, 0);
    carry(node, hub);
    EXPECT(hind_hub_take(hub, &trace), HIND_OK);
    EXPECT(hind_trace_get_info(trace, &told.info), HIND_OK);
    /* a hub of then does not say that it is fresh */
    HOLDS(told.info.records == 1 && told.info.lives == 1 && told.info.trigger == 1 && !told.info.is_whole);
    EXPECT(hind_trace_get_life(trace, 0, &life), HIND_OK);
    HOLDS(!strcmp(life.name, "kept"));
    EXPECT(hind_trace_get_record(trace, 0, &record), HIND_OK);
    HOLDS(record.moment == 5 && record.len == 1);
    EXPECT(hind_hub_saved(hub, &told.info.id), HIND_OK);
    hind_trace_free(trace);
    EXPECT(hind_hub_get_counts(hub, &told.hub), HIND_OK);
    HOLDS(told.hub.passes == 10 && told.hub.groups == 1);
    HOLDS(told.behind_client == told.behind_hub && told.behind_hub == told.behind_info && told.behind_info == 0x5a5a5a5a5a5a5a5a);
    EXPECT(hind_hub_close(hub), HIND_OK);
    EXPECT(hind_node_close(node), HIND_OK);
    return failed != 0;
}
