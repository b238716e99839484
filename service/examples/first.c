/* A node and a hub in one process. Two requests are traced, one of them is claimed, and its trace is printed. */
#include <hindsight.h>
#include <stdio.h>
#include <string.h>

static const char settings[] = "nodes 1\nbuffers 1024\ntriggerid 1\n";

/* Hands what the node says to the hub, and what the hub asks to the node. */
static void carry(hind_node *node, hind_hub *hub) {
    hind_message m;
    for (int pass = 0; pass < 10; pass++) {
        hind_node_pass(node);
        while (hind_node_next(node, &m) == HIND_OK && hind_hub_deliver(hub, m.bytes, m.len) >= 0) {
            hind_node_sent(node, m.number);
            hind_node_acknowledged(node, m.number);
        }
        while (hind_hub_next(hub, &m) == HIND_OK) hind_node_deliver(node, m.bytes, m.len);
        hind_hub_pass(hub);
    }
}

static void request(hind_client *client, hind_trace_id trace, const char *answer) {
    hind_begin(client, &trace);
    hind_point_at(client, 1000, "a request came", 14);
    hind_point_at(client, 2000, answer, strlen(answer));
    if (strstr(answer, "failed")) hind_trigger(client, 1, NULL, NULL, 0);
    hind_end(client);
}

static void print(const hind_trace *trace) {
    hind_trace_info info = {.size = sizeof info};
    hind_record r;
    hind_trace_get_info(trace, &info);
    printf("trace ..%02x%02x, trigger %u, %s\n", info.id.bytes[14], info.id.bytes[15], info.trigger, info.is_whole ? "whole" : "not whole");
    for (size_t at = 0; hind_trace_get_record(trace, at, &r) == HIND_OK; at++)
        printf("  node %u at %llu ns: %.*s\n", r.node, (unsigned long long)r.moment, (int)r.len, (const char *)r.payload);
}

int main(void) {
    hind_node_options for_node = HIND_NODE_OPTIONS_INIT;
    hind_hub_options for_hub = HIND_HUB_OPTIONS_INIT;
    hind_node *node;
    hind_hub *hub;
    hind_client *client;
    hind_trace *trace;
    for_hub.is_fresh = 1;
    for_node.settings = for_hub.settings = settings;
    for_node.settings_len = for_hub.settings_len = strlen(settings);
    if (hind_node_open(&for_node, &node) || hind_hub_open(&for_hub, &hub) || hind_client_get(node, &client)) return 1;
    request(client, (hind_trace_id){{[15] = 0xa1}}, "all is well");
    request(client, (hind_trace_id){{[15] = 0xa2}}, "the database failed");
    carry(node, hub);
    while (hind_hub_take(hub, &trace) == HIND_OK) {
        hind_trace_info info = {.size = sizeof info};
        print(trace);
        hind_trace_get_info(trace, &info);
        hind_hub_saved(hub, &info.id);
        hind_trace_free(trace);
    }
    hind_hub_close(hub);
    hind_node_close(node);
    return 0;
}
