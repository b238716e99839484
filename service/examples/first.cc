// A node and a hub in one process. Two requests are traced, one of them is claimed, and its trace is printed.
#include <cstdio>
#include <hindsight.hpp>
#include <string>

static const char settings[] = "nodes 1\nbuffers 1024\ntriggerid 1\n";

// Hands what the node says to the hub, and what the hub asks to the node.
static void carry(hindsight::Node &node, hindsight::Hub &hub) {
    hind_message m;
    for (int pass = 0; pass < 10; pass++) {
        (void)node.pass();
        while (hind_node_next(node.get(), &m) == HIND_OK && hind_hub_deliver(hub.get(), m.bytes, m.len) >= 0) {
            (void)hind_node_sent(node.get(), m.number);
            (void)hind_node_acknowledged(node.get(), m.number);
        }
        while (hind_hub_next(hub.get(), &m) == HIND_OK) (void)hind_node_deliver(node.get(), m.bytes, m.len);
        (void)hind_hub_pass(hub.get());
    }
}

static void request(hindsight::Node &node, const hind_trace_id &trace, const std::string &answer) {
    hindsight::Segment segment(node.get(), trace);
    segment.point_at(1000, "a request came");
    segment.point_at(2000, answer);
    if (answer.find("failed") != std::string::npos) segment.trigger(1);
}

static void print(const hindsight::Trace &trace) {
    hind_trace_info info = trace.info();
    std::printf("trace ..%02x%02x, trigger %u, %s\n", info.id.bytes[14], info.id.bytes[15], info.trigger, info.is_whole ? "whole" : "not whole");
    for (const hind_record &r : trace.records())
        std::printf("  node %u at %llu ns: %.*s\n", r.node, static_cast<unsigned long long>(r.moment), static_cast<int>(r.len), reinterpret_cast<const char *>(r.payload));
}

int main() {
    hindsight::Node node(settings, 0);
    hindsight::Hub hub(settings, 0, true);
    hind_trace_id fine = {}, failed = {};
    fine.bytes[15] = 0xa1;
    failed.bytes[15] = 0xa2;
    request(node, fine, "all is well");
    request(node, failed, "the database failed");
    carry(node, hub);
    while (hindsight::Trace trace = hub.take()) {
        print(trace);
        hub.saved(trace.info().id);
    }
}
