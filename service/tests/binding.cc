// The C++ header: what is begun is ended, what is opened is closed, and what is refused is thrown or harmless.
#include "hindsight.hpp"
#include <cstdio>
#include <cstring>
#include <unistd.h>

static int failed;

#define HOLDS(what) holds(__LINE__, #what, what)
static void holds(int line, const char *what, bool is) {
    if (is) return;
    std::fprintf(stderr, "binding.cc:%d: %s\n", line, what);
    failed++;
}

static const char settings[] = "nodes 1\nbuffers 1024\ntriggerid 1\nauto 0 exception 1\n";

static void carry(hindsight::Node &node, hindsight::Hub &hub) {
    hind_message m;
    for (int pass = 0; pass < 10; pass++) {
        (void)node.pass();
        while (hind_node_next(node.get(), &m) == HIND_OK && hind_hub_deliver(hub.get(), m.bytes, m.len) >= 0) {
            (void)hind_node_sent(node.get(), m.number);
            (void)hind_node_acknowledged(node.get(), m.number);
        }
        while (hind_hub_next(hub.get(), &m) == HIND_OK) (void)hind_node_deliver(node.get(), m.bytes, m.len);
        (void)hind_hub_pass(hub.get());
    }
}

static void request(hindsight::Node &node, const hind_trace_id &id, bool fails) {
    hindsight::Segment segment(node.get(), id);
    HOLDS(segment.code() == HIND_OK);
    HOLDS(segment.point_at(7, "a record") == HIND_OK);
    HOLDS(segment.points("two ", std::string("pieces"), std::string_view()) == HIND_OK);
    {
        hindsight::Span span(segment, "GET /", HIND_KIND_SERVER);
        HOLDS(span.event("began") == HIND_OK && span.attribute("text", "x") == HIND_OK && span.attribute("whole", std::int64_t{-1}) == HIND_OK);
        HOLDS(span.attribute("real", 0.5) == HIND_OK && span.attribute("truth", true) == HIND_OK);
        span.status(HIND_STATUS_ERROR);
    }
    HOLDS(segment.crumb(1) == HIND_UNDECLARED && segment.sample(7, 1) == HIND_UNDECLARED);
    if (fails) HOLDS(segment.trigger(1) == HIND_OK);
    // one is open on this thread: what the second one writes goes nowhere
    hindsight::Segment second(node.get(), id);
    HOLDS(second.code() == HIND_OPEN && second.point("x") == HIND_INVALID && !second.client());
}

static void is_thrown(const char *text, hind_node_id number, hind_code code, const char *says) {
    try {
        hindsight::Node node(text, number);
        HOLDS(false);
    } catch (const hindsight::Error &error) {
        HOLDS(error.code == code && std::strstr(error.what(), says));
    }
}

// A header of 24 bytes and two records of 10 beside 10 are a page of 64 bytes: four buffers take eight records.
static void empty_pool() {
    hindsight::Node node("nodes 1\nclients 1\nbuffers 4\nsize 64\nthreshold 1\npins 1\ntriggerid 1\n", 0);
    hindsight::Segment segment(node.get(), hindsight::new_trace());
    for (int i = 0; i < 8; i++) HOLDS(segment.point("0123456789") == HIND_OK);
    HOLDS(segment.point("0123456789") == HIND_DRY && segment.code() == HIND_OK);
}

// The buffers of a node lie in its file.
static void pool_file() {
    std::string pool = "/dev/shm/hindsight-binding-" + std::to_string(getpid());
    hindsight::Node node(settings, 0, "one", 1, pool);
    HOLDS(!access(pool.c_str(), F_OK));
    try {
        hindsight::Node other(settings, 0, "two", 2, pool);
        HOLDS(false);
    } catch (const hindsight::Error &error) {
        HOLDS(error.code == HIND_TAKEN);
    }
    unlink(pool.c_str());
}

int main() {
    empty_pool();
    pool_file();
    hindsight::Node node(settings, 0, "one");
    hindsight::Hub hub(settings, 0, true);
    hind_trace_id id = hindsight::new_trace();
    request(node, hindsight::new_trace(), false);
    request(node, id, true);
    HOLDS(!hub.take());
    carry(node, hub);
    hindsight::Trace trace = hub.take();
    HOLDS(static_cast<bool>(trace));
    hind_trace_info info = trace.info();
    HOLDS(!std::memcmp(&info.id, &id, sizeof id) && info.is_whole);
    std::vector<hind_record> records = trace.records();
    HOLDS(records.size() == 9 && records[0].moment == 7 && std::string_view(reinterpret_cast<const char *>(records[0].payload), records[0].len) == "a record");
    HOLDS(std::string_view(reinterpret_cast<const char *>(records[1].payload), records[1].len) == "two pieces");
    HOLDS(node.counts().points == 18 && hindsight::new_context().node == HIND_NO_NODE);
    hind_span_record span;
    HOLDS(hind_read_span(records[8].payload, records[8].len, &span) && span.what == HIND_SPAN_END && span.status == HIND_STATUS_ERROR);
    HOLDS(hub.saved(id) == HIND_OK && !hub.take());
    is_thrown("nodes 0\n", 0, HIND_SETTINGS, "line 1");
    is_thrown(settings, 1, HIND_UNDECLARED, "no node");
    return failed != 0;
}
