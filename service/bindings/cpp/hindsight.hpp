// hindsight.hpp: hindsight.h with types that close what they open. C++17, this header alone. Opening throws hindsight::Error; no call on the way of a
// record throws, and where its trace was not begun each answers HIND_INVALID, which harms nothing.
#ifndef HINDSIGHT_HPP
#define HINDSIGHT_HPP 1
#include "hindsight.h"
#include <memory>
#include <stdexcept>
#include <string>
#include <string_view>
#include <vector>

namespace hindsight {

struct Error : std::runtime_error {
    hind_code code;
    explicit Error(hind_code of) : std::runtime_error(said(of)), code(of) {}

  private:
    static std::string said(hind_code of) {
        std::uint32_t line = 0;
        if (of != HIND_SETTINGS) return hind_strerror(of);
        std::string why = hind_settings_error(&line);
        return "settings, line " + std::to_string(line) + ": " + why;
    }
};

// What a request that came with no headers carries.
inline hind_context new_context() {
    hind_context context;
    if (hind_code code = hind_new_context(&context)) throw Error(code);
    return context;
}

inline hind_trace_id new_trace() {
    hind_trace_id id;
    if (hind_code code = hind_new_trace(&id)) throw Error(code);
    return id;
}

// The node of this process. `name` is copied, and settings are read once. In `pool_file` its buffers lie, so that they outlive the process; "" is none.
class Node {
    struct Close {
        void operator()(hind_node *node) const noexcept { hind_node_close(node); }
    };
    std::unique_ptr<hind_node, Close> node_;

  public:
    Node(std::string_view settings, hind_node_id number, const std::string &name = "", std::uint64_t epoch = 0, const std::string &pool_file = "") {
        hind_node_options options = HIND_NODE_OPTIONS_INIT;
        options.node = number;
        options.epoch = epoch;
        options.settings = settings.data();
        options.settings_len = settings.size();
        options.name = name.c_str();
        if (!pool_file.empty()) options.pool_file = pool_file.c_str();
        hind_node *node = nullptr;
        if (hind_code code = hind_node_open(&options, &node)) throw Error(code);
        node_.reset(node);
    }
    hind_node *get() const noexcept { return node_.get(); }
    hind_code pass() noexcept { return hind_node_pass(get()); }
    hind_node_counts counts() const {
        hind_node_counts counts = {};
        counts.size = sizeof counts;
        if (hind_code code = hind_node_get_counts(get(), &counts)) throw Error(code);
        return counts;
    }
};

// A trace on the calling thread, from construction to the end of the scope.
class Segment {
    hind_client *client_ = nullptr;
    hind_code code_;

    void keep(hind_code code) noexcept {
        code_ = code;
        if (code_) client_ = nullptr;
    }

  public:
    Segment(hind_node *node, const hind_trace_id &trace) noexcept {
        code_ = hind_client_get(node, &client_);
        keep(code_ ? code_ : hind_begin(client_, &trace));
    }
    // The trace of a request that came, with a crumb to the node that sent it.
    Segment(hind_node *node, const hind_context &context) noexcept {
        code_ = hind_client_get(node, &client_);
        keep(code_ ? code_ : hind_begin_from(client_, &context));
    }
    Segment(const Segment &) = delete;
    Segment &operator=(const Segment &) = delete;
    ~Segment() {
        if (client_) (void)hind_end(client_);
    }
    // Whether it was begun: HIND_OK, or why it was not.
    hind_code code() const noexcept { return code_; }
    hind_client *client() const noexcept { return client_; }
    hind_code point(std::string_view payload) noexcept { return hind_point(client_, payload.data(), payload.size()); }
    hind_code point_at(std::uint64_t moment, std::string_view payload) noexcept { return hind_point_at(client_, moment, payload.data(), payload.size()); }
    // One record of several pieces.
    template <class... Pieces> hind_code points(const Pieces &...pieces) noexcept {
        const std::string_view views[] = {std::string_view(pieces)...};
        iovec all[sizeof...(pieces)];
        for (std::size_t i = 0; i < sizeof...(pieces); i++) all[i] = {const_cast<char *>(views[i].data()), views[i].size()};
        return hind_pointv(client_, all, sizeof...(pieces));
    }
    hind_code crumb(hind_node_id node) noexcept { return hind_crumb(client_, node); }
    hind_code trigger(std::uint8_t id) noexcept { return hind_trigger(client_, id, nullptr, nullptr, 0); }
    hind_code sample(std::uint32_t autotrigger, std::uint64_t value) noexcept { return hind_sample(client_, autotrigger, value); }
};

// A span of the open trace, from construction to the end of the scope.
class Span {
    hind_client *client_;
    hind_span_id id_;
    int status_ = HIND_STATUS_UNSET;

  public:
    Span(const Segment &segment, const char *name, int kind = HIND_KIND_INTERNAL, hind_span_id parent = {}) noexcept : client_(segment.client()) {
        (void)hind_new_span(&id_);
        (void)hind_span_start(client_, id_, parent, kind, name);
    }
    Span(const Span &) = delete;
    Span &operator=(const Span &) = delete;
    ~Span() { (void)hind_span_end(client_, id_, status_, nullptr); }
    hind_span_id id() const noexcept { return id_; }
    void status(int status) noexcept { status_ = status; }
    hind_code event(const char *name) noexcept { return hind_span_event(client_, id_, name); }
    hind_code attribute(const char *key, const char *value) noexcept { return hind_span_text(client_, id_, key, value); }
    hind_code attribute(const char *key, std::int64_t value) noexcept { return hind_span_int(client_, id_, key, value); }
    hind_code attribute(const char *key, double value) noexcept { return hind_span_double(client_, id_, key, value); }
    hind_code attribute(const char *key, bool value) noexcept { return hind_span_bool(client_, id_, key, value); }
};

// A trace that a hub gave.
class Trace {
    struct Free {
        void operator()(hind_trace *trace) const noexcept { hind_trace_free(trace); }
    };
    std::unique_ptr<hind_trace, Free> trace_;

  public:
    explicit Trace(hind_trace *trace = nullptr) noexcept : trace_(trace) {}
    explicit operator bool() const noexcept { return static_cast<bool>(trace_); }
    hind_trace_info info() const {
        hind_trace_info info = {};
        info.size = sizeof info;
        if (hind_code code = hind_trace_get_info(trace_.get(), &info)) throw Error(code);
        return info;
    }
    // What the records point to stands as long as the trace.
    std::vector<hind_record> records() const {
        std::vector<hind_record> all(info().records);
        for (std::size_t at = 0; at < all.size(); at++) (void)hind_trace_get_record(trace_.get(), at, &all[at]);
        return all;
    }
};

class Hub {
    struct Close {
        void operator()(hind_hub *hub) const noexcept { hind_hub_close(hub); }
    };
    std::unique_ptr<hind_hub, Close> hub_;

  public:
    // It is fresh where no hub was before it: then it is sure of the first life of each node at once.
    explicit Hub(std::string_view settings, std::uint64_t epoch = 0, bool is_fresh = false) {
        hind_hub_options options = HIND_HUB_OPTIONS_INIT;
        options.epoch = epoch;
        options.settings = settings.data();
        options.settings_len = settings.size();
        options.is_fresh = is_fresh;
        hind_hub *hub = nullptr;
        if (hind_code code = hind_hub_open(&options, &hub)) throw Error(code);
        hub_.reset(hub);
    }
    hind_hub *get() const noexcept { return hub_.get(); }
    // The next trace, or none.
    Trace take() {
        hind_trace *trace = nullptr;
        hind_code code = hind_hub_take(get(), &trace);
        if (code < 0) throw Error(code);
        return Trace(trace);
    }
    hind_code saved(const hind_trace_id &id) noexcept { return hind_hub_saved(get(), &id); }
};

} // namespace hindsight
#endif
