package hindsight

// #include <hindsight.h>
// #include <stdlib.h>
// #include <string.h>
//
// typedef struct { char *bytes; size_t len; } taken_line;
// static void take_line(void *closure, const char *line, size_t len) {
//     taken_line *to = closure;
//     to->bytes = malloc(len);
//     to->len = to->bytes ? len : 0;
//     if (to->bytes) memcpy(to->bytes, line, len);
// }
// static hind_code otlp_of(const hind_trace *trace, taken_line *to) { return hind_trace_otlp(trace, take_line, to); }
import "C"

import (
	"runtime"
	"unsafe"
)

// A Hub hears the nodes of a service and gives traces out. It takes one call at a time.
type Hub struct{ at *C.hind_hub }

// OpenHub opens a hub, with an epoch above those of its lives before; 0 is the clock's. It calls no trace whole before it was sure of the
// trace's nodes for half a minute.
func OpenHub(settings string, epoch uint64) (*Hub, error) { return openHub(settings, epoch, 0) }

// OpenFreshHub opens the first hub of a service: it is sure of the first life of each node at once.
func OpenFreshHub(settings string, epoch uint64) (*Hub, error) { return openHub(settings, epoch, 1) }

func openHub(settings string, epoch uint64, isFresh uint32) (*Hub, error) {
	runtime.LockOSThread()
	defer runtime.UnlockOSThread()
	text := C.CString(settings)
	defer C.free(unsafe.Pointer(text))
	options := (*C.hind_hub_options)(C.calloc(1, C.sizeof_hind_hub_options))
	defer C.free(unsafe.Pointer(options))
	options.size, options.abi, options.epoch = C.sizeof_hind_hub_options, C.HIND_ABI, C.uint64_t(epoch)
	options.settings, options.settings_len, options.is_fresh = text, C.size_t(len(settings)), C.uint32_t(isFresh)
	hub := &Hub{}
	if err := errorOf(C.hind_hub_open(options, &hub.at)); err != nil {
		return nil, err
	}
	return hub, nil
}

// Close closes the hub. No other call may follow.
func (h *Hub) Close() error { return errorOf(C.hind_hub_close(h.at)) }

// Deliver takes a message of a node: whether it may be acknowledged at once.
func (h *Hub) Deliver(message []byte) (bool, error) {
	code := C.hind_hub_deliver(h.at, bytesOf(message), C.size_t(len(message)))
	return code == C.HIND_OK, errorOf(code)
}

// Next copies the next ask, with the node that it goes to, and counts it as sent; ok says whether there is one.
func (h *Hub) Next() (to NodeID, ask []byte, ok bool) {
	var m C.hind_message
	if C.hind_hub_next(h.at, &m) != C.HIND_OK {
		return 0, nil, false
	}
	return NodeID(m.to), C.GoBytes(unsafe.Pointer(m.bytes), C.int(m.len)), true
}

// Pass says that a pass goes by, which is what a hub counts time in.
func (h *Hub) Pass() error { return errorOf(C.hind_hub_pass(h.at)) }

// A Record is what a segment wrote.
type Record struct {
	Node                                     NodeID
	Client                                   uint16
	Epoch, Core, Number, Missing, Nanosecond uint64
	Payload                                  []byte
}

// A Trace is one that a hub gave, with its records in order.
type Trace struct {
	ID      TraceID
	Part    uint32
	Trigger uint8
	Whole   bool
	Records []Record
	OTLP    []byte // a line of OTLP's JSON, with its newline
}

// Take gives the next trace, or nil. Until it is called saved, it is given again.
func (h *Hub) Take() (*Trace, error) {
	var at *C.hind_trace
	if err := errorOf(C.hind_hub_take(h.at, &at)); err != nil || at == nil {
		return nil, err
	}
	defer C.hind_trace_free(at)
	var info C.hind_trace_info
	info.size = C.sizeof_hind_trace_info
	C.hind_trace_get_info(at, &info)
	trace := &Trace{ID: *(*TraceID)(unsafe.Pointer(&info.id)), Part: uint32(info.part), Trigger: uint8(info.trigger), Whole: info.is_whole != 0}
	for place := C.size_t(0); place < info.records; place++ {
		var r C.hind_record
		C.hind_trace_get_record(at, place, &r)
		trace.Records = append(trace.Records, Record{NodeID(r.node), uint16(r.client), uint64(r.epoch), uint64(r.core), uint64(r.number), uint64(r.missing), uint64(r.moment),
			C.GoBytes(unsafe.Pointer(r.payload), C.int(r.len))})
	}
	var line C.taken_line
	if err := errorOf(C.otlp_of(at, &line)); err != nil {
		return nil, err
	}
	trace.OTLP = C.GoBytes(unsafe.Pointer(line.bytes), C.int(line.len))
	C.free(unsafe.Pointer(line.bytes))
	return trace, nil
}

// Saved says that a trace is safe elsewhere: whether it was the one that was given last.
func (h *Hub) Saved(trace TraceID) bool {
	return C.hind_hub_saved(h.at, (*C.hind_trace_id)(unsafe.Pointer(&trace))) == C.HIND_OK
}
