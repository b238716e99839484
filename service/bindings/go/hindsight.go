// Package hindsight traces a service written in Go, over libhindsight by cgo.
//
// A segment gathers what it is told, and hands it to the library as one call when it ends, when it has gathered 32 KiB, and before a trigger: a call of
// C is dear in Go. So any goroutine may hold a segment, which takes one call at a time, and what a process had gathered when it was killed is lost.
//
//	node, err := hindsight.Open(settings, 0, "shop", 0)
//	ctx, segment := node.Start(ctx, hindsight.NewTrace())
//	defer segment.End()
//	segment.Point([]byte("GET /cart"))
//
// Some goroutine has to make passes and carry messages: see Node.Pass, Node.Next and docs/SERVICE.md.
package hindsight

// #cgo pkg-config: hindsight
// #include <hindsight.h>
// #include <stdlib.h>
import "C"

import (
	"context"
	"encoding/binary"
	"runtime"
	"sync/atomic"
	"time"
	"unsafe"
)

// A TraceID is in the order of W3C's text; all zero is no trace.
type TraceID [16]byte

// A NodeID is below nodes of the settings.
type NodeID uint16

// An Error is what a call answers that did nothing.
type Error int

// The answers that a caller may want to tell apart; include/hindsight.h has all.
const (
	Invalid    Error = C.HIND_INVALID
	TooLong    Error = C.HIND_TOOLONG
	Full       Error = C.HIND_FULL
	Undeclared Error = C.HIND_UNDECLARED
	Settings   Error = C.HIND_SETTINGS
	Refused    Error = C.HIND_REFUSED
	Closed     Error = C.HIND_CLOSED
	Taken      Error = C.HIND_TAKEN
	Dry        Error = C.HIND_DRY
)

func (e Error) Error() string { return "hindsight: " + C.GoString(C.hind_strerror(C.hind_code(e))) }

// A SettingsError says in which line settings are refused, and why.
type SettingsError struct {
	Line int
	Why  string
}

func (e *SettingsError) Error() string { return "hindsight: settings: " + e.Why }
func (e *SettingsError) Unwrap() error { return Settings }

// errorOf is called on the thread that made the call.
func errorOf(code C.hind_code) error {
	if code >= 0 {
		return nil
	}
	if Error(code) != Settings {
		return Error(code)
	}
	var line C.uint32_t
	why := C.GoString(C.hind_settings_error(&line))
	return &SettingsError{int(line), why}
}

// NewTrace is a fresh random id.
func NewTrace() TraceID {
	var id C.hind_trace_id
	if C.hind_new_trace(&id) != C.HIND_OK {
		panic("hindsight: the system gives no random bytes")
	}
	return *(*TraceID)(unsafe.Pointer(&id))
}

// ---- the node

// A Node is the node of this process.
type Node struct {
	at         *C.hind_node
	clients    chan *C.hind_client
	lost       atomic.Uint64
	isBorrowed bool // somebody else closes the node
}

// Open opens a node, with an epoch above those of its lives before; 0 is the clock's.
func Open(settings string, number NodeID, name string, epoch uint64) (*Node, error) {
	return OpenWith(Options{Settings: settings, Number: number, Name: name, Epoch: epoch})
}

// Options say how a node is opened. In PoolFile its buffers lie, so that they outlive the process; "" is none.
type Options struct {
	Settings, Name, PoolFile string
	Number                   NodeID
	Epoch                    uint64
}

// OpenWith opens a node by these options.
func OpenWith(of Options) (*Node, error) {
	runtime.LockOSThread()
	defer runtime.UnlockOSThread()
	text, called := C.CString(of.Settings), C.CString(of.Name)
	defer C.free(unsafe.Pointer(text))
	defer C.free(unsafe.Pointer(called))
	options := (*C.hind_node_options)(C.calloc(1, C.sizeof_hind_node_options))
	defer C.free(unsafe.Pointer(options))
	options.size, options.abi = C.sizeof_hind_node_options, C.HIND_ABI
	options.node, options.epoch, options.name = C.hind_node_id(of.Number), C.uint64_t(of.Epoch), called
	options.settings, options.settings_len = text, C.size_t(len(of.Settings))
	if of.PoolFile != "" {
		options.pool_file = C.CString(of.PoolFile)
		defer C.free(unsafe.Pointer(options.pool_file))
	}
	node := &Node{}
	if err := errorOf(C.hind_node_open(options, &node.at)); err != nil {
		return nil, err
	}
	node.takeClients()
	return node, nil
}

// takeClients takes all clients of the settings, which goroutines share.
func (n *Node) takeClients() {
	var taken []*C.hind_client
	for {
		var client *C.hind_client
		if C.hind_client_open(n.at, &client) != C.HIND_OK {
			break
		}
		taken = append(taken, client)
	}
	n.clients = make(chan *C.hind_client, len(taken))
	for _, client := range taken {
		n.clients <- client
	}
}

// Close closes the node once no segment is being written. What was not handed out is lost. No other call may follow.
func (n *Node) Close() error {
	for i := 0; i < cap(n.clients); i++ {
		C.hind_client_close(<-n.clients)
	}
	if n.isBorrowed {
		return nil
	}
	return errorOf(C.hind_node_close(n.at))
}

// Lost is how many calls of segments were refused.
func (n *Node) Lost() uint64 { return n.lost.Load() }

// Pass makes one pass: whether a message is to be handed out.
func (n *Node) Pass() (bool, error) {
	code := C.hind_node_pass(n.at)
	return code == C.HIND_OK, errorOf(code)
}

// Next copies the next message that is to be handed out, and counts it as sent; ok says whether there is one. One goroutine at a time calls it.
func (n *Node) Next() (number uint64, message []byte, ok bool) {
	var m C.hind_message
	if C.hind_node_next(n.at, &m) != C.HIND_OK {
		return 0, nil, false
	}
	message = C.GoBytes(unsafe.Pointer(m.bytes), C.int(m.len))
	C.hind_node_sent(n.at, m.number)
	return uint64(m.number), message, true
}

// Acknowledged says that whoever carries the message keeps it safe from now on.
func (n *Node) Acknowledged(number uint64) { C.hind_node_acknowledged(n.at, C.uint64_t(number)) }

// Again has all that was not acknowledged handed out anew.
func (n *Node) Again() { C.hind_node_again(n.at) }

// Deliver takes a message of the hub.
func (n *Node) Deliver(message []byte) error {
	return errorOf(C.hind_node_deliver(n.at, bytesOf(message), C.size_t(len(message))))
}

func bytesOf(bytes []byte) unsafe.Pointer {
	if len(bytes) == 0 {
		return nil
	}
	return unsafe.Pointer(&bytes[0])
}

// write makes one segment of a trace: begin, the calls, which end at these places, and end. What is refused is left out and counted.
func (n *Node) write(calls []byte, ends []int) {
	client := <-n.clients
	defer func() { n.clients <- client }()
	for at := 0; at < len(ends); {
		from := 0
		if at > 0 {
			from = ends[at-1]
		}
		var done C.size_t
		code := C.hind_write(client, bytesOf(calls[from:]), C.size_t(len(calls)-from), &done, nil)
		at += int(done)
		if code == C.HIND_OK {
			return
		}
		// an end that found no place left a trace open: it is tried again
		if code == C.HIND_OPEN && C.hind_end(client) == C.HIND_OK {
			continue
		}
		if at == 0 {
			n.lost.Add(uint64(len(ends)))
			return
		}
		n.lost.Add(1)
		at++
	}
}

// ---- segments

// A Segment is what one goroutine does on a trace. A nil segment takes each call and does nothing.
type Segment struct {
	node  *Node
	trace TraceID
	calls []byte
	ends  []int
}

const gathered = 32768

type key struct{}

// Start begins a segment of the trace; the context that it answers has it.
func (n *Node) Start(ctx context.Context, trace TraceID) (context.Context, *Segment) {
	s := &Segment{node: n, trace: trace}
	return context.WithValue(ctx, key{}, s), s
}

// FromContext is the segment of a context, or nil.
func FromContext(ctx context.Context) *Segment {
	s, _ := ctx.Value(key{}).(*Segment)
	return s
}

func (s *Segment) put(parts ...[]byte) {
	if len(s.ends) == 0 {
		s.calls = append(append(s.calls[:0], 'B'), s.trace[:]...)
		s.ends = append(s.ends, len(s.calls))
	}
	for _, part := range parts {
		s.calls = append(s.calls, part...)
	}
	s.ends = append(s.ends, len(s.calls))
	if len(s.calls) >= gathered {
		s.Flush()
	}
}

// Flush hands what was gathered to the library, as a segment of its own.
func (s *Segment) Flush() {
	if s == nil || len(s.ends) == 0 {
		return
	}
	s.calls = append(s.calls, 'E')
	s.ends = append(s.ends, len(s.calls))
	s.node.write(s.calls, s.ends)
	s.calls, s.ends = s.calls[:0], s.ends[:0]
}

// End hands over what was gathered.
func (s *Segment) End() { s.Flush() }

// Trace is the segment's trace.
func (s *Segment) Trace() TraceID {
	if s == nil {
		return TraceID{}
	}
	return s.trace
}

// Point records bytes now.
func (s *Segment) Point(payload []byte) error { return s.PointAt(time.Now(), payload) }

// PointAt records bytes at a moment.
func (s *Segment) PointAt(moment time.Time, payload []byte) error {
	if len(payload) > 65535 {
		return TooLong
	}
	if s == nil {
		return nil
	}
	head := [11]byte{'P'}
	binary.BigEndian.PutUint64(head[1:], uint64(moment.UnixNano()))
	binary.BigEndian.PutUint16(head[9:], uint16(len(payload)))
	s.put(head[:], payload)
	return nil
}

// Crumb says that the trace goes on at, or came from, a node.
func (s *Segment) Crumb(node NodeID) {
	if s != nil {
		s.put([]byte{'C', byte(node >> 8), byte(node)})
	}
}

// Sample gives a value for an autotrigger.
func (s *Segment) Sample(autotrigger uint32, value uint64) {
	if s == nil {
		return
	}
	call := [13]byte{'S'}
	binary.BigEndian.PutUint32(call[1:], autotrigger)
	binary.BigEndian.PutUint64(call[5:], value)
	s.put(call[:])
}

// Trigger claims the trace, and up to 32 others.
func (s *Segment) Trigger(trigger uint8, laterals ...TraceID) error {
	if len(laterals) > 32 {
		return Invalid
	}
	if s == nil {
		return nil
	}
	call := append([]byte{'T', trigger}, s.trace[:]...)
	call = append(call, byte(len(laterals)))
	for _, lateral := range laterals {
		call = append(call, lateral[:]...)
	}
	s.put(call)
	s.Flush()
	return nil
}
