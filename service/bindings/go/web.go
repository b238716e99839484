package hindsight

// #include <hindsight.h>
// #include <stdlib.h>
import "C"

import (
	"encoding/binary"
	"unsafe"
)

// NoNode is the node of a context that names none.
const NoNode NodeID = C.HIND_NO_NODE

// NodeOf is the node of a hind_node that something else opened, as the package nats does. Its Close gives the clients back, and leaves the node to
// whoever opened it.
func NodeOf(at unsafe.Pointer) *Node {
	node := &Node{at: (*C.hind_node)(at), isBorrowed: true}
	node.takeClients()
	return node
}

// ---- the headers traceparent and tracestate of W3C

// A SpanID tells a span from the others of its trace; all zero is none.
type SpanID [8]byte

// NewSpan is a fresh random id.
func NewSpan() SpanID {
	var id C.hind_span_id
	if C.hind_new_span(&id) != C.HIND_OK {
		panic("hindsight: the system gives no random bytes")
	}
	return *(*SpanID)(unsafe.Pointer(&id))
}

// A Context is what a request carries: its trace, the span of who sent it, the flags of traceparent, and the node that sent it, or NoNode.
type Context struct {
	Trace TraceID
	Span  SpanID
	Flags byte
	Node  NodeID
}

// ReadContext reads the two headers. Where W3C calls traceparent invalid it answers Invalid: then start a trace of your own.
func ReadContext(traceparent, tracestate string) (Context, error) {
	var context C.hind_context
	parent, state := C.CString(traceparent), C.CString(tracestate)
	defer C.free(unsafe.Pointer(parent))
	defer C.free(unsafe.Pointer(state))
	if err := errorOf(C.hind_context_read(parent, state, &context)); err != nil {
		return Context{Node: NoNode}, err
	}
	return Context{*(*TraceID)(unsafe.Pointer(&context.trace)), *(*SpanID)(unsafe.Pointer(&context.span)), byte(context.flags), NodeID(context.node)}, nil
}

// Headers writes the two headers for the next hop, the second in front of the entries of a tracestate that came.
func (c Context) Headers(before string) (traceparent, tracestate string, err error) {
	var parent [C.HIND_TRACEPARENT_SIZE]C.char
	var state [C.HIND_TRACESTATE_SIZE]C.char
	context := C.hind_context{flags: C.uint8_t(c.Flags), node: C.hind_node_id(c.Node)}
	*(*TraceID)(unsafe.Pointer(&context.trace)) = c.Trace
	*(*SpanID)(unsafe.Pointer(&context.span)) = c.Span
	came := C.CString(before)
	defer C.free(unsafe.Pointer(came))
	if err := errorOf(C.hind_context_write(&context, came, &parent[0], &state[0])); err != nil {
		return "", "", err
	}
	return C.GoString(&parent[0]), C.GoString(&state[0]), nil
}

// ---- the span profile (docs/FORMATS.md)

// Kinds and states of a span.
const (
	Internal, Server, Client, Producer, Consumer = 1, 2, 3, 4, 5
	Unset, OK, Failed                            = 0, 1, 2
)

const mostText, mostValue = 255, 4096

// cut is the front of a text, never ending inside a character.
func cut(text string, most int) string {
	if len(text) <= most {
		return text
	}
	for most > 0 && text[most]&0xc0 == 0x80 {
		most--
	}
	return text[:most]
}

func (s *Segment) span(what byte, span SpanID, said ...byte) {
	if s != nil && span != (SpanID{}) {
		s.Point(append(append([]byte{0, what}, span[:]...), said...))
	}
}

// SpanStart records that a span begins now. A parent of all zero is none.
func (s *Segment) SpanStart(span, parent SpanID, kind byte, name string) {
	s.span('S', span, append(append(parent[:], kind), cut(name, mostText)...)...)
}

// SpanEnd records that it ends.
func (s *Segment) SpanEnd(span SpanID, status byte, message string) {
	s.span('E', span, append([]byte{status}, cut(message, mostText)...)...)
}

// SpanEvent records that something happens in it.
func (s *Segment) SpanEvent(span SpanID, name string) {
	s.span('V', span, []byte(cut(name, mostText))...)
}

// SpanText gives it an attribute. A key that is empty is none.
func (s *Segment) SpanText(span SpanID, key, value string) {
	s.attribute(span, 0, key, []byte(cut(value, mostValue)))
}

// SpanInt gives it an attribute.
func (s *Segment) SpanInt(span SpanID, key string, value int64) {
	var bytes [8]byte
	binary.BigEndian.PutUint64(bytes[:], uint64(value))
	s.attribute(span, 1, key, bytes[:])
}

func (s *Segment) attribute(span SpanID, kind byte, key string, value []byte) {
	if key = cut(key, mostText); key != "" {
		s.span('A', span, append(append([]byte{kind, byte(len(key))}, key...), value...)...)
	}
}
