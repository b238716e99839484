package main

import (
	"bufio"
	"context"
	"encoding/binary"
	"errors"
	"fmt"
	"net"
	"net/url"
	"strings"
	"sync"

	"go.opentelemetry.io/otel/attribute"
	"go.opentelemetry.io/otel/codes"
	sdk "go.opentelemetry.io/otel/sdk/trace"
)

// ---- OTLP's protobuf (opentelemetry/proto/trace/v1/trace.proto), in buffers that are used again for each batch

const (
	varint, fixed64, bytesOf = 0, 1, 2 // wire types
	subject                  = "ship.otlp"
)

func putVarint(to []byte, n uint64) []byte { return binary.AppendUvarint(to, n) }

func putNumber(to []byte, field int, n uint64) []byte {
	if n == 0 {
		return to
	}
	return putVarint(putVarint(to, uint64(field)<<3|varint), n)
}

func putFixed(to []byte, field int, n uint64) []byte {
	return binary.LittleEndian.AppendUint64(putVarint(to, uint64(field)<<3|fixed64), n)
}

func putBytes(to []byte, field int, bytes []byte) []byte {
	return append(putVarint(putVarint(to, uint64(field)<<3|bytesOf), uint64(len(bytes))), bytes...)
}

func putText(to []byte, field int, text string) []byte {
	if text == "" {
		return to
	}
	return append(putVarint(putVarint(to, uint64(field)<<3|bytesOf), uint64(len(text))), text...)
}

// stateOf is OTLP's number of a state, which is not that of OpenTelemetry's types for Go.
var stateOf = [...]uint64{codes.Unset: 0, codes.Ok: 1, codes.Error: 2}

// An encoder has a buffer for each depth of the message.
type encoder struct{ batch, resource, scope, span, pair, value []byte }

func (e *encoder) putAttributes(to []byte, field int, all []attribute.KeyValue) []byte {
	for _, one := range all {
		e.value = e.value[:0]
		switch one.Value.Type() {
		case attribute.INT64:
			e.value = putVarint(putVarint(e.value, 3<<3|varint), uint64(one.Value.AsInt64()))
		default:
			e.value = putText(e.value, 1, one.Value.Emit())
		}
		e.pair = putBytes(putText(e.pair[:0], 1, string(one.Key)), 2, e.value)
		to = putBytes(to, field, e.pair)
	}
	return to
}

func (e *encoder) putSpan(to []byte, s sdk.ReadOnlySpan) []byte {
	context, parent := s.SpanContext(), s.Parent()
	trace, id, above := context.TraceID(), context.SpanID(), parent.SpanID()
	e.span = putBytes(e.span[:0], 1, trace[:])
	e.span = putBytes(e.span, 2, id[:])
	e.span = putText(e.span, 3, context.TraceState().String())
	if above.IsValid() {
		e.span = putBytes(e.span, 4, above[:])
	}
	e.span = putText(e.span, 5, s.Name())
	e.span = putNumber(e.span, 6, uint64(s.SpanKind()))
	e.span = putFixed(e.span, 7, uint64(s.StartTime().UnixNano()))
	e.span = putFixed(e.span, 8, uint64(s.EndTime().UnixNano()))
	e.span = e.putAttributes(e.span, 9, s.Attributes())
	status := s.Status()
	e.pair = putText(e.pair[:0], 2, status.Description)
	e.pair = putNumber(e.pair, 3, stateOf[status.Code])
	e.span = putBytes(e.span, 15, e.pair)
	return putBytes(to, 2, e.span)
}

// encode is an ExportTraceServiceRequest: one resource, one scope, and the spans.
func (e *encoder) encode(spans []sdk.ReadOnlySpan) []byte {
	e.scope = putText(e.scope[:0], 1, spans[0].InstrumentationLibrary().Name)
	e.scope = putBytes(nil, 1, e.scope)
	for _, s := range spans {
		e.scope = e.putSpan(e.scope, s)
	}
	e.resource = putBytes(e.resource[:0], 1, e.putAttributes(nil, 1, spans[0].Resource().Attributes()))
	e.resource = putBytes(e.resource, 2, e.scope)
	e.batch = putBytes(e.batch[:0], 1, e.resource)
	return e.batch
}

// ---- the broker: a connection that publishes, by the protocol of NATS

// An exporter publishes each batch as one message.
type exporter struct {
	encoder
	mu sync.Mutex // of what is written
	to net.Conn
}

func (x *exporter) connect(broker string) error {
	at, err := url.Parse(broker)
	if err != nil {
		return err
	}
	to, err := net.Dial("tcp", at.Host)
	if err != nil {
		return err
	}
	from := bufio.NewReader(to)
	if _, err := from.ReadString('\n'); err != nil { // INFO
		return err
	}
	if _, err := to.Write([]byte("CONNECT {\"verbose\":false,\"pedantic\":false}\r\nPING\r\n")); err != nil {
		return err
	}
	if line, err := from.ReadString('\n'); err != nil || !strings.HasPrefix(line, "PONG") {
		return fmt.Errorf("the broker said %q: %v", line, err)
	}
	x.mu.Lock()
	x.to = to
	x.mu.Unlock()
	go x.listen(from)
	return nil
}

// listen answers the broker's pings.
func (x *exporter) listen(from *bufio.Reader) {
	for {
		line, err := from.ReadString('\n')
		if err != nil {
			return
		}
		if strings.HasPrefix(line, "PING") {
			x.mu.Lock()
			x.to.Write([]byte("PONG\r\n"))
			x.mu.Unlock()
		}
	}
}

// ExportSpans is called for one batch at a time.
func (x *exporter) ExportSpans(_ context.Context, spans []sdk.ReadOnlySpan) error {
	batch := x.encode(spans)
	x.mu.Lock()
	defer x.mu.Unlock()
	if x.to == nil {
		return errors.New("the broker is not there")
	}
	parts := net.Buffers{[]byte(fmt.Sprintf("PUB %s %d\r\n", subject, len(batch))), batch, []byte("\r\n")}
	_, err := parts.WriteTo(x.to)
	return err
}

// Shutdown leaves the connection to the process's end.
func (x *exporter) Shutdown(context.Context) error { return nil }
