// Package web traces requests of net/http: those that a server answers, and those that a client sends meanwhile.
//
//	http.ListenAndServe(":8080", web.Handler(node, mux, web.Options{Number: 3, OnError: 1}))
//	client := http.Client{Transport: &web.Transport{Number: 3}}
//	request, _ := http.NewRequestWithContext(r.Context(), "GET", "http://stock/items", nil)
//
// Both speak W3C's headers, and the answer's header Hindsight-Node, which says where the trace went.
package web

import (
	"context"
	"net/http"
	"strconv"
	"time"

	"hindsight"
)

// NodeHeader is the header of an answer that names the node which gave it, in decimal.
const NodeHeader = "Hindsight-Node"

// Options say what a Handler does beside writing spans. Trigger ids and autotriggers are those of the settings; 0, and a nil pointer, are none.
type Options struct {
	Number  hindsight.NodeID // of the own node
	Name    string           // of the spans; "" is the request's method
	OnError uint8            // claims the trace of a request that was answered 500 or above, or whose handler panicked
	OnSlow  uint8            // claims the trace of a request that took Slow or longer
	Slow    time.Duration
	Latency *uint32 // the autotrigger that gets the microseconds of each request
}

type key struct{}

// span is what is open in a context.
type span struct {
	id    hindsight.SpanID
	flags byte
	state string // the tracestate that came
}

// Span is the span that a context's request has, where records of the own service may go: all zero without one.
func Span(ctx context.Context) hindsight.SpanID {
	s, _ := ctx.Value(key{}).(span)
	return s.id
}

type writer struct {
	http.ResponseWriter
	status int
}

func (w *writer) WriteHeader(status int) {
	if w.status == 0 && status >= 200 {
		w.status = status
	}
	w.ResponseWriter.WriteHeader(status)
}

func (w *writer) Write(bytes []byte) (int, error) {
	if w.status == 0 {
		w.status = http.StatusOK
	}
	return w.ResponseWriter.Write(bytes)
}

// Unwrap is for http.ResponseController.
func (w *writer) Unwrap() http.ResponseWriter { return w.ResponseWriter }

// Flush is for handlers that stream.
func (w *writer) Flush() {
	if flusher, ok := w.ResponseWriter.(http.Flusher); ok {
		flusher.Flush()
	}
}

// Handler has each request that `next` answers be a segment and a span of its trace. The context of the request has both.
func Handler(node *hindsight.Node, next http.Handler, options Options) http.Handler {
	return http.HandlerFunc(func(w http.ResponseWriter, r *http.Request) {
		began := time.Now()
		came, err := hindsight.ReadContext(r.Header.Get("Traceparent"), joined(r.Header.Values("Tracestate")))
		if err != nil {
			came = hindsight.Context{Trace: hindsight.NewTrace(), Node: hindsight.NoNode}
		}
		ctx, segment := node.Start(r.Context(), came.Trace)
		defer segment.End()
		if came.Node != hindsight.NoNode {
			segment.Crumb(came.Node)
		}
		own := span{hindsight.NewSpan(), came.Flags, joined(r.Header.Values("Tracestate"))}
		segment.SpanStart(own.id, came.Span, hindsight.Server, nameOf(r, options.Name))
		segment.SpanText(own.id, "http.request.method", r.Method)
		segment.SpanText(own.id, "url.path", r.URL.Path)
		w.Header().Set(NodeHeader, strconv.Itoa(int(options.Number)))
		answer := &writer{ResponseWriter: w}
		isDone := false
		defer func() {
			if answer.status == 0 && isDone {
				answer.status = http.StatusOK
			}
			ends(segment, own.id, answer.status, time.Since(began), options)
		}()
		next.ServeHTTP(answer, r.WithContext(context.WithValue(ctx, key{}, own)))
		isDone = true
	})
}

// ends writes the span's end. A status of 0 is that of a handler that panicked.
func ends(segment *hindsight.Segment, span hindsight.SpanID, status int, took time.Duration, options Options) {
	failed := status == 0 || status >= 500
	if status != 0 {
		segment.SpanInt(span, "http.response.status_code", int64(status))
	}
	if failed {
		segment.SpanEnd(span, hindsight.Failed, "")
	} else {
		segment.SpanEnd(span, hindsight.OK, "")
	}
	if options.Latency != nil {
		segment.Sample(*options.Latency, uint64(took.Microseconds()))
	}
	if failed && options.OnError != 0 {
		segment.Trigger(options.OnError)
	} else if options.OnSlow != 0 && took >= options.Slow {
		segment.Trigger(options.OnSlow)
	}
}

func nameOf(r *http.Request, name string) string {
	if name == "" {
		return r.Method
	}
	return name
}

// joined has several headers as one, as W3C says of tracestate.
func joined(values []string) (all string) {
	for i, value := range values {
		if i > 0 {
			all += ","
		}
		all += value
	}
	return all
}

// A Transport sends requests whose context has a segment as part of its trace: a span of the client, W3C's headers, and a crumb to the node that answers.
type Transport struct {
	Number hindsight.NodeID  // of the own node
	Base   http.RoundTripper // nil is http.DefaultTransport
}

func (t *Transport) base() http.RoundTripper {
	if t.Base == nil {
		return http.DefaultTransport
	}
	return t.Base
}

// RoundTrip is that of http.RoundTripper. A segment takes one call at a time: requests of one context go one after the other.
func (t *Transport) RoundTrip(r *http.Request) (*http.Response, error) {
	segment := hindsight.FromContext(r.Context())
	if segment == nil {
		return t.base().RoundTrip(r)
	}
	above, _ := r.Context().Value(key{}).(span)
	own := hindsight.NewSpan()
	segment.SpanStart(own, above.id, hindsight.Client, r.Method)
	segment.SpanText(own, "url.full", r.URL.Redacted())
	parent, state, err := hindsight.Context{Trace: segment.Trace(), Span: own, Flags: above.flags, Node: t.Number}.Headers(above.state)
	if err == nil {
		r = r.Clone(r.Context())
		r.Header.Set("Traceparent", parent)
		r.Header.Set("Tracestate", state)
	}
	answer, err := t.base().RoundTrip(r)
	if err != nil {
		segment.SpanEnd(own, hindsight.Failed, err.Error())
		return answer, err
	}
	segment.SpanInt(own, "http.response.status_code", int64(answer.StatusCode))
	if number, err := strconv.ParseUint(answer.Header.Get(NodeHeader), 10, 16); err == nil {
		segment.Crumb(hindsight.NodeID(number))
	}
	if answer.StatusCode >= 400 {
		segment.SpanEnd(own, hindsight.Failed, "")
	} else {
		segment.SpanEnd(own, hindsight.OK, "")
	}
	return answer, nil
}
