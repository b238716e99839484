package main

import (
	"encoding/hex"
	"strings"
	"testing"
	"time"

	"go.opentelemetry.io/otel/attribute"
	"go.opentelemetry.io/otel/codes"
	"go.opentelemetry.io/otel/sdk/instrumentation"
	"go.opentelemetry.io/otel/sdk/resource"
	sdk "go.opentelemetry.io/otel/sdk/trace"
	"go.opentelemetry.io/otel/sdk/trace/tracetest"
	"go.opentelemetry.io/otel/trace"
)

// The bytes of one span that failed, by trace.proto and protobuf's wire format, worked by hand.
const wanted = `
	0a 9301                                                    1: resource_spans, 147 bytes
	  0a 1a                                                    1: resource
	    0a 18                                                  1: attributes
	      0a 0c 73 65 72 76 69 63 65 2e 6e 61 6d 65            1: key, service.name
	      12 08 0a 06 6d 69 64 64 6c 65                        2: value, 1: middle
	  12 75                                                    2: scope_spans, 117 bytes
	    0a 06 0a 04 73 68 6f 70                                1: scope, 1: name, shop
	    12 6b                                                  2: spans, 107 bytes
	      0a 10 01 02 03 04 05 06 07 08 09 0a 0b 0c 0d 0e 0f 10  1: trace_id
	      12 08 11 12 13 14 15 16 17 18                        2: span_id
	      1a 0b 68 69 6e 64 3d 31 2d 30 30 30 30               3: trace_state, hind=1-0000
	      22 08 21 22 23 24 25 26 27 28                        4: parent_span_id
	      2a 0c 47 45 54 20 2f 72 65 73 65 72 76 65            5: name, GET /reserve
	      30 02                                                6: kind, a server's
	      39 01 00 00 00 00 00 00 00                           7: start_time_unix_nano
	      41 02 01 00 00 00 00 00 00                           8: end_time_unix_nano
	      4a 0b 0a 04 69 74 65 6d 12 03 0a 01 37               9: attributes, 1: item, 2: 1: 7
	      7a 07 12 03 62 61 64 18 02                           15: status, 2: bad, 3: an error
`

func TestBytes(t *testing.T) {
	text := ""
	for _, line := range strings.Split(wanted, "\n") {
		bytes, _, _ := strings.Cut(strings.TrimSpace(line), "  ")
		text += strings.ReplaceAll(bytes, " ", "")
	}
	bytes, err := hex.DecodeString(text)
	if err != nil {
		t.Fatal(err)
	}
	state, err := trace.ParseTraceState("hind=1-0000")
	if err != nil {
		t.Fatal(err)
	}
	id := trace.TraceID{1, 2, 3, 4, 5, 6, 7, 8, 9, 10, 11, 12, 13, 14, 15, 16}
	span := tracetest.SpanStub{
		Name:                   "GET /reserve",
		SpanContext:            trace.NewSpanContext(trace.SpanContextConfig{TraceID: id, SpanID: trace.SpanID{17, 18, 19, 20, 21, 22, 23, 24}, TraceState: state}),
		Parent:                 trace.NewSpanContext(trace.SpanContextConfig{TraceID: id, SpanID: trace.SpanID{33, 34, 35, 36, 37, 38, 39, 40}}),
		SpanKind:               trace.SpanKindServer,
		StartTime:              time.Unix(0, 1),
		EndTime:                time.Unix(0, 258),
		Attributes:             []attribute.KeyValue{attribute.String("item", "7")},
		Status:                 sdk.Status{Code: codes.Error, Description: "bad"},
		Resource:               resource.NewSchemaless(attribute.String("service.name", "middle")),
		InstrumentationLibrary: instrumentation.Library{Name: "shop"},
	}
	var e encoder
	for i := 0; i < 2; i++ { // what was used before leaves nothing
		if found := e.encode([]sdk.ReadOnlySpan{span.Snapshot()}); hex.EncodeToString(found) != hex.EncodeToString(bytes) {
			t.Errorf("%x\nis not\n%x", found, bytes)
		}
	}
}
