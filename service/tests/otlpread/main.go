// Otlpread reads files of OTLP's JSON, a TracesData in each line, by the published schema (opentelemetry/proto/trace/v1/trace.proto and its JSON mapping):
// names in lowerCamelCase, ids in hexadecimal, enums as numbers, 64-bit numbers as decimal text. It knows each field of the schema and refuses any other.
// Ids, kinds and states go through OpenTelemetry's own types, those of Debian's golang-opentelemetry-otel-dev.
//
//	otlpread FILE..      one line of counts; status 1 where a line is malformed, which is said
package main

import (
	"bufio"
	"bytes"
	"encoding/base64"
	"encoding/json"
	"errors"
	"fmt"
	"math"
	"os"
	"strconv"
	"unicode/utf8"

	"go.opentelemetry.io/otel/attribute"
	"go.opentelemetry.io/otel/codes"
	"go.opentelemetry.io/otel/trace"
)

type (
	traceID  [16]byte
	spanID   [8]byte
	number64 uint64 // fixed64 and int64: decimal text
	real     float64
	bytes64  []byte
)

func (t *traceID) UnmarshalText(text []byte) error {
	id, err := trace.TraceIDFromHex(string(text))
	*t = traceID(id)
	return err
}

func (s *spanID) UnmarshalText(text []byte) error {
	if len(text) == 0 {
		return nil
	}
	id, err := trace.SpanIDFromHex(string(text))
	*s = spanID(id)
	return err
}

func (n *number64) UnmarshalText(text []byte) (err error) {
	signed, err := strconv.ParseInt(string(text), 10, 64)
	if err == nil && strconv.FormatInt(signed, 10) != string(text) {
		return errors.New("another spelling of a number")
	}
	if err == nil {
		*n = number64(signed)
		return nil
	}
	unsigned, err := strconv.ParseUint(string(text), 10, 64)
	*n = number64(unsigned)
	return err
}

func (r *real) UnmarshalJSON(text []byte) error {
	switch string(text) {
	case `"NaN"`:
		*r = real(math.NaN())
		return nil
	case `"Infinity"`, `"-Infinity"`:
		*r = real(math.Inf(1))
		return nil
	}
	return json.Unmarshal(text, (*float64)(r))
}

func (b *bytes64) UnmarshalText(text []byte) (err error) {
	*b, err = base64.StdEncoding.DecodeString(string(text))
	return err
}

type anyValue struct {
	StringValue *string   `json:"stringValue"`
	BoolValue   *bool     `json:"boolValue"`
	IntValue    *number64 `json:"intValue"`
	DoubleValue *real     `json:"doubleValue"`
	BytesValue  *bytes64  `json:"bytesValue"`
	ArrayValue  *struct {
		Values []anyValue `json:"values"`
	} `json:"arrayValue"`
	KvlistValue *struct {
		Values []keyValue `json:"values"`
	} `json:"kvlistValue"`
}

type keyValue struct {
	Key   string    `json:"key"`
	Value *anyValue `json:"value"`
}

type event struct {
	TimeUnixNano           *number64  `json:"timeUnixNano"`
	Name                   string     `json:"name"`
	Attributes             []keyValue `json:"attributes"`
	DroppedAttributesCount uint32     `json:"droppedAttributesCount"`
}

type link struct {
	TraceID                traceID    `json:"traceId"`
	SpanID                 spanID     `json:"spanId"`
	TraceState             string     `json:"traceState"`
	Attributes             []keyValue `json:"attributes"`
	DroppedAttributesCount uint32     `json:"droppedAttributesCount"`
	Flags                  uint32     `json:"flags"`
}

type status struct {
	Message string `json:"message"`
	Code    uint32 `json:"code"`
}

type span struct {
	TraceID                traceID    `json:"traceId"`
	SpanID                 spanID     `json:"spanId"`
	TraceState             string     `json:"traceState"`
	ParentSpanID           spanID     `json:"parentSpanId"`
	Flags                  uint32     `json:"flags"`
	Name                   string     `json:"name"`
	Kind                   uint32     `json:"kind"`
	StartTimeUnixNano      *number64  `json:"startTimeUnixNano"`
	EndTimeUnixNano        *number64  `json:"endTimeUnixNano"`
	Attributes             []keyValue `json:"attributes"`
	DroppedAttributesCount uint32     `json:"droppedAttributesCount"`
	Events                 []event    `json:"events"`
	DroppedEventsCount     uint32     `json:"droppedEventsCount"`
	Links                  []link     `json:"links"`
	DroppedLinksCount      uint32     `json:"droppedLinksCount"`
	Status                 *status    `json:"status"`
}

type scopeSpans struct {
	Scope *struct {
		Name                   string     `json:"name"`
		Version                string     `json:"version"`
		Attributes             []keyValue `json:"attributes"`
		DroppedAttributesCount uint32     `json:"droppedAttributesCount"`
	} `json:"scope"`
	Spans     []span `json:"spans"`
	SchemaURL string `json:"schemaUrl"`
}

type tracesData struct {
	ResourceSpans []struct {
		Resource *struct {
			Attributes             []keyValue `json:"attributes"`
			DroppedAttributesCount uint32     `json:"droppedAttributesCount"`
		} `json:"resource"`
		ScopeSpans []scopeSpans `json:"scopeSpans"`
		SchemaURL  string       `json:"schemaUrl"`
	} `json:"resourceSpans"`
}

// ---- what a line has to be beyond its names and types

func (v *anyValue) read() (found attribute.Value, err error) {
	count := 0
	for _, is := range []bool{v.StringValue != nil, v.BoolValue != nil, v.IntValue != nil, v.DoubleValue != nil, v.BytesValue != nil, v.ArrayValue != nil, v.KvlistValue != nil} {
		if is {
			count++
		}
	}
	switch {
	case count > 1:
		return found, errors.New("a value of two types")
	case v.StringValue != nil:
		return attribute.StringValue(*v.StringValue), nil
	case v.BoolValue != nil:
		return attribute.BoolValue(*v.BoolValue), nil
	case v.IntValue != nil:
		return attribute.Int64Value(int64(*v.IntValue)), nil
	case v.DoubleValue != nil:
		return attribute.Float64Value(float64(*v.DoubleValue)), nil
	}
	return attribute.StringValue(""), nil
}

func readAttributes(all []keyValue) (map[string]attribute.Value, error) {
	found := map[string]attribute.Value{}
	for _, one := range all {
		_, twice := found[one.Key]
		if one.Key == "" || twice || one.Value == nil {
			return nil, fmt.Errorf("a key that is empty, stands twice or has no value: %q", one.Key)
		}
		value, err := one.Value.read()
		if err != nil {
			return nil, err
		}
		found[one.Key] = value
	}
	return found, nil
}

func (s *span) read() error {
	_, err := readAttributes(s.Attributes)
	switch {
	case err != nil:
		return err
	case !trace.TraceID(s.TraceID).IsValid() || !trace.SpanID(s.SpanID).IsValid():
		return errors.New("a span without an id")
	case s.Name == "":
		return errors.New("a span without a name")
	case trace.SpanKind(s.Kind) > trace.SpanKindConsumer:
		return errors.New("a kind that there is not")
	case s.StartTimeUnixNano == nil || s.EndTimeUnixNano == nil || *s.EndTimeUnixNano < *s.StartTimeUnixNano:
		return errors.New("a span that ends before it begins")
	case s.Status != nil && s.Status.Code > 2:
		return errors.New("a state that there is not")
	}
	for _, e := range s.Events {
		if _, err := readAttributes(e.Attributes); err != nil {
			return err
		}
		if e.Name == "" || e.TimeUnixNano == nil {
			return errors.New("an event without a name or a time")
		}
	}
	return nil
}

// codeOf is OTLP's state as OpenTelemetry's Go types have it, whose numbers are others.
func codeOf(s *status) codes.Code {
	if s == nil {
		return codes.Unset
	}
	return []codes.Code{codes.Unset, codes.Ok, codes.Error}[s.Code]
}

type counts struct{ lines, spans, failed, events, orphans int }

func (c *counts) read(line []byte) error {
	var data tracesData
	decoder := json.NewDecoder(bytes.NewReader(line))
	decoder.DisallowUnknownFields()
	if err := decoder.Decode(&data); err != nil {
		return err
	}
	if decoder.More() || !utf8.Valid(line) || len(data.ResourceSpans) == 0 {
		return errors.New("more than one value, bytes that are no UTF-8, or no resource")
	}
	spans, parents := map[spanID]bool{}, []spanID{}
	for _, of := range data.ResourceSpans {
		if of.Resource == nil {
			return errors.New("no resource")
		}
		resource, err := readAttributes(of.Resource.Attributes)
		if err != nil {
			return err
		}
		if name, is := resource["service.name"]; !is || name.Type() != attribute.STRING || name.AsString() == "" {
			return errors.New("a resource without service.name")
		}
		for _, scope := range of.ScopeSpans {
			for i := range scope.Spans {
				s := &scope.Spans[i]
				if err := s.read(); err != nil {
					return err
				}
				if spans[s.SpanID] {
					return errors.New("two spans of one id")
				}
				spans[s.SpanID] = true
				parents = append(parents, s.ParentSpanID)
				c.spans++
				c.events += len(s.Events)
				if codeOf(s.Status) == codes.Error {
					c.failed++
				}
			}
		}
	}
	for _, parent := range parents {
		if parent != (spanID{}) && !spans[parent] {
			c.orphans++
		}
	}
	c.lines++
	return nil
}

func main() {
	var c counts
	malformed := 0
	for _, name := range os.Args[1:] {
		file, err := os.Open(name)
		if err != nil {
			fmt.Fprintln(os.Stderr, err)
			os.Exit(2)
		}
		lines := bufio.NewScanner(file)
		lines.Buffer(nil, 1<<28)
		for number := 1; lines.Scan(); number++ {
			if err := c.read(lines.Bytes()); err != nil {
				fmt.Printf("%s, line %d: %v\n", name, number, err)
				malformed++
			}
		}
		file.Close()
	}
	fmt.Printf("%d lines, %d spans, %d failed, %d events, %d without their parent, %d malformed\n", c.lines, c.spans, c.failed, c.events, c.orphans, malformed)
	if malformed > 0 {
		os.Exit(1)
	}
}
