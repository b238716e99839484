package main

import (
	"strings"
	"testing"
)

// good is written by hand from the schema, with each type of value.
const good = `{"resourceSpans":[{"resource":{"attributes":[{"key":"service.name","value":{"stringValue":"shop"}}]},"scopeSpans":[{"scope":{"name":"x"},"spans":[` +
	`{"traceId":"5b8efff798038103d269b633813fc60c","spanId":"eee19b7ec3c1b174","parentSpanId":"eee19b7ec3c1b173","name":"I'm a span","kind":2,` +
	`"startTimeUnixNano":"1544712660000000000","endTimeUnixNano":"1544712661000000000","attributes":[{"key":"a","value":{"intValue":"-5"}},` +
	`{"key":"b","value":{"doubleValue":1.5}},{"key":"c","value":{"boolValue":true}},{"key":"d","value":{"bytesValue":"AAE="}},` +
	`{"key":"e","value":{"arrayValue":{"values":[{"stringValue":"x"}]}}}],"events":[{"timeUnixNano":"1544712660500000000","name":"e"}],"status":{"code":2,"message":"m"}}]}]}]}`

func TestRead(t *testing.T) {
	var c counts
	if err := c.read([]byte(good)); err != nil || c != (counts{1, 1, 1, 1, 1}) {
		t.Error(err, c)
	}
	for _, edit := range [][2]string{
		{"resourceSpans", "resource_spans"}, {"traceId", "trace_id"}, {"5b8efff7", "5b8efff"}, {"5b8efff798038103d269b633813fc60c", "00000000000000000000000000000000"},
		{"eee19b7ec3c1b174", ""}, {"eee19b7ec3c1b174", "0000000000000000"}, {`"kind":2`, `"kind":6`}, {`"kind":2`, `"kind":"SPAN_KIND_SERVER"`}, {`"1544712660000000000"`, `"1544712662000000000"`},
		{`"1544712660000000000"`, `1544712660000000000`}, {`"1544712660000000000"`, `"01544712660000000000"`}, {`"-5"`, `"x"`}, {`"-5"`, `"18446744073709551616"`}, {"1.5", `"1.5"`},
		{"true", `"true"`}, {"AAE=", "A"}, {`"key":"a"`, `"key":""`}, {`"key":"a"`, `"key":"b"`}, {`{"intValue":"-5"}`, `{"intValue":"-5","boolValue":true}`}, {`"code":2`, `"code":3`},
		{"service.name", "service"}, {`"name":"I'm a span"`, `"name":""`}, {`"name":"e"`, `"name":""`}, {"message", "massage"}, {"I'm", "\xff"}, {good, good + good}, {good, good[1:]}, {good, "{}"},
	} {
		line := strings.Replace(good, edit[0], edit[1], 1)
		if line == good {
			t.Error("an edit changes nothing:", edit)
		}
		if c.read([]byte(line)) == nil {
			t.Error("is read:", edit)
		}
	}
}
