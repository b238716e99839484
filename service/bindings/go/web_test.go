package hindsight

import (
	"context"
	"strings"
	"testing"
)

// The examples are those of docs/FORMATS.md.
func TestSpans(t *testing.T) {
	node := opened(t)
	messages(t, node)
	_, segment := node.Start(context.Background(), TraceID{15: 9})
	span := SpanID{7: 0xc7}
	segment.SpanStart(span, SpanID{7: 0xc6}, Server, "GET")
	segment.SpanInt(span, "code", 503)
	segment.SpanInt(span, "less", -1)
	segment.SpanText(span, "", "no key")
	segment.SpanText(SpanID{}, "no", "span")
	segment.SpanEvent(span, strings.Repeat("x", 253)+"äö")
	segment.SpanEnd(span, Failed, "gone")
	segment.Trigger(1)
	segment.End()
	said := messages(t, node)
	id := "\x00\x00\x00\x00\x00\x00\x00\xc7"
	for payload, count := range map[string]int{
		"\x00S" + id + "\x00\x00\x00\x00\x00\x00\x00\xc6\x02GET":      1,
		"\x00A" + id + "\x01\x04code\x00\x00\x00\x00\x00\x00\x01\xf7": 1,
		"\x00A" + id + "\x01\x04less\xff\xff\xff\xff\xff\xff\xff\xff": 1,
		"\x00V" + id + strings.Repeat("x", 253) + "ä":                 1,
		"ö":                       0,
		"\x00E" + id + "\x02gone": 1,
		"no key":                  0,
		"span":                    0,
	} {
		if found := pages(said, payload); found != count {
			t.Errorf("%q: %d", payload, found)
		}
	}
	node.Close()
}

func TestHeaders(t *testing.T) {
	c, err := ReadContext("00-0af7651916cd43dd8448eb211c80319c-b7ad6b7169203331-01", "a=b,hind=1-0003")
	if err != nil || c.Trace[0] != 0x0a || c.Trace[15] != 0x9c || c.Span[0] != 0xb7 || c.Flags != 1 || c.Node != 3 {
		t.Error(c, err)
	}
	c.Node = 4
	parent, state, err := c.Headers("a=b,hind=1-0003")
	if err != nil || parent != "00-0af7651916cd43dd8448eb211c80319c-b7ad6b7169203331-01" || state != "hind=1-0004,a=b" {
		t.Error(parent, state, err)
	}
	if _, err := ReadContext("00-x", ""); err != Invalid {
		t.Error(err)
	}
	if _, _, err := (Context{}).Headers(""); err != Invalid {
		t.Error(err)
	}
	if NewSpan() == NewSpan() {
		t.Error("two spans have one id")
	}
}
