package web

import (
	"io"
	"net/http"
	"net/http/httptest"
	"strings"
	"testing"
	"time"

	"hindsight"
)

const settings = "nodes 3\nclients 8\nbuffers 2048\ntriggerid 1 1 1000 1000\ntriggerid 2 1 1000 1000\nauto 0 percentile 2 8 9900\n"

type service struct {
	t     *testing.T
	nodes []*hindsight.Node
	hub   *hindsight.Hub
}

func opened(t *testing.T) *service {
	s := &service{t: t}
	for number, name := range []string{"front", "stock"} {
		node, err := hindsight.Open(settings, hindsight.NodeID(number), name, 5)
		if err != nil {
			t.Fatal(err)
		}
		s.nodes = append(s.nodes, node)
	}
	hub, err := hindsight.OpenFreshHub(settings, 5)
	if err != nil {
		t.Fatal(err)
	}
	s.hub = hub
	return s
}

// traces has all that is claimed.
func (s *service) traces() map[hindsight.TraceID]*hindsight.Trace {
	for pass := 0; pass < 64; pass++ {
		for _, node := range s.nodes {
			node.Pass()
			for number, message, ok := node.Next(); ok; number, message, ok = node.Next() {
				if _, err := s.hub.Deliver(message); err != nil {
					s.t.Fatal(err)
				}
				node.Acknowledged(number)
			}
		}
		for to, ask, ok := s.hub.Next(); ok; to, ask, ok = s.hub.Next() {
			if err := s.nodes[to].Deliver(ask); err != nil {
				s.t.Fatal(err)
			}
		}
		s.hub.Pass()
	}
	found := map[hindsight.TraceID]*hindsight.Trace{}
	for {
		trace, err := s.hub.Take()
		if err != nil {
			s.t.Fatal(err)
		}
		if trace == nil {
			return found
		}
		if !s.hub.Saved(trace.ID) || s.hub.Saved(trace.ID) {
			s.t.Error("saved")
		}
		found[trace.ID] = trace
	}
}

func (s *service) close() {
	for _, node := range s.nodes {
		node.Close()
	}
	s.hub.Close()
}

func get(t *testing.T, client *http.Client, url, traceparent string) int {
	request, err := http.NewRequest("GET", url, nil)
	if err != nil {
		t.Fatal(err)
	}
	if traceparent != "" {
		request.Header.Set("Traceparent", traceparent)
	}
	answer, err := client.Do(request)
	if err != nil {
		t.Fatal(err)
	}
	defer answer.Body.Close()
	io.Copy(io.Discard, answer.Body)
	return answer.StatusCode
}

// A request goes from front to stock. What fails there is claimed there, and both parts come.
func TestTwoServices(t *testing.T) {
	s := opened(t)
	defer s.close()
	stock := httptest.NewServer(Handler(s.nodes[1], http.HandlerFunc(func(w http.ResponseWriter, r *http.Request) {
		hindsight.FromContext(r.Context()).SpanEvent(Span(r.Context()), "the shelf is looked at")
		if strings.HasSuffix(r.URL.Path, "none") {
			http.Error(w, "none", http.StatusInternalServerError)
		}
	}), Options{Number: 1, Name: "stock", OnError: 1}))
	defer stock.Close()
	client := http.Client{Transport: &Transport{Number: 0}}
	front := httptest.NewServer(Handler(s.nodes[0], http.HandlerFunc(func(w http.ResponseWriter, r *http.Request) {
		request, _ := http.NewRequestWithContext(r.Context(), "GET", stock.URL+r.URL.Path, nil)
		answer, err := client.Do(request)
		if err != nil {
			t.Error(err)
			return
		}
		answer.Body.Close()
		w.WriteHeader(http.StatusAccepted)
	}), Options{Number: 0}))
	defer front.Close()
	for path, id := range map[string]string{"/book": "0a", "/none": "0b", "/pen": "0c"} {
		if status := get(t, http.DefaultClient, front.URL+path, "00-000000000000000000000000000000"+id+"-00000000000000c7-01"); status != 202 {
			t.Error(path, status)
		}
	}
	found := s.traces()
	trace := found[hindsight.TraceID{15: 0x0b}]
	if len(found) != 1 || trace == nil || !trace.Whole || trace.Trigger != 1 {
		t.Fatal(len(found), trace)
	}
	line := string(trace.OTLP)
	for _, part := range []string{`"front"`, `"stock"`, "the shelf is looked at", `"parentSpanId":"00000000000000c7"`, `"url.path"`, `"url.full"`, `"intValue":"500"`, `"intValue":"202"`} {
		if !strings.Contains(line, part) {
			t.Error(part, "is not in", line)
		}
	}
	if strings.Count(line, `"spanId"`) != 3 || strings.Count(line, `"kind":2`) != 2 || strings.Count(line, `"kind":3`) != 1 {
		t.Error(line)
	}
	for _, node := range s.nodes {
		if node.Lost() != 0 {
			t.Error(node.Lost(), "calls were lost")
		}
	}
}

// Slow requests, handlers that panic, and an autotrigger.
func TestSymptoms(t *testing.T) {
	s := opened(t)
	defer s.close()
	auto := uint32(0)
	server := httptest.NewServer(Handler(s.nodes[0], http.HandlerFunc(func(w http.ResponseWriter, r *http.Request) {
		switch r.URL.Path {
		case "/slow":
			time.Sleep(30 * time.Millisecond)
		case "/panic":
			panic(http.ErrAbortHandler)
		}
		w.Write([]byte("fine"))
	}), Options{OnError: 1, OnSlow: 2, Slow: 20 * time.Millisecond, Latency: &auto}))
	defer server.Close()
	if get(t, http.DefaultClient, server.URL+"/slow", "") != 200 {
		t.Error("slow")
	}
	if _, err := http.Get(server.URL + "/panic"); err == nil {
		t.Error("it panicked")
	}
	answer, err := http.Get(server.URL + "/fine")
	if err != nil || answer.Header.Get(NodeHeader) != "0" {
		t.Error(err, answer)
	}
	answer.Body.Close()
	by := map[uint8]int{}
	for _, trace := range s.traces() {
		by[trace.Trigger]++
		if !strings.Contains(string(trace.OTLP), map[uint8]string{1: "/panic", 2: "/slow"}[trace.Trigger]) {
			t.Error(trace.Trigger, string(trace.OTLP))
		}
	}
	if by[1] < 1 || by[2] < 1 { // the client may try again where the connection was cut
		t.Error(by)
	}
}

// A request without a segment goes as it is.
func TestNoSegment(t *testing.T) {
	server := httptest.NewServer(http.HandlerFunc(func(w http.ResponseWriter, r *http.Request) {
		if r.Header.Get("Traceparent") != "" {
			t.Error("a header came")
		}
	}))
	defer server.Close()
	get(t, &http.Client{Transport: &Transport{}}, server.URL, "")
}
