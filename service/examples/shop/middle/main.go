// The second tier of the shop: it asks the store for what a cart needs.
//
//	middle PORT STORE      STORE is the URL of the store
package main

import (
	"context"
	"fmt"
	"hindsight"
	"hindsight/nats"
	"io"
	"log"
	"net/http"
	"os"
	"os/signal"
	"strconv"
	"sync/atomic"
	"syscall"
	"time"
)

const failed = 1 // the trigger id of an exception

var (
	store   string
	carried atomic.Pointer[nats.Carrier]
	// peer is the store's node, as its last answer named it, or NoNode
	peer  atomic.Uint32
	goods = http.Client{Timeout: 5 * time.Second, Transport: &http.Transport{MaxIdleConns: 128, MaxIdleConnsPerHost: 128}}
)

// traces starts the tracing, as often as it takes: meanwhile the shop is open.
func traces() {
	settings, err := os.ReadFile(os.Getenv("SHOP_SETTINGS"))
	for err == nil {
		var c *nats.Carrier
		c, err = nats.Start(nats.Options{URL: os.Getenv("SHOP_BROKER"), Name: "middle", Settings: string(settings), Wait: 5 * time.Second, Pass: 10 * time.Millisecond})
		if err == nil {
			carried.Store(c)
			return
		}
		if err == nats.Taken || err == nats.Away {
			log.Print("no tracing yet: ", err)
			time.Sleep(time.Second)
			err = nil
		}
	}
	log.Print("no tracing: ", err)
}

// begin opens the segment of a request: its span, and what the next hop is told. Without tracing the segment is nil, which takes each call.
func begin(r *http.Request) (ctx context.Context, segment *hindsight.Segment, next hindsight.Context) {
	c := carried.Load()
	if c == nil {
		return r.Context(), nil, hindsight.Context{}
	}
	came, err := hindsight.ReadContext(r.Header.Get("traceparent"), r.Header.Get("tracestate"))
	if err != nil {
		came = hindsight.Context{Trace: hindsight.NewTrace(), Node: hindsight.NoNode}
	}
	ctx, segment = c.Node().Start(r.Context(), came.Trace)
	if came.Node != hindsight.NoNode {
		segment.Crumb(came.Node)
	}
	next = hindsight.Context{Trace: came.Trace, Span: hindsight.NewSpan(), Flags: came.Flags, Node: c.Number()}
	segment.SpanStart(next.Span, came.Span, hindsight.Server, "GET /reserve")
	return ctx, segment, next
}

// ask asks the store. A crumb to it is left before, by the number that it had at its last answer, so that it is there where no answer comes.
func ask(ctx context.Context, next hindsight.Context, state, item string) error {
	segment := hindsight.FromContext(ctx)
	request, err := http.NewRequestWithContext(ctx, "GET", store+"/stock?item="+item, nil)
	if err != nil {
		return err
	}
	known := hindsight.NodeID(peer.Load())
	if segment != nil {
		if parent, before, err := next.Headers(state); err == nil {
			request.Header.Set("traceparent", parent)
			request.Header.Set("tracestate", before)
		}
		if known != hindsight.NoNode {
			segment.Crumb(known)
		}
	}
	answer, err := goods.Do(request)
	if err != nil {
		return err
	}
	defer answer.Body.Close()
	if number, err := strconv.ParseUint(answer.Header.Get("Hindsight-Node"), 10, 16); err == nil && hindsight.NodeID(number) != known {
		peer.Store(uint32(number))
		segment.Crumb(hindsight.NodeID(number))
	}
	io.Copy(io.Discard, answer.Body)
	if answer.StatusCode != 200 {
		return fmt.Errorf("the store answered %s", answer.Status)
	}
	return nil
}

func reserve(w http.ResponseWriter, r *http.Request) {
	ctx, segment, next := begin(r)
	defer segment.End()
	if segment != nil {
		w.Header().Set("Hindsight-Node", strconv.Itoa(int(next.Node)))
	}
	item := r.URL.Query().Get("item")
	segment.SpanText(next.Span, "item", item)
	if err := ask(ctx, next, r.Header.Get("tracestate"), item); err != nil {
		segment.SpanEnd(next.Span, hindsight.Failed, err.Error())
		segment.Trigger(failed)
		http.Error(w, err.Error(), 502)
		return
	}
	segment.SpanEnd(next.Span, hindsight.OK, "")
	io.WriteString(w, "reserved\n")
}

func metrics(w http.ResponseWriter, r *http.Request) {
	if c := carried.Load(); c != nil {
		io.WriteString(w, c.Metrics())
	}
}

func main() {
	store = os.Args[2]
	peer.Store(uint32(hindsight.NoNode))
	if os.Getenv("SHOP_TRACING_OFF") == "" {
		go traces()
	}
	http.HandleFunc("/reserve", reserve)
	http.HandleFunc("/metrics", metrics)
	server := http.Server{Addr: "127.0.0.1:" + os.Args[1]}
	ended, over := make(chan os.Signal, 1), make(chan struct{})
	signal.Notify(ended, syscall.SIGTERM)
	go func() {
		<-ended
		server.Shutdown(context.Background())
		if c := carried.Load(); c != nil {
			c.Stop(5 * time.Second) // what was claimed goes to the broker first
		}
		close(over)
	}()
	if err := server.ListenAndServe(); err != http.ErrServerClosed {
		log.Fatal(err)
	}
	<-over
}
