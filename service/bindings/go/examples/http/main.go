// A small HTTP server that traces its requests, with the hub in the same process. The trace of a request that failed, or took 50 ms and more, is
// printed as a line of OTLP's JSON.
//
//	http PORT      then: curl localhost:PORT/      curl localhost:PORT/slow      curl localhost:PORT/fail
package main

import (
	"log"
	"net/http"
	"os"
	"time"

	"hindsight"
	"hindsight/web"
)

const settings = "nodes 1\nclients 16\nbuffers 4096\ntriggerid 1\ntriggerid 2\n"

const failed, slow = 1, 2 // trigger ids

// carry makes passes, carries messages, and prints what is claimed.
func carry(node *hindsight.Node, hub *hindsight.Hub) {
	for passes := 0; ; passes++ {
		node.Pass()
		for number, message, ok := node.Next(); ok; number, message, ok = node.Next() {
			hub.Deliver(message)
			node.Acknowledged(number)
		}
		for _, ask, ok := hub.Next(); ok; _, ask, ok = hub.Next() {
			node.Deliver(ask)
		}
		if passes%100 == 0 {
			hub.Pass()
		}
		for trace, err := hub.Take(); trace != nil && err == nil; trace, err = hub.Take() {
			os.Stdout.Write(trace.OTLP)
			hub.Saved(trace.ID)
		}
		time.Sleep(time.Millisecond)
	}
}

func serve(w http.ResponseWriter, r *http.Request) {
	switch r.URL.Path {
	case "/slow":
		time.Sleep(100 * time.Millisecond)
	case "/fail":
		segment := hindsight.FromContext(r.Context())
		segment.SpanEvent(web.Span(r.Context()), "the database does not answer")
		w.WriteHeader(http.StatusInternalServerError)
	}
}

func main() {
	node, err := hindsight.Open(settings, 0, "http", 0)
	if err != nil {
		log.Fatal(err)
	}
	hub, err := hindsight.OpenFreshHub(settings, 0)
	if err != nil {
		log.Fatal(err)
	}
	go carry(node, hub)
	options := web.Options{Name: "request", OnError: failed, OnSlow: slow, Slow: 50 * time.Millisecond}
	log.Fatal(http.ListenAndServe("localhost:"+os.Args[1], web.Handler(node, http.HandlerFunc(serve), options)))
}
