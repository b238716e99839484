// A node and a hub in one process. Two requests are traced, one of them is claimed, and its trace is printed.
package main

import (
	"context"
	"fmt"
	"log"
	"strings"
	"time"

	"hindsight"
)

const settings = "nodes 1\nbuffers 1024\ntriggerid 1\n"

// carry hands what the node says to the hub, and what the hub asks to the node.
func carry(node *hindsight.Node, hub *hindsight.Hub) {
	for pass := 0; pass < 10; pass++ {
		node.Pass()
		for number, message, ok := node.Next(); ok; number, message, ok = node.Next() {
			hub.Deliver(message)
			node.Acknowledged(number)
		}
		for _, ask, ok := hub.Next(); ok; _, ask, ok = hub.Next() {
			node.Deliver(ask)
		}
		hub.Pass()
	}
}

func request(node *hindsight.Node, trace hindsight.TraceID, answer string) {
	_, segment := node.Start(context.Background(), trace)
	defer segment.End()
	segment.PointAt(time.Unix(0, 1000), []byte("a request came"))
	segment.PointAt(time.Unix(0, 2000), []byte(answer))
	if strings.Contains(answer, "failed") {
		segment.Trigger(1)
	}
}

func print(trace *hindsight.Trace) {
	whole := map[bool]string{true: "whole", false: "not whole"}[trace.Whole]
	fmt.Printf("trace ..%x, trigger %d, %s\n", trace.ID[14:], trace.Trigger, whole)
	for _, record := range trace.Records {
		fmt.Printf("  node %d at %d ns: %s\n", record.Node, record.Nanosecond, record.Payload)
	}
}

func main() {
	node, err := hindsight.Open(settings, 0, "", 0)
	if err != nil {
		log.Fatal(err)
	}
	defer node.Close()
	hub, err := hindsight.OpenFreshHub(settings, 0)
	if err != nil {
		log.Fatal(err)
	}
	defer hub.Close()
	request(node, hindsight.TraceID{15: 0xa1}, "all is well")
	request(node, hindsight.TraceID{15: 0xa2}, "the database failed")
	carry(node, hub)
	for trace, err := hub.Take(); trace != nil && err == nil; trace, err = hub.Take() {
		print(trace)
		hub.Saved(trace.ID)
	}
}
