// What an event of a span costs with OpenTelemetry's SDK for Go: spans of 100 events, a batch processor, an exporter that drops them.
// The time is the whole process's, since collecting garbage is part of the cost. Words and lines as in point.c.
package main

import (
	"context"
	"fmt"
	"os"
	"strconv"
	"strings"
	"sync"
	"syscall"

	"go.opentelemetry.io/otel/attribute"
	sdk "go.opentelemetry.io/otel/sdk/trace"
	"go.opentelemetry.io/otel/trace"
)

type drops struct{}

func (drops) ExportSpans(context.Context, []sdk.ReadOnlySpan) error { return nil }
func (drops) Shutdown(context.Context) error                        { return nil }

func processorTime() float64 {
	var used syscall.Rusage
	if err := syscall.Getrusage(syscall.RUSAGE_SELF, &used); err != nil {
		panic(err)
	}
	return float64(used.Utime.Nano() + used.Stime.Nano())
}

func writes(tracer trace.Tracer, payload string, points int) {
	for done := 0; done < points; done += 100 {
		_, span := tracer.Start(context.Background(), "request")
		for i := 0; i < 100; i++ {
			span.AddEvent("", trace.WithAttributes(attribute.String("p", payload)))
		}
		span.End()
	}
}

func number(word string) int {
	n, err := strconv.Atoi(word)
	if err != nil {
		panic(err)
	}
	return n
}

func main() {
	threads, reps := number(os.Args[2]), number(os.Args[5])
	provider := sdk.NewTracerProvider(sdk.WithBatcher(drops{}))
	tracer := provider.Tracer("bench")
	const points = 100_000
	for _, word := range os.Args[6:] {
		payload := strings.Repeat("7", number(word))
		for rep := 0; rep <= reps; rep++ {
			var wait sync.WaitGroup
			from := processorTime()
			for t := 0; t < threads; t++ {
				wait.Add(1)
				go func() { defer wait.Done(); writes(tracer, payload, points) }()
			}
			wait.Wait()
			each := (processorTime() - from) / float64(points*threads)
			if rep > 0 {
				fmt.Printf("%s %d %s 0 %.2f %d 0 0\n", os.Args[1], threads, word, each, points*threads)
			}
		}
	}
}
