// Otelmiddle stands in for the shop's second tier (service/examples/shop/middle) in bench/experiment: the same pages, answers and headers, traced by
// OpenTelemetry's SDK for Go as it comes, with its batches and each span sampled. Batches go as OTLP's protobuf to the broker, which hands them to the
// sampler. Debian's golang-opentelemetry-otel-dev brings the SDK.
//
//	otelmiddle PORT STORE      STORE is the URL of the store, SHOP_BROKER that of the broker
package main

import (
	"context"
	"fmt"
	"io"
	"log"
	"net/http"
	"os"
	"os/signal"
	"sync/atomic"
	"syscall"
	"time"

	"go.opentelemetry.io/otel/attribute"
	"go.opentelemetry.io/otel/codes"
	"go.opentelemetry.io/otel/propagation"
	"go.opentelemetry.io/otel/sdk/resource"
	sdk "go.opentelemetry.io/otel/sdk/trace"
	"go.opentelemetry.io/otel/trace"
)

// number is what the first tier takes for this service's node
const number = "1"

var (
	store    string
	isThere  atomic.Bool // spans have somewhere to go
	provider *sdk.TracerProvider
	tracer   trace.Tracer
	headers  propagation.TraceContext
	goods    = http.Client{Timeout: 5 * time.Second, Transport: &http.Transport{MaxIdleConns: 128, MaxIdleConnsPerHost: 128}}
)

// traces connects to the broker, as often as it takes: meanwhile the shop is open.
func traces(to *exporter) {
	for to.connect(os.Getenv("SHOP_BROKER")) != nil {
		time.Sleep(time.Second)
	}
	isThere.Store(true)
}

// ask asks the store.
func ask(ctx context.Context, item string) error {
	request, err := http.NewRequestWithContext(ctx, "GET", store+"/stock?item="+item, nil)
	if err != nil {
		return err
	}
	headers.Inject(ctx, propagation.HeaderCarrier(request.Header))
	answer, err := goods.Do(request)
	if err != nil {
		return err
	}
	defer answer.Body.Close()
	io.Copy(io.Discard, answer.Body)
	if answer.StatusCode != 200 {
		return fmt.Errorf("the store answered %s", answer.Status)
	}
	return nil
}

func reserve(w http.ResponseWriter, r *http.Request) {
	ctx := headers.Extract(r.Context(), propagation.HeaderCarrier(r.Header))
	ctx, span := tracer.Start(ctx, "GET /reserve", trace.WithSpanKind(trace.SpanKindServer))
	defer span.End()
	w.Header().Set("Hindsight-Node", number)
	item := r.URL.Query().Get("item")
	span.SetAttributes(attribute.String("item", item))
	if err := ask(ctx, item); err != nil {
		span.SetStatus(codes.Error, err.Error())
		http.Error(w, err.Error(), 502)
		return
	}
	span.SetStatus(codes.Ok, "")
	io.WriteString(w, "reserved\n")
}

func metrics(w http.ResponseWriter, r *http.Request) {
	if isThere.Load() {
		io.WriteString(w, "hindsight_node_broker_up 1\n")
	}
}

func main() {
	store = os.Args[2]
	to := &exporter{}
	provider = sdk.NewTracerProvider(sdk.WithSampler(sdk.AlwaysSample()), sdk.WithBatcher(to), sdk.WithResource(resource.NewSchemaless(attribute.String("service.name", "middle"))))
	tracer = provider.Tracer("shop")
	go traces(to)
	http.HandleFunc("/reserve", reserve)
	http.HandleFunc("/metrics", metrics)
	server := http.Server{Addr: "127.0.0.1:" + os.Args[1]}
	ended, over := make(chan os.Signal, 1), make(chan struct{})
	signal.Notify(ended, syscall.SIGTERM)
	go func() {
		<-ended
		server.Shutdown(context.Background())
		provider.Shutdown(context.Background()) // what waits goes to the broker first
		close(over)
	}()
	if err := server.ListenAndServe(); err != http.ErrServerClosed {
		log.Fatal(err)
	}
	<-over
}
