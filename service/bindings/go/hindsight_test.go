package hindsight

import (
	"bytes"
	"context"
	"errors"
	"fmt"
	"os"
	"path/filepath"
	"sync"
	"testing"
	"time"
)

const settings = "nodes 2\nclients 4\nbuffers 1024\ntriggerid 1 1 1000 1000\n"

func opened(t *testing.T) *Node {
	node, err := Open(settings, 1, "go", 7)
	if err != nil {
		t.Fatal(err)
	}
	return node
}

// messages has what the node says, all acknowledged.
func messages(t *testing.T, node *Node) (all [][]byte) {
	for pass := 0; pass < 20; pass++ {
		if _, err := node.Pass(); err != nil {
			t.Fatal(err)
		}
		for {
			number, message, ok := node.Next()
			if !ok {
				break
			}
			node.Acknowledged(number)
			all = append(all, message)
		}
	}
	return all
}

// pages counts the messages that report a page with these bytes in it.
func pages(all [][]byte, payload string) (count int) {
	for _, message := range all {
		if message[1] == 4 && bytes.Contains(message, []byte(payload)) {
			count++
		}
	}
	return count
}

func TestRefusals(t *testing.T) {
	var refused *SettingsError
	if _, err := Open("nodes 2\nnodes 2\n", 0, "", 0); !errors.As(err, &refused) || refused.Line != 2 || !errors.Is(err, Settings) {
		t.Error(err)
	}
	if _, err := Open(settings, 2, "", 0); err != Undeclared {
		t.Error(err)
	}
	node := opened(t)
	if err := node.Deliver([]byte("no message")); err != Refused {
		t.Error(err)
	}
	if err := node.Deliver(nil); err != Refused {
		t.Error(err)
	}
	_, segment := node.Start(context.Background(), NewTrace())
	if err := segment.Point(make([]byte, 65536)); err != TooLong {
		t.Error(err)
	}
	if err := segment.Trigger(1, make([]TraceID, 33)...); err != Invalid {
		t.Error(err)
	}
	// an unknown node and an unknown trigger id are left out, the rest is done
	segment.Crumb(2)
	segment.Point([]byte("stays"))
	segment.Trigger(2)
	segment.Trigger(1)
	if node.Lost() != 2 {
		t.Error(node.Lost(), "calls were lost")
	}
	if pages(messages(t, node), "stays") != 1 {
		t.Error("the record was not reported")
	}
	if c, err := node.Counts(); err != nil || c.Points != 1 || c.Hellos != 1 || c.Reports != 1 || c.Unacknowledged != 0 || c.Clients != 4 || c.RefusedAsks != 2 {
		t.Error(c, err)
	}
	if err := node.Close(); err != nil {
		t.Error(err)
	}
}

// A header of 24 bytes and two records of 10 beside 10 are a page of 64 bytes: four buffers take eight records. The ninth is left out, and the end is made.
func TestEmptyPool(t *testing.T) {
	node, err := Open("nodes 2\nclients 1\nbuffers 4\nsize 64\nthreshold 1\npins 1\ntriggerid 1\n", 1, "go", 7)
	if err != nil {
		t.Fatal(err)
	}
	_, segment := node.Start(context.Background(), NewTrace())
	for i := 0; i < 9; i++ {
		segment.Point([]byte("0123456789"))
	}
	segment.End()
	if node.Lost() != 1 {
		t.Error(node.Lost(), "calls were lost")
	}
	if c, err := node.Counts(); err != nil || c.Points != 9 || c.NullPages != 1 || c.UsedClients != 1 {
		t.Error(c, err)
	}
	node.Close()
}

func TestMessages(t *testing.T) {
	node := opened(t)
	if says, err := node.Pass(); !says || err != nil {
		t.Error(says, err)
	}
	number, hello, ok := node.Next()
	if !ok || hello[1] != 1 || !bytes.HasSuffix(hello, []byte("\x02go")) {
		t.Error(hello)
	}
	if _, _, ok := node.Next(); ok {
		t.Error("it came twice")
	}
	node.Again()
	if again, _, ok := node.Next(); !ok || again != number {
		t.Error("it did not come again")
	}
	node.Acknowledged(number)
	node.Again()
	if _, _, ok := node.Next(); ok {
		t.Error("it was acknowledged")
	}
	node.Close()
}

// Goroutines write more segments at once than there are clients.
func TestGoroutines(t *testing.T) {
	node := opened(t)
	var all sync.WaitGroup
	for number := 0; number < 40; number++ {
		all.Add(1)
		go func(number int) {
			defer all.Done()
			ctx, segment := node.Start(context.Background(), NewTrace())
			defer segment.End()
			if FromContext(ctx) != segment {
				t.Error("the context has another segment")
			}
			segment.PointAt(time.Unix(0, int64(number+1)), []byte(fmt.Sprintf("record %02d of a goroutine", number)))
			segment.Sample(7, 1)
			if number%2 == 0 {
				segment.Trigger(1)
			}
		}(number)
	}
	all.Wait()
	said := messages(t, node)
	for number := 0; number < 40; number++ {
		if found := pages(said, fmt.Sprintf("record %02d of a goroutine", number)); found != 1-number%2 {
			t.Error(number, found)
		}
	}
	if node.Lost() != 40 {
		t.Error(node.Lost(), "samples of no autotrigger were lost")
	}
	node.Close()
}

func TestPoolFile(t *testing.T) {
	pool := filepath.Join(t.TempDir(), "pool")
	node, err := OpenWith(Options{Settings: settings, Number: 1, Epoch: 7, PoolFile: pool})
	if err != nil {
		t.Fatal(err)
	}
	if _, err := OpenWith(Options{Settings: settings, Number: 1, Epoch: 8, PoolFile: pool}); err != Taken {
		t.Error(err)
	}
	node.Close()
	if _, err := os.Stat(pool); err != nil {
		t.Error(err)
	}
}

func TestNoSegment(t *testing.T) {
	segment := FromContext(context.Background())
	segment.Crumb(1)
	segment.Sample(1, 1)
	segment.End()
	if segment.Point([]byte("x")) != nil || segment.Trigger(1) != nil || segment.Trace() != (TraceID{}) {
		t.Error("a nil segment does something")
	}
}
