// Package nats starts a node whose messages a NATS server carries, over libhindsight_nats by cgo. The server needs JetStream; the hub at the other
// end is the program hindsight-hub.
package nats

// #cgo pkg-config: hindsight_nats
// #include <hindsight_nats.h>
// #include <stdlib.h>
import "C"

import (
	"errors"
	"hindsight"
	"runtime"
	"time"
	"unsafe"
)

// Options are those of hind_nats_start: an empty text is the default.
type Options struct {
	URL, Prefix, Name, Settings string
	PoolFile                    string // where the node's buffers lie, so that they outlive the process
	Lease, Wait, Pass           time.Duration
}

// A Carrier has a node, and a thread of the library's that makes its passes and carries its messages.
type Carrier struct {
	at   *C.hind_nats
	node *hindsight.Node
}

// Taken is answered where another process has the name, Away where the server is not there.
var Taken, Away = errors.New("hindsight: another process has this name"), errors.New("hindsight: the server is not there")

func text(of string) *C.char {
	if of == "" {
		return nil
	}
	return C.CString(of)
}

// Start takes the name, opens its node, and starts the thread.
func Start(of Options) (*Carrier, error) {
	runtime.LockOSThread()
	defer runtime.UnlockOSThread()
	options := (*C.hind_nats_options)(C.calloc(1, C.sizeof_hind_nats_options))
	defer C.free(unsafe.Pointer(options))
	options.size, options.abi = C.sizeof_hind_nats_options, C.HIND_ABI
	options.url, options.prefix, options.name = text(of.URL), text(of.Prefix), text(of.Name)
	options.settings, options.settings_len = text(of.Settings), C.size_t(len(of.Settings))
	options.lease_ms, options.wait_ms = C.uint32_t(of.Lease.Milliseconds()), C.uint32_t(of.Wait.Milliseconds())
	options.pass_ms = C.uint32_t(of.Pass.Milliseconds())
	options.pool_file = text(of.PoolFile)
	for _, word := range []*C.char{options.url, options.prefix, options.name, options.settings, options.pool_file} {
		defer C.free(unsafe.Pointer(word))
	}
	c := &Carrier{}
	switch code := C.hind_nats_start(options, &c.at); code {
	case C.HIND_OK:
		c.node = hindsight.NodeOf(unsafe.Pointer(C.hind_nats_node(c.at)))
		return c, nil
	case C.HIND_TAKEN:
		return nil, Taken
	case C.HIND_AWAY:
		return nil, Away
	default:
		return nil, errors.New("hindsight: " + C.GoString(C.hind_nats_error()))
	}
}

// Node is what segments begin with.
func (c *Carrier) Node() *hindsight.Node { return c.node }

// Number is the node's, which the server gave it.
func (c *Carrier) Number() hindsight.NodeID { return hindsight.NodeID(C.hind_nats_number(c.at)) }

// Metrics are the node's counts and its connection's, in Prometheus' text form.
func (c *Carrier) Metrics() string {
	var room [8192]C.char
	var len C.size_t
	if C.hind_nats_metrics(c.at, &room[0], C.sizeof_char*8192, &len) != C.HIND_OK {
		return ""
	}
	return C.GoStringN(&room[0], C.int(len))
}

// Stop ends the thread once all was acknowledged, or after so long, closes the node and gives the name back. No segment is being written.
func (c *Carrier) Stop(wait time.Duration) error {
	c.node.Close()
	if C.hind_nats_stop(c.at, C.uint32_t(wait.Milliseconds())) != C.HIND_OK {
		return Away
	}
	return nil
}
