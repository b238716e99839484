"""What a service beside records needs, for Python: W3C's headers, spans, and a node whose messages a NATS server carries.

    carried = hindsight_web.Carried(settings, name="shop", url="nats://127.0.0.1:4222")
    context = hindsight_web.read_context(headers.get("traceparent"), headers.get("tracestate"))
    with carried.node.segment(context.trace) as segment:
        segment.crumb(context.node)
        span = hindsight_web.start_span(segment, context.span, "GET /stock")
        hindsight_web.end_span(segment, span)

The library of the last is libhindsight_nats.so.0; HINDSIGHT_NATS_LIBRARY names another file.
"""
import collections
import ctypes
import os

import hindsight
from hindsight import NO_NODE, Error

INTERNAL, SERVER, CLIENT, PRODUCER, CONSUMER = 1, 2, 3, 4, 5
UNSET, OK, FAILED = 0, 1, 2
TAKEN, AWAY = -17, -18
NO_SPAN = bytes(8)
_TEXT, _VALUE = 255, 4096

_library = hindsight._library
_pointer, _size = ctypes.c_void_p, ctypes.c_size_t


class _Context(ctypes.Structure):
    _fields_ = [("trace", ctypes.c_uint8 * 16), ("span", ctypes.c_uint8 * 8), ("flags", ctypes.c_uint8), ("node", ctypes.c_uint16)]


_library.hind_new_span.argtypes = [_pointer]
_library.hind_context_read.argtypes = [ctypes.c_char_p, ctypes.c_char_p, ctypes.POINTER(_Context)]
_library.hind_context_write.argtypes = [ctypes.POINTER(_Context), ctypes.c_char_p, _pointer, _pointer]

# ---- the headers traceparent and tracestate of W3C

# What a request carries: its trace, the span of who sent it, the flags of traceparent, and the node that sent it, or NO_NODE.
Context = collections.namedtuple("Context", "trace span flags node")


def new_span():
    """A fresh random id of 8 bytes."""
    made = ctypes.create_string_buffer(8)
    hindsight._checked(_library.hind_new_span(made))
    return made.raw


def read_context(traceparent, tracestate=None):
    """What the two headers say. Where W3C calls the first invalid, or it did not come, a trace of the caller's own."""
    context = _Context()
    if traceparent and _library.hind_context_read(traceparent.encode(), tracestate.encode() if tracestate else None, ctypes.byref(context)) == hindsight.OK:
        return Context(bytes(context.trace), bytes(context.span), context.flags, context.node)
    return Context(hindsight.new_trace(), NO_SPAN, 0, NO_NODE)


def write_context(context, before=None):
    """The two headers for the next hop, the second in front of the entries of a tracestate that came."""
    parent, state, given = ctypes.create_string_buffer(56), ctypes.create_string_buffer(513), _Context(flags=context.flags, node=context.node)
    ctypes.memmove(given.trace, context.trace, 16)
    ctypes.memmove(given.span, context.span, 8)
    hindsight._checked(_library.hind_context_write(ctypes.byref(given), before.encode() if before else None, parent, state))
    return parent.value.decode(), state.value.decode()


# ---- the span profile (docs/FORMATS.md)


def _cut(text, most):
    """The front of a text as UTF-8, never ending inside a character."""
    text = text.encode()
    return text if len(text) <= most else text[:most].decode(errors="ignore").encode()


def start_span(segment, parent, name, kind=SERVER, span=None):
    """Records that a span begins now, and answers its id. A parent of all zero is none."""
    span = span or new_span()
    segment.point(b"\0S" + span + parent + bytes([kind]) + _cut(name, _TEXT))
    return span


def end_span(segment, span, status=UNSET, message=""):
    segment.point(b"\0E" + span + bytes([status]) + _cut(message, _TEXT))


def span_event(segment, span, name):
    segment.point(b"\0V" + span + _cut(name, _TEXT))


def span_text(segment, span, key, value):
    key = _cut(key, _TEXT)
    segment.point(b"\0A" + span + bytes([0, len(key)]) + key + _cut(value, _VALUE))


def span_int(segment, span, key, value):
    key = _cut(key, _TEXT)
    segment.point(b"\0A" + span + bytes([1, len(key)]) + key + value.to_bytes(8, "big", signed=True))


# ---- a node that a NATS server carries


class _NatsOptions(ctypes.Structure):
    _fields_ = [("size", _size), ("abi", ctypes.c_uint32), ("url", ctypes.c_char_p), ("prefix", ctypes.c_char_p), ("name", ctypes.c_char_p),
                ("settings", ctypes.c_char_p), ("settings_len", _size), ("lease_ms", ctypes.c_uint32), ("wait_ms", ctypes.c_uint32), ("pass_ms", ctypes.c_uint32),
                ("pool_file", ctypes.c_char_p), ("pool_kept", ctypes.c_uint32), ("spare", ctypes.c_uint32)]


class _CarriedNode(hindsight.Node):
    """The node of a Carried, which closes it."""

    def __init__(self, at):
        self._at, self.lost = _pointer(at), 0

    def close(self):
        self._at = _pointer()


class Carried:
    """A node, and a thread of the library's that makes its passes and carries its messages. Error with `code` TAKEN: another process has the name; AWAY:
    the server is not there. In the pool file the node's buffers lie, so that they outlive the process."""

    def __init__(self, settings, name, url=None, prefix=None, lease_ms=0, wait_ms=0, pass_ms=0, pool_file=None):
        of = self._of = ctypes.CDLL(os.environ.get("HINDSIGHT_NATS_LIBRARY", "libhindsight_nats.so.0"))
        of.hind_nats_start.argtypes = [ctypes.POINTER(_NatsOptions), ctypes.POINTER(_pointer)]
        of.hind_nats_node.argtypes, of.hind_nats_node.restype = [_pointer], _pointer
        of.hind_nats_number.argtypes, of.hind_nats_number.restype = [_pointer], ctypes.c_uint16
        of.hind_nats_stop.argtypes = [_pointer, ctypes.c_uint32]
        of.hind_nats_metrics.argtypes = [_pointer, _pointer, _size, ctypes.POINTER(_size)]
        text, at = settings.encode(), _pointer()
        options = _NatsOptions(ctypes.sizeof(_NatsOptions), hindsight.ABI, url and url.encode(), prefix and prefix.encode(), name.encode(), text, len(text),
                               lease_ms, wait_ms, pass_ms, pool_file and os.fsencode(pool_file))
        hindsight._checked(of.hind_nats_start(ctypes.byref(options), ctypes.byref(at)))
        self._at, self.number = at, of.hind_nats_number(at)
        self.node = _CarriedNode(of.hind_nats_node(at))

    def metrics(self):
        """The node's counts and its connection's, in Prometheus' text form."""
        text, size = ctypes.create_string_buffer(8192), _size()
        hindsight._checked(self._of.hind_nats_metrics(self._at, text, len(text), ctypes.byref(size)))
        return text.value.decode()

    def stop(self, wait_ms):
        """Ends the thread once all was acknowledged, or after so long, closes the node and gives the name back. Whether all was acknowledged."""
        self.node.close()
        at, self._at = self._at, _pointer()
        return self._of.hind_nats_stop(at, wait_ms) == hindsight.OK
