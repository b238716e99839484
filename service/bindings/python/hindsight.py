"""Hindsight for Python, by ctypes over libhindsight.so.0 (HINDSIGHT_LIBRARY names another file).

A segment gathers what it is told, and hands it to the library as one call when its block ends, when it has gathered 32 KiB, and before a trigger. So
segments of many threads and of many coroutines may go on at once, and what a process had gathered when it was killed is lost.

    node = hindsight.Node(settings, number=0, name="shop")
    with node.segment(hindsight.new_trace(), on_error=1) as segment:
        segment.point(b"GET /cart")

Some thread has to make passes and carry messages: see Node.passes, Node.messages and docs/SERVICE.md.
"""
import contextvars
import ctypes
import logging
import os
import time

OK, NOTHING, HELD = 0, 1, 2
INVALID, NOMEM, BUSY, FORKED, OPEN, NOTRACE, TOOLONG, FULL, MANY, UNDECLARED, SETTINGS, REFUSED, ABI_WRONG, SYSTEM, SPENT, CLOSED = range(-1, -17, -1)
DRY = -19
ABI, NO_NODE, GATHERED = 1, 0xFFFF, 32768

_pointer, _size = ctypes.c_void_p, ctypes.c_size_t


class _NodeOptions(ctypes.Structure):
    _fields_ = [("size", _size), ("abi", ctypes.c_uint32), ("node", ctypes.c_uint16), ("epoch", ctypes.c_uint64), ("settings", ctypes.c_char_p),
                ("settings_len", _size), ("name", ctypes.c_char_p), ("pool_file", ctypes.c_char_p), ("pool_kept", ctypes.c_uint32), ("spare", ctypes.c_uint32)]


class _HubOptions(ctypes.Structure):
    _fields_ = [("size", _size), ("abi", ctypes.c_uint32), ("epoch", ctypes.c_uint64), ("settings", ctypes.c_char_p), ("settings_len", _size),
                ("is_fresh", ctypes.c_uint32), ("spare", ctypes.c_uint32)]


class _Message(ctypes.Structure):
    _fields_ = [("number", ctypes.c_uint64), ("to", ctypes.c_uint16), ("bytes", _pointer), ("len", _size)]


class _NodeCounts(ctypes.Structure):
    _fields_ = [("size", _size)] + [(name, ctypes.c_uint64) for name in (
        "passes", "clients", "used_clients", "points", "null_pages", "stray_points", "full_points", "long_points", "spent_points", "refused_crumbs",
        "refused_triggers", "dropped_notes", "messages", "hellos", "tells", "reports", "standings", "repeats", "acknowledged", "unacknowledged", "asks",
        "full_asks", "refused_asks", "salvaged", "torn", "salvaging", "limited_triggers")]


class _Info(ctypes.Structure):
    _fields_ = [("size", _size), ("id", ctypes.c_uint8 * 16), ("part", ctypes.c_uint32), ("trigger", ctypes.c_uint8), ("is_whole", ctypes.c_int),
                ("lives", _size), ("records", _size)]


class _Record(ctypes.Structure):
    _fields_ = [("node", ctypes.c_uint16), ("client", ctypes.c_uint16), ("epoch", ctypes.c_uint64), ("core", ctypes.c_uint64), ("number", ctypes.c_uint64),
                ("missing", ctypes.c_uint64), ("moment", ctypes.c_uint64), ("payload", _pointer), ("len", _size)]


def _loaded():
    library = ctypes.CDLL(os.environ.get("HINDSIGHT_LIBRARY", "libhindsight.so.0"), use_errno=True)
    number, bytes_, at = ctypes.c_uint64, ctypes.c_char_p, ctypes.POINTER
    for name, arguments in {
        "hind_new_trace": [_pointer], "hind_node_open": [at(_NodeOptions), at(_pointer)], "hind_node_close": [_pointer], "hind_node_pass": [_pointer],
        "hind_node_next": [_pointer, at(_Message)], "hind_node_sent": [_pointer, number], "hind_node_acknowledged": [_pointer, number],
        "hind_node_again": [_pointer], "hind_node_deliver": [_pointer, bytes_, _size], "hind_node_get_counts": [_pointer, at(_NodeCounts)], "hind_client_get": [_pointer, at(_pointer)],
        "hind_write": [_pointer, bytes_, _size, at(_size), at(_size)], "hind_end": [_pointer], "hind_hub_open": [at(_HubOptions), at(_pointer)],
        "hind_hub_close": [_pointer], "hind_hub_deliver": [_pointer, bytes_, _size], "hind_hub_next": [_pointer, at(_Message)], "hind_hub_pass": [_pointer],
        "hind_hub_take": [_pointer, at(_pointer)], "hind_hub_saved": [_pointer, bytes_], "hind_trace_get_info": [_pointer, at(_Info)],
        "hind_trace_get_record": [_pointer, _size, at(_Record)], "hind_trace_free": [_pointer],
    }.items():
        getattr(library, name).argtypes = arguments
    library.hind_trace_free.restype = None
    for name in ("hind_strerror", "hind_errname", "hind_settings_error"):
        getattr(library, name).restype = ctypes.c_char_p
    library.hind_settings_error.argtypes = [at(ctypes.c_uint32)]
    return library


_library = _loaded()


class Error(Exception):
    """A call was refused; `code` says which answer it is."""

    def __init__(self, code):
        self.code = code
        super().__init__(_settings_error() if code == SETTINGS else _library.hind_strerror(code).decode())


def _settings_error():
    line = ctypes.c_uint32()
    why = _library.hind_settings_error(ctypes.byref(line)).decode()
    return f"settings, line {line.value}: {why}"


def _checked(code):
    if code < 0:
        raise Error(code)
    return code


def new_trace():
    """A fresh random id of 16 bytes."""
    made = ctypes.create_string_buffer(16)
    _checked(_library.hind_new_trace(made))
    return made.raw


_current = contextvars.ContextVar("hindsight.current", default=None)


def current():
    """The innermost segment of this thread or coroutine, or None."""
    return _current.get()


class Node:
    """The node of this process."""

    def __init__(self, settings, number=0, name="", epoch=0, pool_file=None):
        """In the pool file the node's buffers lie, so that they outlive the process."""
        settings = settings.encode()
        self._at = _pointer()
        self.lost = 0  # calls of segments that were refused
        options = _NodeOptions(ctypes.sizeof(_NodeOptions), ABI, number, epoch, settings, len(settings), name.encode(), pool_file and os.fsencode(pool_file))
        _checked(_library.hind_node_open(ctypes.byref(options), ctypes.byref(self._at)))

    def close(self):
        at, self._at = self._at, _pointer()
        _checked(_library.hind_node_close(at))

    def __enter__(self):
        return self

    def __exit__(self, *_):
        self.close()

    def segment(self, trace, on_error=None):
        """A block whose records belong to the trace of 16 bytes. Where an exception leaves it, the trigger id `on_error` claims the trace."""
        return Segment(self, trace, on_error)

    def passes(self):
        """One pass: whether a message is to be handed out."""
        return _checked(_library.hind_node_pass(self._at)) == OK

    def messages(self):
        """The messages that are to be handed out, each a number and its bytes. It counts as sent; `again` has what was not acknowledged come anew."""
        message = _Message()
        while _library.hind_node_next(self._at, ctypes.byref(message)) == OK:
            number, text = message.number, ctypes.string_at(message.bytes, message.len)
            _library.hind_node_sent(self._at, number)
            yield number, text

    def acknowledged(self, number):
        _checked(_library.hind_node_acknowledged(self._at, number))

    def again(self):
        _checked(_library.hind_node_again(self._at))

    def deliver(self, message):
        _checked(_library.hind_node_deliver(self._at, message, len(message)))

    def counts(self):
        """What the node did since it was opened, by name; hindsight.h says what each number of hind_node_counts counts."""
        counts = _NodeCounts(ctypes.sizeof(_NodeCounts))
        _checked(_library.hind_node_get_counts(self._at, ctypes.byref(counts)))
        return {name: getattr(counts, name) for name, _ in _NodeCounts._fields_[1:]}

    def _write(self, trace, calls):
        """One segment. What is refused is left out and counted."""
        client, done = _pointer(), _size()
        if self._at and _library.hind_client_get(self._at, ctypes.byref(client)) == OK:
            calls = [b"B" + trace, *calls, b"E"]
            begun = False
            while calls:
                text = b"".join(calls)
                code = _library.hind_write(client, text, len(text), ctypes.byref(done), None)
                calls, begun = calls[done.value :], begun or done.value > 0
                if code == OK:
                    return
                # an end that found no place left a trace of this thread open: it is tried again
                if code == OPEN and _library.hind_end(client) == OK:
                    continue
                self.lost += 1 if begun else len(calls)
                calls = calls[1:] if begun else []
        else:
            self.lost += len(calls)


class Segment:
    """What one thread or coroutine does on a trace."""

    def __init__(self, node, trace, on_error):
        if len(trace) != 16:
            raise Error(INVALID)
        self._node, self.trace, self._on_error = node, bytes(trace), on_error
        self._calls, self._size, self._token = [], 0, None

    def __enter__(self):
        self._token = _current.set(self)
        return self

    def __exit__(self, kind, *_):
        _current.reset(self._token)
        if kind is not None and self._on_error is not None:
            self.trigger(self._on_error)
        self.flush()

    def _put(self, call):
        self._calls.append(call)
        self._size += len(call)
        if self._size >= GATHERED:
            self.flush()

    def flush(self):
        """Hands what was gathered to the library, as a segment of its own."""
        calls, self._calls, self._size = self._calls, [], 0
        if calls:
            self._node._write(self.trace, calls)

    def point(self, payload, moment=None):
        """Records bytes, now or at a moment in nanoseconds since 1970."""
        if len(payload) > 65535:
            raise Error(TOOLONG)
        moment = time.time_ns() if moment is None else moment
        self._put(b"P" + moment.to_bytes(8, "big") + len(payload).to_bytes(2, "big") + payload)

    def crumb(self, node):
        self._put(b"C" + node.to_bytes(2, "big"))

    def sample(self, autotrigger, value):
        self._put(b"S" + autotrigger.to_bytes(4, "big") + value.to_bytes(8, "big"))

    def trigger(self, trigger, laterals=()):
        """Claims the trace, and up to 32 others."""
        if len(laterals) > 32 or any(len(lateral) != 16 for lateral in laterals):
            raise Error(INVALID)
        self._put(b"T" + bytes([trigger]) + self.trace + bytes([len(laterals)]) + b"".join(laterals))
        self.flush()


class Handler(logging.Handler):
    """Records what is logged inside a segment; what is logged outside of one is not for it."""

    def emit(self, record):
        segment = current()
        if segment is not None:
            segment.point(self.format(record).encode()[:65535], int(record.created * 1e9))


class Record:
    """A record of a trace that a hub gave."""

    def __init__(self, of):
        self.node, self.client, self.epoch, self.number, self.missing, self.moment = of.node, of.client, of.epoch, of.number, of.missing, of.moment
        self.payload = ctypes.string_at(of.payload, of.len)


class Trace:
    """A trace that a hub gave: its id, and its records in order."""

    def __init__(self, at):
        info, record = _Info(ctypes.sizeof(_Info)), _Record()
        _checked(_library.hind_trace_get_info(at, ctypes.byref(info)))
        self.id, self.part, self.trigger, self.is_whole, self.records = bytes(info.id), info.part, info.trigger, bool(info.is_whole), []
        for place in range(info.records):
            _checked(_library.hind_trace_get_record(at, place, ctypes.byref(record)))
            self.records.append(Record(record))


class Hub:
    """The hub of a service. It is fresh where no hub was before it: then it is sure of the first life of each node at once."""

    def __init__(self, settings, epoch=0, is_fresh=False):
        settings = settings.encode()
        self._at = _pointer()
        options = _HubOptions(ctypes.sizeof(_HubOptions), ABI, epoch, settings, len(settings), is_fresh)
        _checked(_library.hind_hub_open(ctypes.byref(options), ctypes.byref(self._at)))

    def close(self):
        at, self._at = self._at, _pointer()
        _checked(_library.hind_hub_close(at))

    def __enter__(self):
        return self

    def __exit__(self, *_):
        self.close()

    def deliver(self, message):
        """Takes a message of a node: whether it may be acknowledged at once."""
        return _checked(_library.hind_hub_deliver(self._at, message, len(message))) == OK

    def asks(self):
        """The asks that are to be sent, each a node and its bytes."""
        message = _Message()
        while _library.hind_hub_next(self._at, ctypes.byref(message)) == OK:
            yield message.to, ctypes.string_at(message.bytes, message.len)

    def passes(self):
        _checked(_library.hind_hub_pass(self._at))

    def take(self):
        """The next trace, or None. Until it is called saved, it is given again."""
        at = _pointer()
        if _checked(_library.hind_hub_take(self._at, ctypes.byref(at))) != OK:
            return None
        try:
            return Trace(at)
        finally:
            _library.hind_trace_free(at)

    def saved(self, trace):
        """Whether this was the trace that was given last."""
        return _checked(_library.hind_hub_saved(self._at, trace.id)) == OK
