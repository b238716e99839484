#!/usr/bin/env python3
"""The third tier of the shop: what is in stock. One request in SHOP_SLOW_EVERY (10,000) meets a stocktaking, which keeps its shelf's lock for 300 ms.

    store.py PORT
"""
import http.server
import itertools
import os
import pathlib
import signal
import sys
import threading
import time

import hindsight_web as hindsight
from hindsight import Error

FAILED = 1  # the trigger id of an exception
SLOW_EVERY = int(os.environ.get("SHOP_SLOW_EVERY", 10000))
carried = None


def traces():
    """Starts the tracing, as often as it takes: meanwhile the shop is open."""
    global carried
    while carried is None:
        try:
            settings = pathlib.Path(os.environ["SHOP_SETTINGS"]).read_text()
            carried = hindsight.Carried(settings, os.environ.get("SHOP_NAME", "store"), os.environ.get("SHOP_BROKER"), wait_ms=5000, pass_ms=10)
        except Error as error:
            print(f"store: no tracing yet: {error}", file=sys.stderr, flush=True)
            time.sleep(1)


class Shelves:
    """Each has a lock."""

    def __init__(self):
        self._locks = [threading.Lock() for _ in range(4096)]
        self._visits = itertools.count(1)

    def _stocktaking(self, lock, begun):
        with lock:
            begun.set()
            time.sleep(0.3)

    def take(self, item):
        lock = self._locks[item % len(self._locks)]
        if next(self._visits) % SLOW_EVERY == 0:
            begun = threading.Event()
            threading.Thread(target=self._stocktaking, args=(lock, begun)).start()
            begun.wait()
        before = time.monotonic()
        with lock:
            return time.monotonic() - before


shelves = Shelves()


class Request(http.server.BaseHTTPRequestHandler):
    protocol_version = "HTTP/1.1"
    disable_nagle_algorithm = True
    wbufsize = -1

    def log_message(self, *_):
        pass

    def answer(self, text, node=None):
        self.send_response(200)
        self.send_header("Content-Type", "text/plain")
        self.send_header("Content-Length", str(len(text)))
        if node is not None:
            self.send_header("Hindsight-Node", str(node))
        self.end_headers()
        self.wfile.write(text)

    def do_GET(self):
        of = carried
        if self.path == "/metrics":
            return self.answer(of.metrics().encode() if of else b"")
        item = int(self.path.rpartition("=")[2] or 0)
        if of is None:
            shelves.take(item)
            return self.answer(b"1\n")
        context = hindsight.read_context(self.headers["traceparent"], self.headers["tracestate"])
        with of.node.segment(context.trace, on_error=FAILED) as segment:
            if context.node != hindsight.NO_NODE:
                segment.crumb(context.node)
            span = hindsight.start_span(segment, context.span, "GET /stock")
            hindsight.span_int(segment, span, "item", item)
            waited = shelves.take(item)
            hindsight.span_int(segment, span, "waited_for_lock_us", int(waited * 1e6))
            hindsight.end_span(segment, span, hindsight.OK)
        self.answer(b"1\n", of.number)


class Server(http.server.ThreadingHTTPServer):
    request_queue_size = 128


def main():
    if "SHOP_TRACING_OFF" not in os.environ:
        threading.Thread(target=traces, daemon=True).start()
    server = Server(("127.0.0.1", int(sys.argv[1])), Request)
    signal.signal(signal.SIGTERM, lambda *_: threading.Thread(target=server.shutdown).start())
    server.serve_forever()
    if carried is not None:
        carried.stop(5000)  # what was claimed goes to the broker first


if __name__ == "__main__":
    main()
