#!/usr/bin/env python3
"""The example http: of forty requests from four threads those that failed or were slow are printed, with what they wrote, and no other.

    serve.py PROGRAM PORT
"""
import concurrent.futures
import http.client
import json
import subprocess
import sys
import time

PATHS = ["/", "/fail", "/", "/slow", "/cart"]


def request(port, number):
    """One request of a trace of its own: its status."""
    connection = http.client.HTTPConnection("127.0.0.1", port, timeout=10)
    connection.request("GET", PATHS[number % 5], headers={"traceparent": f"00-{number + 1:032x}-00000000000000c7-01"})
    status = connection.getresponse().status
    connection.close()
    return status


def until_served(port):
    for _ in range(100):
        try:
            return request(port, 999)
        except OSError:
            time.sleep(0.05)
    sys.exit("serve.py: nothing is served")


def attributes(of):
    return {pair["key"]: next(iter(pair["value"].values())) for pair in of["attributes"]}


def is_right(line):
    """Which request a line is of, where it says what that request wrote."""
    (resource,) = line["resourceSpans"]
    (span,) = [span for scope in resource["scopeSpans"] for span in scope["spans"]]
    number = int(span["traceId"], 16) - 1
    path, found = PATHS[number % 5], attributes(span)
    assert attributes(resource["resource"])["service.name"] == "http"
    assert found["url.path"] == path and int(found["http.response.status_code"]) == (500 if path == "/fail" else 200), found
    assert span["name"] == "request" and span["parentSpanId"] == "00000000000000c7"
    # numbers of the client's records that went to other traces make a gap
    events = [event["name"] for event in span.get("events", []) if event["name"] != "hindsight.gap"]
    assert events == (["the database does not answer"] if path == "/fail" else []), events
    return number


def main(program, port):
    port = int(port)
    server = subprocess.Popen([program, str(port)], stdout=subprocess.PIPE)
    try:
        until_served(port)
        with concurrent.futures.ThreadPoolExecutor(4) as pool:
            statuses = list(pool.map(lambda number: request(port, number), range(40)))
        time.sleep(1)
    finally:
        server.terminate()
    lines = [is_right(json.loads(line)) for line in server.stdout]
    assert statuses == [500 if PATHS[number % 5] == "/fail" else 200 for number in range(40)]
    # each trigger id admits ten in a burst; 8 requests failed and 8 were slow. One more may be slow that waited for a processor
    claimed = {number for number in range(40) if PATHS[number % 5] in ("/fail", "/slow")}
    assert claimed <= set(lines) and len(set(lines) - claimed) <= 2, lines


if __name__ == "__main__":
    main(*sys.argv[1:])
