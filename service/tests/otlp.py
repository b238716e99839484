#!/usr/bin/env python3
"""Reads lines of OTLP's JSON from standard input, by the published names and types of its trace messages. The first line has to be the trace that
otlp.c builds first, which is worked by hand here, and the second that with what is rare; each line has to be well-formed."""
import base64
import json
import math
import re
import sys


class Malformed(Exception):
    pass


def no_twins(pairs):
    if len({key for key, _ in pairs}) != len(pairs):
        raise Malformed("a name twice")
    return dict(pairs)


def need(held, *what):
    if not held:
        raise Malformed(*what)


def text(v):
    need(isinstance(v, str), "text", v)


def boolean(v):
    need(isinstance(v, bool), "bool", v)


def integer(low, high):
    def check(v):
        need(isinstance(v, str) and re.fullmatch(r"-?\d+", v) and low <= int(v) <= high, "integer", v)
    return check


def number(v):
    need((isinstance(v, (int, float)) and not isinstance(v, bool)) or v in ("NaN", "Infinity", "-Infinity"), "double", v)


def in_base64(v):
    text(v)
    base64.b64decode(v, validate=True)


def hexadecimal(digits):
    def check(v):
        need(isinstance(v, str) and re.fullmatch(rf"[0-9a-f]{{{digits}}}", v) and set(v) != {"0"}, "hexadecimal", v)
    return check


def enumeration(*values):
    def check(v):
        need(v in values and isinstance(v, int), "enumeration", v)
    return check


def list_of(check):
    def all_of(v):
        need(isinstance(v, list), "list", v)
        for item in v:
            check(item)
    return all_of


def message(must=(), **fields):
    def check(v):
        need(isinstance(v, dict), "object", v)
        for name, value in v.items():
            need(name in fields, "field", name)
            fields[name](value)
        need(all(name in v for name in must), "missing field", v)
    return check


uint64 = integer(0, 2**64 - 1)
any_value = message(stringValue=text, boolValue=boolean, intValue=integer(-(2**63), 2**63 - 1), doubleValue=number, bytesValue=in_base64)


def value(v):
    any_value(v)
    need(len(v) == 1, "one value", v)


attributes = list_of(message(("key", "value"), key=text, value=value))
event = message(("timeUnixNano", "name"), timeUnixNano=uint64, name=text, attributes=attributes)
status = message(code=enumeration(0, 1, 2), message=text)
span = message(
    ("traceId", "spanId", "name", "startTimeUnixNano", "endTimeUnixNano"),
    traceId=hexadecimal(32), spanId=hexadecimal(16), parentSpanId=hexadecimal(16), name=text, kind=enumeration(0, 1, 2, 3, 4, 5),
    startTimeUnixNano=uint64, endTimeUnixNano=uint64, attributes=attributes, events=list_of(event), status=status)
scope_spans = message(scope=message(name=text, version=text), spans=list_of(span))
line_form = message(("resourceSpans",), resourceSpans=list_of(message(resource=message(attributes=attributes), scopeSpans=list_of(scope_spans))))


def attribute(key, kind, v):
    return {"key": key, "value": {kind: v}}


def resource(service, node, epoch, wholeness, trigger, part, spans, whole=False):
    of_node = [attribute("service.name", "stringValue", service), attribute("hindsight.node", "intValue", node), attribute("hindsight.epoch", "stringValue", epoch),
               attribute("hindsight.wholeness", "stringValue", wholeness), attribute("hindsight.trigger", "intValue", trigger), attribute("hindsight.part", "intValue", part)]
    if whole:
        of_node.append(attribute("hindsight.whole", "boolValue", True))
    return {"resource": {"attributes": of_node}, "scopeSpans": [{"scope": {"name": "hindsight"}, "spans": spans}]}


TRACE = "0000000000000000000000000000a1b0"


def by_hand(line):
    """The first trace. The span of what client 1 wrote has an id of its own, which is not foreseen."""
    loose = line["resourceSpans"][0]["scopeSpans"][0]["spans"][1]["spanId"]
    client = attribute("hindsight.client", "intValue", "0")
    get = {"traceId": TRACE, "spanId": "00000000000000c7", "parentSpanId": "00000000000000c6", "name": 'GET "/"', "kind": 2,
           "startTimeUnixNano": "1000", "endTimeUnixNano": "1100", "status": {"code": 2, "message": "no"},
           "attributes": [attribute("code", "intValue", "503"), client],
           "events": [{"timeUnixNano": "1020", "name": "retry"},
                      {"timeUnixNano": "1030", "name": "record", "attributes": [attribute("hindsight.payload", "stringValue", "slow\n")]}]}
    records = {"traceId": TRACE, "spanId": loose, "name": "records", "kind": 1, "startTimeUnixNano": "1050", "endTimeUnixNano": "1050", "status": {"code": 0},
               "attributes": [attribute("hindsight.client", "intValue", "1"), attribute("hindsight.no_start", "boolValue", True), attribute("hindsight.no_end", "boolValue", True)],
               "events": [{"timeUnixNano": "1050", "name": "record", "attributes": [attribute("hindsight.payload", "bytesValue", "/wE=")]}]}
    called = {"traceId": TRACE, "spanId": "00000000000000c8", "parentSpanId": "00000000000000c7", "name": "ä", "kind": 3,
              "startTimeUnixNano": "2000", "endTimeUnixNano": "2000", "status": {"code": 0},
              "attributes": [attribute("hindsight.client", "intValue", "3"), attribute("hindsight.no_end", "boolValue", True)], "events": []}
    return {"resourceSpans": [resource("web", "3", "258", "whole since 80", "2", "0", [get, records], True), resource("db", "5", "1", "silent", "2", "0", [called], True)]}


def rare():
    bad = "\N{REPLACEMENT CHARACTER}"
    known = [attribute("nan", "doubleValue", "NaN"), attribute("low", "doubleValue", "-Infinity"), attribute("high", "doubleValue", "Infinity"),
             attribute("tenth", "doubleValue", 0.1), attribute("yes", "boolValue", True), attribute("no", "boolValue", False),
             attribute("bad", "stringValue", f"a{bad * 9}z"), attribute("least", "intValue", str(-(2**63))),
             attribute("hindsight.client", "intValue", "0"), attribute("hindsight.no_start", "boolValue", True), attribute("hindsight.no_end", "boolValue", True)]
    one = {"traceId": TRACE, "spanId": "0000000000000001", "name": "records", "kind": 1, "startTimeUnixNano": "4", "endTimeUnixNano": str(2**64 - 1),
           "status": {"code": 0}, "attributes": known,
           "events": [{"timeUnixNano": "8", "name": "hindsight.gap", "attributes": [attribute("hindsight.missing", "intValue", "2")]}]}
    return {"resourceSpans": [resource("", "0", str(2**64 - 1), "unknown", "255", "3", [one])]}


def main():
    lines = sys.stdin.buffer.read().decode("utf-8", "strict").split("\n")
    if lines.pop() != "":
        sys.exit("otlp: the last line has no end")
    spans = 0
    for n, line in enumerate(lines):
        try:
            read = json.loads(line, object_pairs_hook=no_twins, parse_constant=lambda name: need(False, "no JSON", name))
            line_form(read)
            for wanted in [by_hand(read)] if n == 0 else [rare()] if n == 1 else []:
                need(read == wanted, "another one was wanted", wanted)
            for part in read["resourceSpans"]:
                ids = [s["spanId"] for s in part["scopeSpans"][0]["spans"]]
                need(len(set(ids)) == len(ids), "a span twice", ids)
                spans += len(ids)
        except (Malformed, ValueError, KeyError, IndexError) as fault:
            sys.exit(f"otlp: line {n + 1}: {fault}\n{line}")
    need(not math.isnan(spans) and len(lines) >= 3, "too few lines", len(lines))
    print(f"otlp: {len(lines)} traces, {spans} spans, each well-formed")


if __name__ == "__main__":
    main()
