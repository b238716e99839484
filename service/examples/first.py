#!/usr/bin/env python3
"""A node and a hub in one process. Two requests are traced, one of them is claimed, and its trace is printed.

PYTHONPATH names the folder of hindsight.py, HINDSIGHT_LIBRARY the library where the loader does not find it."""
import hindsight

SETTINGS = "nodes 1\nbuffers 1024\ntriggerid 1\n"


def carry(node, hub):
    """Hands what the node says to the hub, and what the hub asks to the node."""
    for _ in range(10):
        node.passes()
        for number, message in node.messages():
            hub.deliver(message)
            node.acknowledged(number)
        for _, ask in hub.asks():
            node.deliver(ask)
        hub.passes()


def request(node, trace, answer):
    with node.segment(trace) as segment:
        segment.point(b"a request came", 1000)
        segment.point(answer, 2000)
        if b"failed" in answer:
            segment.trigger(1)


def show(trace):
    print(f"trace ..{trace.id[-2:].hex()}, trigger {trace.trigger}, {'whole' if trace.is_whole else 'not whole'}")
    for record in trace.records:
        print(f"  node {record.node} at {record.moment} ns: {record.payload.decode()}")


with hindsight.Node(SETTINGS) as node, hindsight.Hub(SETTINGS, is_fresh=True) as hub:
    request(node, bytes(15) + b"\xa1", b"all is well")
    request(node, bytes(15) + b"\xa2", b"the database failed")
    carry(node, hub)
    while (trace := hub.take()) is not None:
        show(trace)
        hub.saved(trace)
