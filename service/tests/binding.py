#!/usr/bin/env python3
"""The Python module: threads and coroutines that write at once, logging, exceptions, and what is refused. HINDSIGHT_LIBRARY names the library."""
import asyncio
import logging
import pathlib
import sys
import tempfile
import threading

sys.dont_write_bytecode = True
sys.path.insert(0, str(pathlib.Path(__file__).resolve().parent.parent / "bindings" / "python"))
import hindsight
import hindsight_web as web

SETTINGS = "nodes 1\nclients 4\nbuffers 1024\ntriggerid 1 1 1000 1000\n"


def carry(node, hub):
    for _ in range(64):  # a pass reports some pages of each trigger id
        node.passes()
        for number, message in node.messages():
            hub.deliver(message)
            node.acknowledged(number)
        for _, ask in hub.asks():
            node.deliver(ask)
        hub.passes()


def traces(node, hub):
    """All traces that are claimed, by their ids."""
    carry(node, hub)
    found = {}
    while (trace := hub.take()) is not None:
        assert hub.take().id == trace.id
        assert hub.saved(trace) and not hub.saved(trace)
        found[trace.id] = trace
    return found


def payloads(trace):
    return [record.payload for record in trace.records]


def refused(call, code, says):
    try:
        call()
    except hindsight.Error as error:
        assert error.code == code and says in str(error), error
    else:
        raise AssertionError("was not refused")


def test_messages(node):
    """The hello: what was not acknowledged comes again."""
    assert node.passes()
    ((number, hello),) = node.messages()
    assert hello[:2] == b"\1\1" and hello[-4:] == b"shop" and list(node.messages()) == []
    node.again()
    assert list(node.messages()) == [(number, hello)]
    node.acknowledged(number)
    node.again()
    assert list(node.messages()) == []


def test_refusals(node):
    refused(lambda: hindsight.Node("nodes 1\nnodes 1\n"), hindsight.SETTINGS, "line 2")
    refused(lambda: hindsight.Hub("size 1\n"), hindsight.SETTINGS, "line 1")
    refused(lambda: hindsight.Node(SETTINGS, number=1), hindsight.UNDECLARED, "no node")
    refused(lambda: node.segment(b"short"), hindsight.INVALID, "argument")
    refused(lambda: node.deliver(b"no message"), hindsight.REFUSED, "no message")
    with node.segment(hindsight.new_trace()) as segment:
        refused(lambda: segment.point(bytes(65536)), hindsight.TOOLONG, "longer")
        refused(lambda: segment.trigger(1, [b"x"]), hindsight.INVALID, "argument")
    lost = node.lost
    with node.segment(hindsight.new_trace()) as segment:
        segment.crumb(1)
        segment.point(b"kept", 1)
        segment.trigger(2)
    assert node.lost == lost + 2
    counts = node.counts()
    assert (counts["points"], counts["hellos"], counts["clients"], counts["refused_asks"]) == (1, 1, 4, 1), counts


def test_empty_pool():
    """A header of 24 bytes and two records of 10 beside 10 are a page of 64 bytes: four buffers take eight records. The ninth is lost, and the end is made."""
    with hindsight.Node("nodes 1\nclients 1\nbuffers 4\nsize 64\nthreshold 1\npins 1\ntriggerid 1\n", name="few") as node:
        with node.segment(hindsight.new_trace()) as segment:
            for _ in range(9):
                segment.point(b"0123456789")
        assert node.lost == 1
        counts = node.counts()
        assert (counts["points"], counts["null_pages"]) == (9, 1), counts
        with node.segment(hindsight.new_trace()) as segment:
            segment.crumb(0)
        assert node.lost == 1  # the trace was ended


def test_first(node, hub):
    fine, failed = hindsight.new_trace(), hindsight.new_trace()
    assert len(fine) == 16 and fine != failed
    for trace, says in ((fine, b"all is well"), (failed, b"the database failed")):
        with node.segment(trace) as segment:
            segment.point(b"a request came", 1000)
            segment.point(says, 2000)
            if b"failed" in says:
                segment.trigger(1)
    found = traces(node, hub)
    assert list(found) == [failed]
    trace = found[failed]
    assert trace.trigger == 1 and trace.is_whole and payloads(trace) == [b"a request came", b"the database failed"]
    assert [record.moment for record in trace.records] == [1000, 2000] and trace.records[0].node == 0


def test_exception(node, hub):
    failed = hindsight.new_trace()
    try:
        with node.segment(failed, on_error=1) as segment:
            segment.point(b"before", 1)
            raise ValueError
    except ValueError:
        pass
    with node.segment(hindsight.new_trace(), on_error=1) as segment:
        segment.point(b"no exception", 1)
    found = traces(node, hub)
    assert list(found) == [failed] and payloads(found[failed]) == [b"before"]


def test_logging(node, hub):
    claimed = hindsight.new_trace()
    logger = logging.getLogger("shop")
    logger.propagate = False
    logger.addHandler(hindsight.Handler())
    logger.warning("outside")
    with node.segment(claimed) as segment:
        assert hindsight.current() is segment
        logger.warning("slow: %d ms", 900)
        segment.trigger(1)
    assert hindsight.current() is None
    assert payloads(traces(node, hub)[claimed]) == [b"slow: 900 ms"]


def test_long_segment(node, hub):
    claimed = hindsight.new_trace()
    with node.segment(claimed) as segment:
        for number in range(100):
            segment.point(number.to_bytes(2, "big") * 500, number + 1)
        segment.trigger(1)
    assert payloads(traces(node, hub)[claimed]) == [number.to_bytes(2, "big") * 500 for number in range(100)]


def test_coroutines(node, hub):
    ids = [hindsight.new_trace() for _ in range(20)]

    async def request(number):
        with node.segment(ids[number]) as segment:
            for step in range(3):
                segment.point(b"%d %d" % (number, step), step + 1)
                await asyncio.sleep(0)
                assert hindsight.current() is segment
            segment.trigger(1)

    async def all_requests():
        await asyncio.gather(*(request(number) for number in range(20)))

    asyncio.run(all_requests())
    found = traces(node, hub)
    for number, trace in enumerate(ids):
        assert payloads(found[trace]) == [b"%d %d" % (number, step) for step in range(3)]


def test_threads(node, hub):
    ids = [hindsight.new_trace() for _ in range(40)]

    def request(number):
        with node.segment(ids[number]) as segment:
            segment.point(b"%d" % number, 1)
            segment.trigger(1)

    for first in range(0, 40, 4):
        threads = [threading.Thread(target=request, args=(number,)) for number in range(first, min(first + 3, 40))]
        for thread in threads:
            thread.start()
        for thread in threads:
            thread.join()
        node.passes()
    found = traces(node, hub)
    for number, trace in enumerate(ids):
        assert number % 4 == 3 or payloads(found[trace]) == [b"%d" % number], number


def test_spans(node, hub):
    """The examples are those of docs/FORMATS.md."""
    trace, span = bytes(15) + b"\x77", bytes(7) + b"\xc7"
    with node.segment(trace) as segment:
        assert web.start_span(segment, bytes(7) + b"\xc6", "GET", span=span) == span
        web.span_int(segment, span, "code", 503)
        web.span_text(segment, span, "who", "ä")
        web.span_event(segment, span, "x" * 253 + "äö")
        web.end_span(segment, span, web.FAILED, "gone")
        segment.trigger(1)
    assert payloads(traces(node, hub)[trace]) == [
        b"\0S" + span + bytes(7) + b"\xc6\2GET", b"\0A" + span + b"\1\4code" + bytes(6) + b"\1\xf7", b"\0A" + span + b"\0\3who\xc3\xa4",
        b"\0V" + span + b"x" * 253 + b"\xc3\xa4", b"\0E" + span + b"\2gone"]


def test_headers():
    parent = "00-0af7651916cd43dd8448eb211c80319c-b7ad6b7169203331-01"
    context = web.read_context(parent, "a=b,hind=1-0003")
    assert context == (bytes.fromhex("0af7651916cd43dd8448eb211c80319c"), bytes.fromhex("b7ad6b7169203331"), 1, 3)
    assert web.write_context(context._replace(node=4), "a=b,hind=1-0003") == (parent, "hind=1-0004,a=b")
    assert web.write_context(context._replace(node=web.NO_NODE)) == (parent, "")
    for none in (None, "", "00-x"):
        own = web.read_context(none)
        assert own.trace != bytes(16) and own[1:] == (web.NO_SPAN, 0, web.NO_NODE)
    refused(lambda: web.write_context(own), hindsight.INVALID, "argument")


def test_pool_file():
    with tempfile.TemporaryDirectory() as folder:
        pool, trace = pathlib.Path(folder) / "pool", hindsight.new_trace()
        with hindsight.Node(SETTINGS, epoch=1, pool_file=pool) as node:
            refused(lambda: hindsight.Node(SETTINGS, epoch=2, pool_file=pool), web.TAKEN, "pool file")
            with node.segment(trace) as segment:
                segment.point(b"left behind")
        assert b"left behind" in pool.read_bytes()
        with hindsight.Node(SETTINGS, epoch=2, pool_file=pool) as node, hindsight.Hub(SETTINGS) as hub:
            with node.segment(hindsight.new_trace()) as segment:
                segment.trigger(1, [trace])
            for _ in range(5):  # nobody knows what else the first life had: it is given out by age
                found = traces(node, hub)
                if trace in found:
                    break
            assert payloads(found[trace]) == [b"left behind"] and node.counts()["salvaged"] == 1
        assert sorted(it.name for it in pool.parent.iterdir()) == ["pool", "pool.0000000000000001"]


def main():
    with hindsight.Node(SETTINGS, name="shop") as node, hindsight.Hub(SETTINGS, is_fresh=True) as hub:
        test_messages(node)
        test_refusals(node)
        test_empty_pool()
        traces(node, hub)
        test_first(node, hub)
        test_exception(node, hub)
        test_logging(node, hub)
        test_long_segment(node, hub)
        test_coroutines(node, hub)
        test_threads(node, hub)
        test_spans(node, hub)
        test_headers()
    test_pool_file()


if __name__ == "__main__":
    main()
