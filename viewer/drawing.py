"""Draws the parts of an outcome as SVG: bars of totals, the marks of a time line, a group's asks, a trace's records, what watchers saw."""
from html import escape
from math import cos, pi, sin

NAMES = {
    "got": "a draw that got a buffer", "null": "a draw that found the pool empty", "chunk": "a chunk is taken", "crumb": "a crumb is taken",
    "trigger": "a trigger is taken", "ask": "an ask is taken", "turn": "a turn", "reported": "pages that the turn reported", "evicted": "chunks that were evicted",
    "abandoned": "chunks that were abandoned", "given": "a buffer is given back", "missed": "a give that missed", "unread": "an offer that was not read",
}  # fmt: skip
SHAPES = {  # of 10 by 16: those of the time lines, and those of records by their fates; each differs from the others without its colour
    "s-got": '<circle cx="5" cy="8" r="4"/>', "s-null": '<path d="M1 4 9 12M9 4 1 12"/>', "s-chunk": '<rect x="1" y="4" width="8" height="8"/>',
    "s-crumb": '<path d="M5 3 10 8 5 13 0 8z"/>', "s-trigger": '<path d="M5 2 10 13H0z"/>', "s-ask": '<path d="M1 3 9 8 1 13z"/>', "s-turn": '<path d="M5 2V14"/>',
    "s-reported": '<rect x="0" y="9" width="10" height="5"/>', "s-evicted": '<path d="M1 4H9L5 12z"/>', "s-abandoned": '<path d="M5 3 9 8 5 13 1 8zM1 8H9"/>',
    "s-given": '<path d="M5 3 10 9H7V13H3V9H0z"/>', "s-missed": '<path d="M5 3 9 9H7V13H3V9H1z"/>', "s-unread": '<path d="M1 8H9"/>',
    "f-reported": '<rect x="1" y="2" width="8" height="12"/>', "f-live": '<circle cx="5" cy="8" r="4"/>', "f-null": '<path d="M1 4 9 12M9 4 1 12"/>',
    "f-evicted": '<path d="M1 4H9L5 12z"/>', "f-abandoned": '<path d="M5 3 9 8 5 13 1 8zM1 8H9"/>',
}  # fmt: skip
PATTERNS = {  # what lies over a bar, so that its parts differ without their colours
    "live": '<circle cx="4" cy="4" r="1.5"/>', "null": '<path d="M0 0 8 8M8 0 0 8"/>', "evicted": '<path d="M-2 2 2 -2M-2 10 10 -2M6 10 10 6"/>',
    "abandoned": '<path d="M0 4H8"/>',
}  # fmt: skip


def many(count, one, more=None):
    """A count with its noun."""
    return f"{count:,} {one if count == 1 else more or one + 's'}"


def tag(name, inside="", **values):
    words = "".join(f' {key.strip("_").replace("_", "-")}="{escape(str(value))}"' for key, value in values.items() if value is not None)
    return f"<{name}{words}>{inside}</{name}>"


def title(text):
    return f"<title>{escape(text)}</title>"


def picture(width, height, inside, label, **more):
    """A drawing in points. A narrow window makes it smaller only where its class says so."""
    return tag("svg", inside, viewBox=f"0 0 {width:g} {height:g}", width=f"{width:g}", height=f"{height:g}", role="img", aria_label=label, **more)


def wide(height, inside, label, **more):
    """A drawing as wide as what it stands in; its places across are parts of a hundred."""
    return tag("svg", inside, width="100%", height=f"{height:g}", role="img", aria_label=label, **more)


def words(x, y, text, **more):
    return tag("text", escape(str(text)), x=x if isinstance(x, str) else f"{x:g}", y=f"{y:g}", **more)


def box(x, y, width, height, inside="", **more):
    return tag("rect", inside, x=f"{x:.1f}", y=f"{y:.1f}", width=f"{width:.1f}", height=f"{height:.1f}", **more)


def sprite():
    """The shapes and patterns that the drawings of the page use."""
    shapes = "".join(tag("g", shape, id=name) for name, shape in SHAPES.items())
    patterns = "".join(tag("pattern", shape, id=f"p-{name}", width=8, height=8, patternUnits="userSpaceOnUse") for name, shape in PATTERNS.items())
    return tag("svg", tag("defs", shapes + patterns), width=0, height=0, _class="sprite", aria_hidden="true")


def part(kind, x, width, y, height, what):
    """A part of a bar, with the pattern of its kind; `x` and `width` are parts of a hundred."""
    place = {"x": f"{x:.3f}%", "width": f"{width:.3f}%", "y": y, "height": height}
    over = tag("rect", title(what), fill=f"url(#p-{kind})", **place) if kind in PATTERNS else ""
    return tag("rect", title(what), _class=f"fill {kind}", **place) + over


def bar(parts, label):
    """A bar of parts (class, count, what it is), as wide as what it stands in."""
    whole, x, inside = sum(count for _, count, _ in parts) or 1, 0, ""
    for kind, count, what in parts:
        inside += part(kind, x, 100 * count / whole, 0, 26, f"{what}: {count:,}") if count else ""
        x += 100 * count / whole
    return wide(26, inside, label, _class="bar")


def swatch(kind):
    """How a part of a bar looks."""
    return picture(14, 14, part(kind, 0, 100, 0, 14, kind), kind)


def shape(name, kind):
    """One of the shapes, as it stands in a legend."""
    return picture(12, 16, tag("use", href=f"#{name}", _class=kind, x=1, y=0), kind)


def bars(rows, label):
    """A bar for each row: its name, how long it is beside the others, its class, and what stands behind it."""
    most, inside = max((size for _, size, _, _ in rows), default=0) or 1, ""
    for place, (name, size, kind, behind) in enumerate(rows):
        y = 4 + 26 * place
        inside += words(-84, y + 14, name, _class="name") + part(kind, 0, 100 * size / most, y, 20, f"{name}: {behind}")
        inside += words(f"{100 * size / most:.3f}%", y + 14, behind, dx=6, _class="small")
    return wide(8 + 26 * len(rows), inside, label, _class="bars")


def area(points, bottom, most):
    """How many buffers are out of the pool, at most `most` of them."""
    path = " ".join(f"{x:.1f},{bottom - 40 * out / most:.1f}" for x, out in points)
    first, last = points[0][0], points[-1][0]
    return tag("polygon", title(f"buffers out of the pool, at most {most}"), points=f"{first},{bottom} {path} {last},{bottom}", _class="area")


def mark(kind, x, y, text, line):
    """A mark of 10 by 10 in a lane of 16, which leads to its line."""
    return tag("a", tag("use", title(text), href=f"#s-{kind}", _class=f"m {kind}", x=f"{x:g}", y=f"{y:g}", data_line=line), href=f"#step-{line}")


def group(found, outcome):
    """A group's nodes and asks, in order."""
    radius = 44 if outcome.nodes > 1 else 0
    middle = radius + 18
    angles = {node: 2 * pi * node / outcome.nodes - pi / 2 for node in range(outcome.nodes)}
    places = {node: (middle + radius * cos(angle), middle + radius * sin(angle)) for node, angle in angles.items()}
    inside = ""
    for order, ask in enumerate(found.asked):
        if ask.because is not None:
            to, by = ask.node, ask.because.node
            (x1, y1), (x2, y2) = places[by], places[to]
            inside += tag("line", title(f"ask {order}: node {by} told of node {to}"), x1=f"{x1:.0f}", y1=f"{y1:.0f}", x2=f"{x2:.0f}", y2=f"{y2:.0f}", _class="ask")
            inside += words(x1 + (x2 - x1) * 0.62 + 3, y1 + (y2 - y1) * 0.62 - 3, order, _class="small")
    asked = {ask.node for ask in found.asked}
    for node, (x, y) in places.items():
        kind = "first" if node == found.node else "asked" if node in asked else "not"
        inside += tag("circle", title(f"node {node}"), cx=f"{x:.0f}", cy=f"{y:.0f}", r=10, _class=f"node {kind}") + words(x, y + 4, node, _class="small in", text_anchor="middle")
    return picture(2 * middle, 2 * middle, inside, f"group {found.number} of node {found.node}")


def waterfall(report, moments):
    """A trace's records by node and client over their moments; `moments` has those of gaps, where a workload tells them."""
    entries = [(entry, entry.moment if entry.moment is not None else moments.get(entry.key)) for entry in report.records + report.gaps]
    lanes = sorted({(entry.node, entry.client) for entry, moment in entries if moment is not None})
    known, beside = [moment for _, moment in entries if moment is not None], [entry for entry, moment in entries if moment is None]
    first, last = min(known, default=0), max(known, default=0)
    names = [f"{node}.{client}" for node, client in lanes] + (["when?"] if beside else [])
    inside = "".join(words(-52, 15 + 20 * place, name, _class="name") + lane(place) for place, name in enumerate(names))
    inside += "".join(record(entry, None, 100 * place / len(beside), 2 + 20 * len(lanes)) for place, entry in enumerate(beside))
    for entry, moment in entries:
        if moment is not None:
            inside += record(entry, moment, 100 * (moment - first) / ((last - first) or 1), 2 + 20 * lanes.index((entry.node, entry.client)))
    below = 14 + 20 * len(lanes)
    below += 20 if beside else 0
    if known:
        inside += words(0, below, f"{first:,} µs", _class="small") + words("100%", below, f"{last:,} µs", _class="small", text_anchor="end", dx=12)
    return wide(below + 6, inside, f"trace {report.trace}", _class="fall")


def lane(place):
    return tag("rect", _class="lane", x=-3, y=2 + 20 * place, width="100%", height=16)


def record(entry, moment, at, y):
    """The mark of a record, which leads to it."""
    kind = entry.fate.split(" ")[0]
    when = "moment not told" if moment is None else f"moment {moment:,} µs"
    text = f"record {entry.number} of client {entry.client}, node {entry.node}, {when}: {entry.fate}"
    name = f"{entry.node}-{entry.client}-{entry.number}"
    inside = tag("use", title(text), href=f"#f-{kind}", _class=f"{'record' if kind == 'reported' else 'gap'} {kind}", x=f"{at:.3f}%", y=y, data_record=name)
    return tag("a", inside, href=f"#record-{name}")


def seen(watchers, key):
    """What both watchers saw of one number, over rounds."""
    highest = max((look[key] for looks in watchers for look in looks), default=0)
    most = highest or 1
    rounds = max((look["rounds"] for looks in watchers for look in looks), default=0) or 1
    inside = box(40, 6, 320, 70, _class="lane") + words(2, 14, f"{highest:,}", _class="small") + words(40, 90, "round 0", _class="small") + words(330, 90, rounds, _class="small")
    for number, looks in enumerate(watchers):
        points = [(40 + 320 * look["rounds"] / rounds, 76 - 70 * look[key] / most) for look in looks]
        inside += tag("polyline", points=" ".join(f"{x:.1f},{y:.1f}" for x, y in points), _class=f"watch w{number}")
        dots = [*points] if len(points) <= 400 else []
        for (x, y), look in zip(dots, looks):
            inside += tag("circle", title(f"watcher {number}, round {look['rounds']}: {look[key]:,}"), cx=f"{x:.1f}", cy=f"{y:.1f}", r=2.5, _class=f"dot w{number}")
    return picture(370, 96, inside, key, _class="fits")


