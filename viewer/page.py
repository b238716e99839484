"""Puts what was read into one page of HTML that needs nothing beside it."""
import json
import pathlib
from collections import Counter
from html import escape

from viewer import drawing
from viewer.drawing import many, shape, swatch
from viewer.following import page_of_fate
from viewer.reading import FATES, SAMPLERS, SEEN, Comparison, Refusal
from viewer.timeline import MARKS, Axis, Timeline, effects_of

HERE = pathlib.Path(__file__).parent
ROWS = 200  # of the ledger, without the script
DRAWN = 3000  # records of reports, and lines of the journal that can be linked without the script
OPEN = 20  # reports; if there are more, all are closed
SHORT = 64  # bytes of a payload in a row
PART = 500  # lines of the text that a browser lays out at once
GROUPS = 120
BARS = {  # the kinds whose bars have a look of their own from afar
    "null": "found the pool empty", "missed": "missed or unread", "evicted": "evicted", "abandoned": "abandoned", "reported": "reported", "": "any other",
}  # fmt: skip
WAYS = 5  # messages that told a crumb, and lines that forgot one
MEANING = {
    "live": "in the index of its node at the end", "reported": "shipped", "null": "the pool was empty, its bytes are lost",
    "evicted": "gone before anybody asked", "abandoned": "claimed, and given up since too much was pinned",
}  # fmt: skip


def page(found, followed=None, workload=None, name=None):
    script = ""
    if isinstance(found, Refusal):
        body = section("What was said", f"<p class='said'>{escape(found.line)}</p>")
    elif isinstance(found, Comparison):
        body = compared(found)
    else:
        body = outcome(found, followed, workload)
        script = "".join((HERE / name).read_text() for name in ("page.js", "lists.js", "line.js"))
    head = '<meta charset="utf-8"><meta name="viewport" content="width=device-width, initial-scale=1">'
    heading = escape(heading_of(found) + (f" of {name}" if name else ""))
    head += f"<title>{heading} - Hindsight</title>"
    style = (HERE / "page.css").read_text()
    whole = f"<h1>Hindsight: {heading}</h1>{drawing.sprite()}{body}" + (f'<script>"use strict";\n{{\n{script}}}\n</script>' if script else "")
    return f'<!DOCTYPE html>\n<html lang="en"><head>{head}<style>{style}</style></head><body>{whole}</body></html>\n'


def heading_of(found):
    """What the output is."""
    if isinstance(found, Refusal):
        return "refusal"
    if isinstance(found, Comparison):
        return "comparison of samplers"
    return "outcome, with what watchers saw," if found.watchers else "outcome"


def section(name, inside, id=None):
    return f"<section{f' id={chr(34)}{id}{chr(34)}' if id else ''}><h2>{name}</h2>{inside}</section>"


def table(heads, rows):
    head = "".join(f"<th>{head}</th>" for head in heads)
    body = "".join("<tr>" + "".join(f"<td>{cell}</td>" for cell in row) + "</tr>" for row in rows)
    return f"<div class='wide'><table><thead><tr>{head}</tr></thead><tbody>{body}</tbody></table></div>"


def options(name, first, values):
    """A choice among values, of which the first is any."""
    return f'<label>{name} <select name="{name}"><option value="">{first}</option>' + "".join(f"<option>{value}</option>" for value in values) + "</select></label>"


def pager():
    return '<span class="count"></span> <button type="button" name="back">back</button> <button type="button" name="next">next</button>'


def link(trace):
    return f'<a href="#trace-{trace}"><code>{trace}</code></a>'


def step(line):
    return f'<a href="#step-{line}">line {line}</a>'


def outcome(out, followed, workload):
    without = f"Without its script the page draws at most {MARKS:,} marks of time lines and {DRAWN:,} of reports, has {ROWS} rows of the ledger, and leads to a line of the journal if that has at most {DRAWN:,}."
    search = f"<noscript><p>{without}</p></noscript>"
    search += '<form id="search" role="search" hidden><label>find a trace <input name="trace" autocomplete="off" spellcheck="false"></label> <span class="count"></span></form>'
    places = places_of(out, followed)
    parts = [search, section("Totals", totals(out, followed), "totals")]
    if out.watchers:
        parts.append(section("What the watchers saw", watched(out), "watchers"))
    parts.append(section("Reports", reports(out, followed, places), "reports"))
    parts.append(section("Nodes", nodes(out, followed, workload), "nodes"))
    parts.append(section("Coordinator", coordinator(out, followed), "coordinator"))
    parts.append(section("Ledger", ledger(out, followed, places), "ledger"))
    parts.append(section("All of it as text", text_of(out), "text"))
    parts.append('<aside id="there" hidden tabindex="-1" aria-live="polite" aria-label="what was chosen"></aside>')
    return "".join(parts)


def totals(out, followed):
    told = "".join(f"<li>{swatch(fate)}{mark_of(fate)} <span><b class='total'>{out.totals[fate]:,}</b> {fate}: {MEANING[fate]}</span></li>" for fate in FATES)
    bar = drawing.bar([(fate, out.totals[fate], fate) for fate in FATES], "the fates of all records")
    if followed:
        shipped = sum(size_of(entry.payload) for report in out.reports for entry in report.records)
        whole, unit = sum(size_of(record.payload) for records in followed.records.values() for record in records), "payload bytes"
    else:
        shipped, whole, unit = out.totals["reported"], out.totals["records"], "records"
    share = drawing.bar([("reported", shipped, "shipped"), ("rest", whole - shipped, "not shipped")], "what was shipped")
    said = f"<p>Shipped: <b>{shipped:,}</b> of {whole:,} {unit}, in {many(len(out.reports), 'report')}.</p>"
    who = f"{many(out.clients, 'client')} on {'each of ' * (out.nodes > 1)}{many(out.nodes, 'node')}"
    written = f"<p><b class='total'>{out.totals['records']:,}</b> records were written, by {who}.</p>"
    return f"{written}{bar}<ul class='legend'>{told}</ul>{said}{share}"


def mark_of(fate):
    """The mark of a record with this fate."""
    return shape(f"f-{fate}", f"{'record' if fate == 'reported' else 'gap'} {fate}")


def size_of(payload):
    return 0 if payload == "-" else len(payload) // 2


def payload_of(digits):
    """A payload as text where it can be printed, else its digits; both cut where they are long."""
    size = size_of(digits)
    data = bytes.fromhex(digits if size else "")
    more = f" .. {size:,} bytes" if size > SHORT else ""
    try:
        text = data.decode()
    except UnicodeDecodeError:
        text = "\n"
    if not size:
        return "no bytes"
    if text.isprintable():
        return f"<q>{escape(data[:SHORT].decode(errors='ignore'))}</q>{more}"
    return f"<code>{digits[: 2 * SHORT]}</code>{more}"


def watched(out):
    charts = "".join(f"<figure>{drawing.seen(out.watchers, key)}<figcaption>{key}</figcaption></figure>" for key in SEEN)
    counts = ", ".join(f"watcher {number} noted {len(looks):,} looks" for number, looks in enumerate(out.watchers))
    return f"<p>Totals after whole rounds, as {len(out.watchers)} watchers saw them beside the run: {counts}.</p><div class='row'>{charts}</div>"


def reports(out, followed, places):
    if not out.reports:
        return "<p>No trace was claimed that has a record.</p>"
    moments = moments_of(followed)
    lacking = sum(bool(report.gaps) for report in out.reports)
    said = f"{many(len(out.reports), 'report')}, {f'{lacking:,} of them incomplete: these come first' if lacking else 'all of them whole'}."
    said += " Each mark is a record at its moment, in the lane of its node and client. A full bar was shipped. Any other mark is a gap, a record of the trace that was not shipped, in the shape of its fate."
    more = "" if followed else " The moments of gaps, the crumbs and all of the triggers are told where the workload stands beside (<code>--workload</code>)."
    parts = [f"<p>{said}{more}</p>"]
    left, drawn, ids, opened = DRAWN, [], set(), len(out.reports) <= OPEN
    for report in sorted(out.reports, key=lambda report: not report.gaps):
        count = len(report.records) + len(report.gaps)
        triggers, told = claimed(report, followed)
        inside = told + (report_drawn(report, moments, places) if count <= left else report_counted(report))
        left -= count if count <= left else 0
        ids |= triggers
        drawn.append(report_of(report, triggers, inside, opened))
    orders = '<label>order <select name="order"><option value="gaps">incomplete first</option><option value="most">most gaps first</option><option value="records">most records first</option><option value="trace">by trace</option><option value="trigger">by trigger</option><option value="node">by node</option><option value="fate">by fate</option></select></label>'
    chosen = options("trigger", "any", sorted(ids)) + options("node", "any", range(out.nodes)) + options("fate", "any", FATES)
    parts.append(f'<form class="filters" hidden>{orders} {chosen} {pager()}</form><div id="drawn">{"".join(drawn)}</div>')
    return "".join(parts)


def moments_of(followed):
    """The moment of each record, where the workload tells it."""
    return {(*key, number): record.moment for key, records in (followed.records if followed else {}).items() for number, record in enumerate(records)}


def report_of(report, triggers, inside, opened):
    entries = report.records + report.gaps
    data = {
        "trigger": sorted(triggers), "node": sorted({entry.node for entry in entries}), "fate": sorted({entry.fate.split(" ")[0] for entry in entries}),
        "records": [len(report.records)], "gaps": [len(report.gaps)],
    }  # fmt: skip
    named = "".join(f' data-{name}="{" ".join(map(str, values))}"' for name, values in data.items())
    told = f"<code>{report.trace}</code>, {many(len(report.records), 'record')}, {many(len(report.gaps), 'gap')}{listed('trigger', data['trigger'])}{listed('node', data['node'])}"
    return f"<details{' open' * opened} class='report' id='trace-{report.trace}'{named}><summary>{told}</summary>{inside}</details>"


def listed(one, values):
    """A word with its values, behind others: '; nodes 0, 1'."""
    return f"; {one}{'s' * (len(values) > 1)} {', '.join(map(str, values))}" if values else ""


def report_drawn(report, moments, places):
    """A report's records as marks and as rows."""
    rows = [row_of_report(entry, moments, places[entry.key]) for entry in report.records + report.gaps]
    return drawing.waterfall(report, moments) + table(("record", "moment (µs)", "fate", "payload"), rows)


def row_of_report(entry, moments, place):
    moment = entry.moment if entry.moment is not None else moments.get(entry.key)
    name = ".".join(map(str, entry.key))
    payload = "not shipped" if entry.payload is None else payload_of(entry.payload)
    return f'<a href="#record-{name.replace(".", "-")}">{name}</a>', "not told" if moment is None else f"{moment:,}", fate_of(entry, place), payload


def fate_of(entry, place):
    """A fate, which leads to the step that decided it where that is known."""
    return f'<a href="#step-{place}" data-line="{place}">{escape(entry.fate)}</a>' if place else escape(entry.fate)


def report_counted(report):
    """A report with more records than the page draws: how many of each fate."""
    counts = Counter(entry.fate.split(" ")[0] for entry in report.gaps)
    bar = drawing.bar([("reported", len(report.records), "records"), *((fate, counts[fate], fate) for fate in FATES)], report.trace)
    told = "".join(f", {counts[fate]:,} {fate}" for fate in FATES if counts[fate])
    return f"<p>{len(report.records):,} shipped{told}: more than are drawn here. The ledger has them.</p>{bar}"


def claimed(report, followed):
    """The trigger ids that a trace was claimed for, and what is told of that and of its crumbs."""
    if not followed:
        words = [entry.fate.split(" ") for entry in report.records + report.gaps if entry.fate.startswith(("reported", "abandoned"))]
        pairs = dict.fromkeys((int(word[1]), word[2]) for word in words)
        told = "".join(f"<li>Claimed for trigger {trigger} with the lead {link(lead)}.</li>" for trigger, lead in pairs)
        return {trigger for trigger, _ in pairs}, f"<ul>{told}</ul>"
    nodes = {}
    for node, group in followed.claims.get(report.trace, []):
        nodes.setdefault(group.key, (group, []))[1].append(node)
    told = ""
    for group, where in nodes.values():
        lateral = "" if group.lead == report.trace else f", as a lateral of {link(group.lead)}"
        told += f"<li>Trigger {group.trigger}, admitted at node {group.node} ({step(group.line)}), claimed it at {'node' if len(where) == 1 else 'nodes'} {', '.join(map(str, where))}{lateral}.</li>"
    crumbs = followed.crumbs.get(report.trace, [])
    ways = ", ".join(f"{by} to {to} ({way})" for (by, to), way in ways_of(crumbs))
    none = "" if any(crumb.told for crumb in crumbs) else "; told: none"
    told += f"<li>{f'Crumbs: {ways}{none}' if ways else 'It left no crumb'}.</li>"
    return {group.trigger for group, _ in nodes.values()}, f"<ul>{told}</ul>"


def ways_of(crumbs):
    """What became of the crumbs from one node to another: for which groups they were told, and by which lines they were forgotten."""
    for way in sorted({(crumb.by, crumb.to) for crumb in crumbs}):
        mine = [crumb for crumb in crumbs if (crumb.by, crumb.to) == way]
        found = [f"{len(mine):,} times"] * (len(mine) > 1)
        messages = list({message.line: message for crumb in mine for message in crumb.told}.values())
        for message in messages[:WAYS]:
            found.append(f"told at {step(message.line)} for trigger {message.group.trigger}" + (f" of {step(message.group.line)}" if message.group.line != message.line else ""))
        found += [f"and {len(messages) - WAYS:,} times more"] * (len(messages) > WAYS)
        lines = sorted({crumb.forgotten for crumb in mine if crumb.forgotten})
        found += [f"forgotten at {step(line)}" for line in lines[:WAYS]] + [f"and at {len(lines) - WAYS:,} more"] * (len(lines) > WAYS)
        found += [f"not told: node {way[0]} did not claim the trace"] * any(not (crumb.told or crumb.forgotten or crumb.known) for crumb in mine)
        yield way, ", ".join(found)


def nodes(out, followed, workload):
    shown = [kind for kind in drawing.NAMES if followed or kind not in ("reported", "evicted", "abandoned")]
    key = "".join(f"<li>{shape(f's-{kind}', f'm {kind}')} {drawing.NAMES[kind]}</li>" for kind in shown)
    parts = [f"<ul class='legend key'>{key}</ul>"]
    if not followed:
        parts.append("<p>With the workload beside it (<code>--workload</code>) the time lines also show what each turn reported, and which chunks went where.</p>")
    if workload:
        limits = ", ".join(f"{name} {workload.settings[name]}" for name in ("buffers", "size", "threshold", "traces", "pins", "stride"))
        parts.append(f"<p>Each node has {limits}.</p>")
    axis = Axis([Timeline(out, followed, node) for node in range(out.nodes)], workload and workload.buffers)
    parts.append(f"<p>{many(len(axis.firsts) - 1, 'pass', 'passes')}, and {many(axis.events, 'draw and step', 'draws and steps')}. All nodes have one axis: a pass begins at the same place for each of them.</p>")
    bars = "".join(f"<li>{picture_of_bar(kind)} {what}</li>" for kind, what in BARS.items())
    parts.append(f"<ul class='legend' id='bars' hidden><li>From afar a bar counts draws and steps of its lane, beside the most of the lane. It looks like the worst of them:</li>{bars}</ul>")
    zoom = '<button type="button" name="nearer">nearer</button> <button type="button" name="farther">farther</button> <button type="button" name="whole">whole</button>'
    parts.append(f'<form id="zoom" class="filters" hidden>{zoom} <span class="count"></span></form>{axis.html()}')
    data = {**axis.data(), "effects": effects_of(followed) if followed else {}, "limits": workload.settings if workload else {}}
    parts.append(f'<script type="application/json" id="times">{json.dumps(data, separators=(",", ":"))}</script>')
    return "".join(parts)


def picture_of_bar(kind):
    """How a bar of the time lines looks from afar."""
    return drawing.picture(12, 16, drawing.box(1, 2, 10, 13, _class=f"fill {kind}"), kind or "any other", _class="afar")


def coordinator(out, followed):
    heard = Counter(node for node, _ in out.told)
    said = f"<p>It heard {many(len(out.told), 'message')}" + "".join(f", {heard[node]:,} of node {node}" for node in sorted(heard)) + ".</p>"
    if not followed:
        asks = sum(step.kind == "ask" for log in out.logs for step in log)
        return said + f"<p>The agents took {many(asks, 'ask')}. With the workload beside it the groups are drawn.</p>"
    if not followed.groups:
        return said + "<p>There is no group.</p>"
    said += "<p>Of each group the node that admitted it has a thick ring, and the nodes that were asked are filled; an ask has its number, beside the crumb that led there.</p>"
    drawn = "".join(group(each, out) for each in followed.groups[:GROUPS])
    rest = followed.groups[GROUPS:]
    more = [(each.node, each.number, each.trigger, link(each.lead), " ".join(str(ask.node) for ask in each.asked[1:]) or "nobody") for each in rest]
    if more:
        drawn += f"</div><details><summary>{len(rest):,} more groups, as a table</summary>{table(('node', 'number', 'trigger', 'lead', 'asked'), more)}</details><div>"
    return f"{said}<div class='row'>{drawn}</div>"


def group(each, out):
    laterals = ", " + many(len(each.laterals), "lateral") if each.laterals else ""
    caption = f"trigger {each.trigger} ({step(each.line)}), lead {link(each.lead)}{laterals}"
    return f"<figure>{drawing.group(each, out)}<figcaption>{caption}</figcaption></figure>"


def places_of(out, followed):
    """Of each record the line of the journal where its fate came about, or 0 where that is not known."""
    if followed:
        return {entry.key: page_of_fate(followed.records[entry.node, entry.client][entry.number]).where for entry in out.ledger}
    empty = {(*key, f"null {draw.stamp}"): draw.line for key, draws in out.draws.items() for draw in draws if draw.buffer is None}
    return {entry.key: empty.get((entry.node, entry.client, entry.fate), 0) for entry in out.ledger}


def ledger(out, followed, places):
    moments, told = moments_of(followed), {report.trace for report in out.reports}
    first = {entry.trace: entry for entry in reversed(out.ledger[:ROWS]) if entry.trace not in told}  # where a trace without a report is shown
    rows = "".join(row(entry, places[entry.key], first.get(entry.trace) is entry) for entry in out.ledger[:ROWS])
    heads = "".join(f'<th><button data-sort="{place}">{name}</button></th>' for place, name in enumerate(("node", "client", "number", "trace", "fate")))
    more = f"<noscript> The first {ROWS} stand here; with the script, and in the text below, all.</noscript>" if len(out.ledger) > ROWS else ""
    how = "A click on a fate shows where in the journal it came about; of one that is live, where its chunk was taken." if followed else "A click on a null fate shows its draw; with the workload beside it each fate leads to its step."
    filters = f'<form class="filters" hidden>{options("fate", "all", FATES)} {options("node", "all", range(out.nodes))} {pager()}</form>'
    data = f'<script type="text/plain" id="places">{" ".join(str(places[entry.key]) for entry in out.ledger)}</script>'
    data += f'<script type="text/plain" id="moments">{" ".join(str(moments.get(entry.key, "-")) for entry in out.ledger)}</script>'
    return f'<p>{how}{more}</p>{filters}<table id="entries"><thead><tr>{heads}</tr></thead><tbody>{rows}</tbody></table>{data}'


def row(entry, place, first):
    name = "-".join(map(str, entry.key))
    number = f'<a href="#record-{name}">{entry.number}</a>'
    trace = f' id="trace-{entry.trace}"' if first else ""
    return f'<tr id="record-{name}" class="{entry.fate.split(" ")[0]}"><td>{entry.node}</td><td>{entry.client}</td><td>{number}</td><td{trace}>{link(entry.trace)}</td><td>{fate_of(entry, place)}</td></tr>'


def text_of(out):
    """The whole text, in parts that a browser lays out one by one. Each line of a journal that is not long can be linked."""
    lines = out.text.split("\n")[:-1]
    linked = out.journal_end if out.journal_end <= DRAWN else 0
    shown = [f'<span id="step-{number}">{line}</span>' if number <= linked else escape(line) for number, line in enumerate(lines, 1)]
    parts = "".join("<span class='part'>" + "\n".join(shown[at : at + PART]) + "\n</span>" for at in range(0, len(shown), PART))
    return f'<details id="whole"><summary>{len(lines):,} lines</summary><pre id="output" data-journal="{out.journal_end}">{parts}</pre></details>'


def compared(found):
    """Of each sampler, first how many of the named traces it keeps whole."""
    rows = [(name, *(f"{found.samplers[name][key]:,}" for key in ("whole", "traces", "records", "shipped"))) for name in SAMPLERS]
    named = found.samplers["tail"]["whole"]  # tail keeps all that was named
    behind = {
        "whole": lambda size: f"{size:,} of {named:,}", "records": lambda size: f"{size:,}", "shipped": lambda size: f"{size:,}",
    }  # fmt: skip
    parts = [f"<p>The triggers named {many(named, 'trace')} that {'has' if named == 1 else 'have'} a record.</p>"]
    for key, what in (("whole", "Named traces that each keeps whole"), ("records", "Records that each keeps"), ("shipped", "Payload bytes that each ships")):
        sizes = {name: found.samplers[name][key] for name in SAMPLERS}
        bars = drawing.bars([(name, size, "reported" if name == "hindsight" else "other", behind[key](size)) for name, size in sizes.items()], what)
        parts.append(f"<h3>{what}</h3>{bars}")
    parts.append(table(("sampler", "whole traces", "traces", "records kept", "bytes shipped"), rows))
    rest, kept = found.samplers["tail"]["records"], found.samplers["hindsight"]["records"]
    bar = drawing.bar([("reported", kept, "kept"), ("evicted", found.gap, "in gaps"), ("abandoned", found.limited, "limited")], "what tail keeps")
    parts.append(f"<h3>Where the records of named traces went</h3><p>Of the {rest:,} records that tail sampling keeps, Hindsight keeps {kept:,}; {found.gap:,} stand as gaps in its reports, and {found.limited:,} are of traces whose triggers were limited.</p>{bar}")
    return section("Four samplers over one workload", "".join(parts), "compared") + f'<details><summary>As text</summary><pre id="output">{escape(found.text)}</pre></details>'
