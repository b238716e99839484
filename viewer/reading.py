"""Reads what the program wrote: the outcome of a workload, with what watchers saw behind it, a comparison, or a line that refuses."""
import json
import re
from dataclasses import dataclass, field

FATES = ("live", "reported", "null", "evicted", "abandoned")
STEPS = ("chunk", "crumb", "trigger", "ask", "turn", "given", "missed", "unread")
SEEN = ("operations", "records", "null", "taken", "given")
SAMPLERS = ("head", "tail", "ring", "hindsight")
NUMBER = r"(?:0|[1-9][0-9]*)"
TRACE = r"(?:[0-9a-f]{32}|[0-9a-f]{16})"
PAYLOAD = r"(?:-|(?:[0-9a-f]{2})+)"
FATE = rf"(?:live|null {NUMBER}|reported {NUMBER} {TRACE}|evicted {NUMBER} {NUMBER}|abandoned {NUMBER} {TRACE} [0-9a-f]{{16}})"


class Fault(Exception):
    """The input is no output of the program; `line` is the first line that is not as it should be."""

    def __init__(self, line, why):
        super().__init__(f"line {line}: {why}")
        self.line = line


@dataclass
class Draw:
    buffer: int | None  # None: the pool was empty
    stamp: int
    line: int


@dataclass
class Step:
    kind: str
    number: int | None  # the client of what was taken, the stamp of what was given or missed
    line: int


@dataclass
class Entry:
    """A line of the ledger, or of a report."""

    node: int
    client: int
    number: int
    trace: str
    fate: str
    line: int
    moment: int | None = None
    payload: str | None = None

    @property
    def key(self):
        return self.node, self.client, self.number


@dataclass
class Report:
    trace: str
    records: list = field(default_factory=list)
    gaps: list = field(default_factory=list)


@dataclass
class Outcome:
    text: str
    nodes: int = 0
    clients: int = 0
    draws: dict = field(default_factory=dict)  # by node and client
    logs: list = field(default_factory=list)
    told: list = field(default_factory=list)  # (node, line)
    reports: list = field(default_factory=list)
    ledger: list = field(default_factory=list)
    totals: dict = field(default_factory=dict)
    watchers: list = field(default_factory=list)
    journal_end: int = 0  # its last line


@dataclass
class Comparison:
    text: str
    samplers: dict
    gap: int
    limited: int


@dataclass
class Refusal:
    """`refused ..` and `unlawful ..`: there is no more than this line."""

    text: str
    line: str


class Lines:
    """The lines of a text, one after another, with the number of the one that is due."""

    def __init__(self, text):
        if not text.endswith("\n"):
            raise Fault(text.count("\n") + 1, "the text ends within this line")
        self.lines, self.place = text[:-1].split("\n"), 0

    @property
    def number(self):
        return self.place + 1

    def peek(self):
        return self.lines[self.place] if self.place < len(self.lines) else None

    def next(self, form, what):
        """The groups of the next line, which has to be of this form."""
        line = self.peek()
        if line is None:
            raise Fault(self.number, f"the text ends where {what} would stand")
        found = re.fullmatch(form, line)
        if not found:
            raise Fault(self.number, f"{what} is due, and not '{line[:60]}'")
        self.place += 1
        return found.groups()


def read(text):
    """An Outcome, a Comparison or a Refusal. Raises Fault."""
    first = text.split("\n", 1)[0]
    if not text:
        raise Fault(1, "there is no input: what should have written it wrote nothing")
    if first.startswith("hindsight "):
        raise Fault(1, "this is a workload; the page is made of what the program writes: ./hindsight replay < WORKLOAD | ./show --workload WORKLOAD > page.html")
    if first.startswith("head "):
        return read_comparison(text)
    if re.match(r"(refused|unlawful|usage:) ", first):
        lines = Lines(text)
        (line,) = lines.next(r"(.*)", "a refusal")
        if lines.peek() is not None:
            raise Fault(lines.number, "nothing may follow a refusal")
        return Refusal(text, line)
    return read_outcome(text)


def read_comparison(text):
    lines, samplers = Lines(text), {}
    for name in SAMPLERS:
        form = rf"{name} records ({NUMBER}) traces ({NUMBER}) whole ({NUMBER}) shipped ({NUMBER})"
        numbers = map(int, lines.next(form, f"the line of {name}"))
        samplers[name] = dict(zip(("records", "traces", "whole", "shipped"), numbers))
    gap, limited = map(int, lines.next(rf"rest gap ({NUMBER}) limited ({NUMBER})", "the line 'rest'"))
    lines.next("done", "the line 'done'")
    if lines.peek() is not None:
        raise Fault(lines.number, "nothing may follow 'done'")
    return Comparison(text, samplers, gap, limited)


def read_outcome(text):
    lines, out = Lines(text), Outcome(text)
    out.nodes, out.clients = map(int, lines.next(rf"journal 1 ({NUMBER}) ({NUMBER})", "the line 'journal'"))
    read_draws(lines, out)
    read_logs(lines, out)
    lines.next("coordinator", "the line 'coordinator'")
    while (lines.peek() or "").startswith("told "):
        (node,) = lines.next(rf"told ({NUMBER})", "a line 'told'")
        out.told.append((int(node), lines.place))
    lines.next("end", "the line 'end'")
    out.journal_end = lines.place
    read_reports(lines, out)
    read_ledger(lines, out)
    lines.next("done", "the line 'done'")
    if lines.peek() is not None:
        read_watchers(lines, out)
    fill_reports(out)
    return out


def read_draws(lines, out):
    for node in range(out.nodes):
        for client in range(out.clients):
            lines.next(f"draws {node} {client}", f"the line 'draws {node} {client}'")
            draws = out.draws[node, client] = []
            while (lines.peek() or "").startswith(("got ", "empty ")):
                buffer, stamp, empty = lines.next(rf"got ({NUMBER}) ({NUMBER})|empty ({NUMBER})", "a draw")
                draws.append(Draw(None if buffer is None else int(buffer), int(empty if buffer is None else stamp), lines.place))


def read_logs(lines, out):
    form = rf"(chunk|crumb|trigger|given|missed) ({NUMBER})|(ask|turn|unread)"
    for node in range(out.nodes):
        lines.next(f"log {node}", f"the line 'log {node}'")
        log = []
        out.logs.append(log)
        while (lines.peek() or "").split(" ")[0] in STEPS:
            kind, number, alone = lines.next(form, "a step of an agent")
            if kind in ("chunk", "crumb", "trigger") and int(number) >= out.clients:
                raise Fault(lines.place, f"there is no client {number}")
            log.append(Step(kind or alone, None if number is None else int(number), lines.place))


def read_reports(lines, out):
    (count,) = lines.next(rf"reports ({NUMBER})", "the line 'reports'")
    at = lines.number
    if (lines.peek() or "").startswith("["):
        read_json(lines, out)
    while (lines.peek() or "").startswith("report "):
        (trace,) = lines.next(rf"report ({TRACE})", "a report")
        report = Report(trace)
        out.reports.append(report)
        while re.match(r"[0-9]", lines.peek() or ""):
            *key, moment, payload = lines.next(rf"({NUMBER}) ({NUMBER}) ({NUMBER}) ({NUMBER}) ({PAYLOAD})", "a record of a report")
            report.records.append(Entry(*map(int, key), trace, "", lines.place, int(moment), payload))
        while (lines.peek() or "").startswith("gap "):
            *key, fate = lines.next(rf"gap ({NUMBER}) ({NUMBER}) ({NUMBER}) ({FATE})", "a gap of a report")
            report.gaps.append(Entry(*map(int, key), trace, fate, lines.place))
    if len(out.reports) != int(count):
        raise Fault(at - 1, f"{count} reports are said, and {len(out.reports)} follow")


def read_json(lines, out):
    (line,) = lines.next(r"(\[.*\])", "the reports as JSON")
    try:
        for each in json.loads(line):
            report = Report(each["trace"])
            for node, client, number, moment, payload in each["records"]:
                report.records.append(Entry(node, client, number, report.trace, "", lines.place, moment, payload))
            for node, client, number, fate in each["gaps"]:
                report.gaps.append(Entry(node, client, number, report.trace, fate, lines.place))
            out.reports.append(report)
    except (ValueError, KeyError, TypeError) as fault:
        raise Fault(lines.place, f"the reports are no JSON of reports ({fault})") from None


def read_ledger(lines, out):
    (count,) = lines.next(rf"ledger ({NUMBER})", "the line 'ledger'")
    at = lines.place
    form = re.compile(rf"({NUMBER}) ({NUMBER}) ({NUMBER}) ({TRACE}) ({FATE})")
    while re.match(r"[0-9]", lines.peek() or ""):
        node, client, number, trace, fate = lines.next(form, "a line of the ledger")
        out.ledger.append(Entry(int(node), int(client), int(number), trace, fate, lines.place))
        if (int(node), int(client)) not in out.draws:
            raise Fault(lines.place, f"there is no client {client} of node {node}")
    if len(out.ledger) != int(count):
        raise Fault(at, f"{count} records are said, and {len(out.ledger)} lines follow")
    numbers = lines.next(rf"total ({NUMBER})" + "".join(rf" {fate} ({NUMBER})" for fate in FATES), "the line 'total'")
    out.totals = dict(zip(("records", *FATES), map(int, numbers)))
    counted = dict.fromkeys(FATES, 0)
    for entry in out.ledger:
        counted[entry.fate.split(" ")[0]] += 1
    if out.totals != {"records": len(out.ledger), **counted}:
        raise Fault(lines.place, "the totals are not those of the ledger")


def read_watchers(lines, out):
    form = rf"seen ({NUMBER})" + "".join(rf" {name} ({NUMBER})" for name in SEEN)
    while (lines.peek() or "").startswith("watcher "):
        lines.next(f"watcher {len(out.watchers)}", f"the line 'watcher {len(out.watchers)}'")
        seen = []
        out.watchers.append(seen)
        while (lines.peek() or "").startswith("seen "):
            seen.append(dict(zip(("rounds", *SEEN), map(int, lines.next(form, "what a watcher saw")))))
    lines.next("end", "a watcher or the line 'end'")
    if lines.peek() is not None:
        raise Fault(lines.number, "nothing may follow 'end'")


def fill_reports(out):
    """Gives each record of a report its fate, which the ledger has."""
    ledger = {entry.key: entry for entry in out.ledger}
    for report in out.reports:
        for entry in report.records + report.gaps:
            other = ledger.get(entry.key)
            if other is None or other.trace != report.trace or (entry.fate and entry.fate != other.fate):
                raise Fault(entry.line, "the ledger has no such record of this trace")
            if not entry.fate and not other.fate.startswith("reported "):
                raise Fault(entry.line, "the ledger has this record as not reported")
            entry.fate = other.fate
