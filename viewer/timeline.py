"""What happened at each node, on one axis of passes for all of them: as marks, or as counts where there are too many, and as data for the script."""
from collections import Counter
from itertools import accumulate

from viewer.drawing import NAMES, area, box, mark, picture, tag, words
from viewer.following import told_of

MARKS = 1500  # without the script more marks than this are told as counts
COLUMN, HIGH, AREA = 12, 18, 66  # of a mark, of a lane, of the buffers below the lanes of a node


class Timeline:
    """What happened at a node: draws and steps in one order, by passes."""

    def __init__(self, outcome, followed, node):
        self.outcome, self.followed, self.node = outcome, followed, node
        self.events = []  # (kind, client or None, line, pass, how it is told)
        self.drawn = sorted(((draw, client) for (n, client), draws in outcome.draws.items() if n == node for draw in draws), key=lambda d: d[0].stamp)
        self.next, self.taken = 0, dict.fromkeys(range(outcome.clients), 0)
        self.got = {client: [draw for draw in draws if draw.buffer is not None] for (n, client), draws in outcome.draws.items() if n == node}
        self.merge(outcome.logs[node])
        self.passes = max((event[3] for event in self.events), default=0)
        self.lanes = self.lanes_of()

    def merge(self, log):
        """Puts each draw before the give that follows it by its stamp, and before its chunk is taken; where its round is known, at that round's pass."""
        number, turned = 1, False
        gives = [step.number for step in log if step.kind in ("given", "missed")][::-1]
        self.draw_round(number, gives)
        for step in log:
            offer = step.kind in ("given", "missed", "unread")
            if turned and not offer:
                number, turned = number + 1, False
                self.draw_round(number, gives)
            if step.kind == "turn":
                turned = True
            if step.kind in ("given", "missed"):
                self.draw_until(step.number, number)
                gives.pop()
            elif step.kind == "chunk":
                mine, place = self.got[step.number], self.taken[step.number]
                if place < len(mine):
                    self.draw_until(mine[place].stamp + 1, number)
                self.taken[step.number] += 1
            self.add_step(step, number)
        self.draw_until(1 << 64, number)

    def draw_until(self, stamp, number):
        while self.next < len(self.drawn) and self.drawn[self.next][0].stamp < stamp:
            draw, client = self.drawn[self.next]
            what = f"client {client} finds the pool empty, stamp {draw.stamp}" if draw.buffer is None else f"client {client} gets buffer {draw.buffer}, stamp {draw.stamp}"
            self.events.append(("null" if draw.buffer is None else "got", client, draw.line, number, what))
            self.next += 1

    def draw_round(self, number, gives):
        rounds = self.followed.rounds if self.followed else {}
        while self.next < len(self.drawn):
            draw = self.drawn[self.next][0]
            if rounds.get(draw.line, number) >= number or (gives and draw.stamp > gives[-1]):
                return
            self.draw_until(draw.stamp + 1, number)

    def add_step(self, step, number):
        client = step.number if step.kind in ("chunk", "crumb", "trigger") else None
        stamp = f", stamp {step.number}" if step.kind in ("given", "missed") else ""
        what = NAMES[step.kind] + (f" of client {client}" if client is not None else stamp)
        effects = self.followed.effects.get(step.line, []) if self.followed else []
        told = "; ".join(effect.text for effect in effects if effect.kind in ("claimed", "limited"))
        self.events.append((step.kind, client, step.line, number, f"{what}{': ' + told if told else ''}"))
        for kind in ("reported", "evicted", "abandoned"):
            mine = [effect for effect in effects if effect.kind == kind]
            if mine:
                count = sum(effect.count for effect in mine)
                text = f"{count} {kind}: " + "; ".join(effect.text for effect in mine[:8]) + (" .." if len(mine) > 8 else "")
                self.events.append((kind, None, step.line, number, text))

    def lanes_of(self):
        """The lanes that have an event: their names and kinds, and the client that they are of."""
        found = [(f"client {client}", ("got", "null", "chunk", "crumb", "trigger"), client) for client in range(self.outcome.clients)]
        found += [("asks", ("ask",), None), ("turns", ("turn",), None), ("reported", ("reported",), None)]
        found += [("evicted", ("evicted",), None), ("abandoned", ("abandoned",), None), ("gives", ("given", "missed", "unread"), None)]
        here = {(kind, client) for kind, client, *_ in self.events}
        return [lane for lane in found if any((kind, lane[2]) in here for kind in lane[1])]

    def places(self):
        """The lane of each kind and client."""
        return {(kind, client): place for place, (_, kinds, client) in enumerate(self.lanes) for kind in kinds}

    @property
    def high(self):
        return HIGH * (1 + len(self.lanes)) + AREA

    def most_out(self):
        return max(accumulate({"got": 1, "given": -1}.get(event[0], 0) for event in self.events), default=0) or 1


class Axis:
    """The time lines of all nodes, one below the other. A pass is as wide as the node that has most to do in it needs."""

    def __init__(self, lines, buffers=None):
        self.lines, self.of = lines, f" of {buffers}" if buffers else ""
        self.tops = [0, *accumulate(line.high for line in lines)]
        widths = Counter()
        for line in lines:
            for number, count in Counter(event[3] for event in line.events).items():
                widths[number] = max(widths[number], count)
        self.firsts = [0, *accumulate(widths[number] for number in range(1, 1 + max((line.passes for line in lines), default=0)))]

    @property
    def events(self):
        return sum(len(line.events) for line in self.lines)

    def html(self):
        drawn = self.marks() if self.events <= MARKS else self.counts()
        return tag("div", self.names() + tag("div", drawn, _class="wide"), id="line")

    def names(self):
        inside = ""
        for line, top in zip(self.lines, self.tops):
            inside += words(0, top + 14, f"node {line.node}", _class="head")
            inside += "".join(words(0, top + 14 + HIGH * place, name) for place, (name, *_) in enumerate(line.lanes, 1))
            inside += words(0, top + line.high - 32, "buffers out,") + words(0, top + line.high - 18, f"most: {line.most_out()}{self.of}")
        return picture(108 if self.of else 84, self.tops[-1], inside, "the names of the lanes")

    def columns(self, line):
        """Each event of a node with its column."""
        number, column = 0, 0
        for event in line.events:
            if event[3] != number:
                number, column = event[3], self.firsts[event[3] - 1]
            yield column, event
            column += 1

    def marks(self):
        """All as marks; every pass begins at a line through all nodes."""
        width = 20 + COLUMN * self.firsts[-1]
        inside = ""
        for line, top in zip(self.lines, self.tops):
            inside += "".join(box(0, top + HIGH * place, width, HIGH - 2, _class="lane") for place in range(1, 1 + len(line.lanes)))
            inside += "".join(words(COLUMN * first + 2, top + 13, number, _class="small") for number, first in enumerate(self.firsts[:-1], 1))
        inside += "".join(tag("line", x1=COLUMN * first, x2=COLUMN * first, y1=0, y2=self.tops[-1], _class="pass") for first in self.firsts[:-1])
        for line, top in zip(self.lines, self.tops):
            lanes, out, points = line.places(), 0, [(0, 0)]
            for column, (kind, client, number, at, what) in self.columns(line):
                inside += mark(kind, COLUMN * column + 1, top + HIGH * (1 + lanes[kind, client]), f"{what} (line {number}, pass {at})", number)
                out += {"got": 1, "given": -1}.get(kind, 0)
                points += [(COLUMN * column, points[-1][1]), (COLUMN * column, out)]
            inside += area([*points, (width, out)], top + line.high - 12, line.most_out())
        return picture(width, self.tops[-1], inside, "time lines of all nodes")

    def counts(self):
        """How many events of each kind a node has: what is told without the script, where there are too many to draw."""
        inside = ""
        for line, top in zip(self.lines, self.tops):
            here = Counter((event[0], event[1]) for event in line.events)
            for place, (_, kinds, client) in enumerate(line.lanes, 1):
                told = ", ".join(f"{NAMES[kind]}: {here[kind, client]:,}" for kind in kinds if here[kind, client])
                inside += words(0, top + 14 + HIGH * place, told)
        return picture(900, self.tops[-1], inside, "how many draws and steps each node has")

    def data(self):
        """For the script: by node and pass the kind, the lane and the line of each event; and what each step brought about."""
        kinds, nodes = list(NAMES), []
        for line, top in zip(self.lines, self.tops):
            lanes, passes = line.places(), [[] for _ in self.firsts[:-1]]
            for kind, client, number, at, _ in line.events:
                passes[at - 1] += kinds.index(kind), lanes[kind, client], number
            nodes.append({"top": top, "high": line.high, "lanes": len(line.lanes), "most": line.most_out(), "passes": passes})
        return {"kinds": kinds, "names": list(NAMES.values()), "firsts": self.firsts, "high": self.tops[-1], "nodes": nodes}


def effects_of(followed):
    """What each step brought about, by its line, of what is one of many the first twenty; and what was told there."""
    found = {line: [[effect.kind, effect.text] for effect in effects[:20]] + [["more", str(len(effects) - 20)]] * (len(effects) > 20) for line, effects in followed.effects.items()}
    for line, message in followed.messages.items():
        found.setdefault(line, []).append(["told", told_of(message)])
    return found
