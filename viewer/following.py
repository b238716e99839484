"""Follows a journal with its workload beside it, to find where each fate came about, and what each group asked for.

A plain retelling of docs/RULES.md for a picture's sake: it proves nothing, and what it cannot follow it refuses.
"""
import re
from collections import Counter, OrderedDict, defaultdict, deque
from dataclasses import dataclass, field

from viewer.reading import Fault

MASK = (1 << 64) - 1
HEAD = ("hindsight", "nodes", "clients", "buffers", "size", "threshold", "traces", "pins", "stride")


@dataclass
class Workload:
    settings: dict
    ids: dict  # weight, burst and rate of each trigger id
    autos: list
    operations: dict  # by node and client, lists of words

    def __getattr__(self, name):
        return self.settings[name]


@dataclass
class Page:
    trace: str
    client: int
    draw: object
    round: int
    used: int = 24
    standing: str = ""
    where: int = 0  # the line of the journal where it came to stand so


@dataclass
class Record:
    trace: str
    moment: int
    payload: str
    pages: list


@dataclass
class Crumb:
    """A crumb that a client left: where it was told, or how it was forgotten."""

    trace: str
    by: int
    to: int
    known: bool = False  # a crumb that the claimed trace had already changes nothing
    forgotten: int = 0  # the line that evicted its trace
    told: list = field(default_factory=list)  # the messages that named the node


@dataclass
class Ask:
    """A node that was asked for a group, or the one that admitted it."""

    node: int
    because: object = None  # the message that led there
    line: int = 0  # where the node took the ask


@dataclass
class Message:
    """What an agent told of a group."""

    node: int
    group: object
    crumbs: list
    line: int  # of the agent's log
    forgotten: list = field(default_factory=list)  # crumbs of the group's traces that were evicted here before
    asked: list = field(default_factory=list)

    @property
    def nodes(self):
        return sorted({crumb.to for crumb in self.crumbs})


@dataclass
class Group:
    node: int
    number: int
    trigger: int
    lead: str
    laterals: list
    line: int
    asked: list = field(default_factory=list)

    @property
    def key(self):
        return self.node, self.number

    @property
    def traces(self):
        return list(dict.fromkeys([self.lead, *self.laterals]))

    @property
    def rank(self):
        return rank_of(self.lead), int(self.lead, 16), self.node, self.number


@dataclass
class Effect:
    """What a step brought about."""

    kind: str  # evicted, abandoned, reported, claimed, limited
    text: str
    count: int = 1


@dataclass
class Followed:
    records: dict  # by node and client
    effects: dict  # by line of the journal
    groups: list
    claims: dict  # by trace, (node, group) for each node that claimed it
    crumbs: dict  # by trace, all that were left
    messages: dict  # by line of the journal: that of the step that told it, and that where the coordinator heard it
    rounds: dict  # the round of each draw, by line


def rank_of(trace):
    both = int(trace, 16)
    z = ((both >> 64 ^ both & MASK) + 0x9E3779B97F4A7C15) & MASK
    z = (z ^ z >> 30) * 0xBF58476D1CE4E5B9 & MASK
    z = (z ^ z >> 27) * 0x94D049BB133111EB & MASK
    return z ^ z >> 31


def read_workload(text):
    """The workload of a text that the program takes. Of one that it refuses only some faults are found."""
    settings, ids, autos, operations, ops = {}, {}, [], {}, None
    for number, line in enumerate(text.split("\n"), 1):
        words = line.split(" ")
        if number <= len(HEAD):
            if words[0] != HEAD[number - 1] or len(words) != 2 or not words[1].isdigit():
                raise Fault(number, f"'{HEAD[number - 1]} N' is due")
            settings[words[0]] = int(words[1])
        elif words[0] == "triggerid" and len(words) == 5:
            ids[int(words[1])] = tuple(map(int, words[2:]))
        elif words[0] == "auto" and len(words) >= 4:
            autos.append((words[2], *map(int, words[3:])))
        elif words[0] == "client" and len(words) == 3:
            ops = operations[int(words[1]), int(words[2])] = []
        elif words[0] in ("begin", "point", "crumb", "end", "trigger", "sample") and ops is not None:
            ops.append(words)
        elif line == "done":
            return Workload(settings, ids, autos, operations)
        else:
            raise Fault(number, "this is no line of a workload here")
    raise Fault(text.count("\n") + 1, "the text ends before 'done'")


class Autotrigger:
    def __init__(self, kind, trigger, window=0, share=0, laterals=0):
        self.kind, self.trigger, self.window, self.share, self.laterals, self.seen = kind, trigger, window, share, laterals, []

    def sample(self, value, trace):
        """The laterals where it fires, else None."""
        last, found = self.seen[-self.window :] if self.window else [], None
        if self.kind == "exception":
            found = [] if value else None
        elif len(last) == self.window:
            equal, less = (sum(test(v) for v, _ in last) for test in (value.__eq__, value.__gt__))
            if self.kind == "category":
                found = [] if equal * 10000 < self.share * self.window else None
            elif less * 10000 >= self.share * self.window:
                earlier = [t for _, t in reversed(self.seen[-self.laterals :])] if self.kind == "queue" else []
                found = [t for t in dict.fromkeys(earlier) if t != trace]
        self.seen.append((value, trace))
        return found


class Client:
    """What a client sent, as the workload and its draws have it."""

    def __init__(self, workload, node, number, draws):
        self.workload, self.node, self.number, self.draws = workload, node, number, iter(draws)
        self.records, self.chunks, self.crumbs, self.triggers = [], deque(), deque(), deque()
        self.left = []  # all crumbs
        autos = [Autotrigger(*words) for words in workload.autos]
        trace, self.page = None, None
        for place, words in enumerate(workload.operations.get((node, number), [])):
            kind = words[0]
            if kind == "begin":
                trace, self.page = words[1], None
            elif kind == "point":
                self.point(trace, int(words[1]), words[2], place // workload.stride)
            elif kind == "crumb":
                self.left.append(Crumb(trace, node, int(words[1])))
                self.crumbs.append(self.left[-1])
            elif kind == "end":
                trace, self.page = None, None
            elif kind == "trigger":
                self.triggers.append((int(words[1]), int(words[2]), words[3], words[4:]))
            else:
                auto = autos[int(words[2])]
                laterals = auto.sample(int(words[3]), trace)
                if laterals is not None:
                    self.triggers.append((int(words[1]), auto.trigger, trace, laterals))

    def point(self, trace, moment, payload, round):
        count, room, pages = len(payload) // 2, self.workload.size - 34, []
        for start in range(0, max(count, 1), room):
            cost = 10 + min(room, count - start)
            if self.page is None or self.page.used + cost > self.workload.size:
                draw = next(self.draws, None)
                if draw is None:
                    raise Fault(1, f"client {self.number} of node {self.node} has fewer draws than pages")
                self.page = Page(trace, self.number, draw, round)
                if draw.buffer is None:
                    self.page.standing, self.page.where = f"null {draw.stamp}", draw.line
                else:
                    self.chunks.append(self.page)
            self.page.used += cost
            pages.append(self.page)
        self.records.append(Record(trace, moment, payload, pages))


class Agent:
    def __init__(self, workload, node):
        self.workload, self.node = workload, node
        self.index, self.indexed = OrderedDict(), 0  # of each trace its pages and crumbs, touched longest ago first
        self.claims, self.crumbs, self.groups, self.gone, self.forgotten = {}, {}, {}, set(), defaultdict(list)
        self.pinned = {id: OrderedDict() for id in workload.ids}
        self.buckets = {id: (burst * 10**6, 0) for id, (_, burst, _) in workload.ids.items()}
        self.deficit = dict.fromkeys(workload.ids, 0)
        self.admitted, self.told, self.asks, self.effects, self.line = 0, deque(), deque(), [], 0

    def stand(self, page, standing):
        page.standing, page.where = standing, self.line

    def note(self, kind, text, count=1):
        self.effects.append(Effect(kind, text, count))

    def touch(self, trace):
        self.index.setdefault(trace, ([], []))
        self.index.move_to_end(trace)
        return self.index[trace]

    def evict(self):
        while self.indexed > self.workload.threshold or len(self.index) > self.workload.traces:
            chunks, traces = self.indexed, len(self.index)
            trace, (pages, crumbs) = self.index.popitem(last=False)
            for page in pages:
                self.stand(page, f"evicted {chunks} {traces}")
            for crumb in crumbs:
                crumb.forgotten = self.line
            self.forgotten[trace] += crumbs
            self.indexed -= len(pages)
            self.note("evicted", f"trace {trace}: evicted {chunks} {traces}", len(pages))
            if crumbs:
                self.note("forgotten", f"Its crumbs to {nodes_of(crumbs)} were forgotten with it.")

    def fate(self, word, group):
        rank = f" {rank_of(group.lead):016x}" if word == "abandoned" else ""
        return f"{word} {group.trigger} {group.lead}{rank}"

    def pin(self, group, page):
        self.pinned[group.trigger].setdefault(group.key, deque()).append(page)
        self.stand(page, "pinned")

    def count(self, id):
        return sum(map(len, self.pinned[id].values()))

    def abandon(self):
        while sum(map(self.count, self.pinned)) > self.workload.pins:
            most = max(self.pinned, key=lambda id: (self.count(id), -id))
            group = min((self.groups[key] for key in self.pinned[most]), key=lambda group: group.rank)
            pages = self.pinned[most].pop(group.key)
            for page in pages:
                self.stand(page, self.fate("abandoned", group))
            self.gone.add(group.key)
            self.note("abandoned", self.fate("abandoned", group), len(pages))

    def chunk(self, page):
        group = self.claims.get(page.trace)
        if group is None:
            self.touch(page.trace)[0].append(page)
            self.indexed += 1
            self.stand(page, "live")
            self.evict()
        elif group.key in self.gone:
            self.stand(page, self.fate("abandoned", group))
            self.note("abandoned", self.fate("abandoned", group))
        else:
            self.pin(group, page)
            self.abandon()

    def crumb(self, crumb):
        if crumb.trace not in self.claims:
            self.touch(crumb.trace)[1].append(crumb)
            self.evict()
            return
        known = self.crumbs[crumb.trace]
        crumb.known = crumb.to in {other.to for other in known}
        if not crumb.known:
            known.append(crumb)
            self.tell(self.claims[crumb.trace], [crumb], late=True)

    def tell(self, group, crumbs, late=False):
        forgotten = [] if late else [crumb for trace in group.traces for crumb in self.forgotten[trace]]
        message = Message(self.node, group, crumbs, self.line, forgotten)
        for crumb in crumbs:
            crumb.told.append(message)
        self.told.append(message)

    def trigger(self, item):
        moment, id, lead, laterals = item
        _, burst, rate = self.workload.ids[id]
        level, last = self.buckets[id]
        level = min(burst * 10**6, level + max(0, moment - last) * rate)
        if level < 10**6:
            self.buckets[id] = level, max(moment, last)
            self.note("limited", f"trigger {id} for {lead} was limited")
            return
        self.buckets[id] = level - 10**6, max(moment, last)
        group = Group(self.node, self.admitted, id, lead, laterals, self.line)
        self.admitted += 1
        self.claim(group)

    def claim(self, group):
        self.groups[group.key] = group
        for trace in group.traces:
            if trace in self.claims:
                continue
            pages, crumbs = self.index.pop(trace, ([], []))
            self.indexed -= len(pages)
            self.claims[trace], self.crumbs[trace] = group, crumbs
            self.note("claimed", f"trace {trace} for trigger {group.trigger}")
            for page in pages:
                self.pin(group, page)
        self.abandon()
        self.tell(group, [crumb for trace in group.traces for crumb in self.crumbs[trace]])

    def turn(self):
        for id, (weight, _, _) in sorted(self.workload.ids.items()):
            groups, budget = self.pinned[id], self.deficit[id] + weight * self.workload.size
            while groups:
                key = max(groups, key=lambda key: self.groups[key].rank)
                if groups[key][0].used > budget:
                    break
                page = groups[key].popleft()
                if not groups[key]:
                    del groups[key]
                budget -= page.used
                self.stand(page, self.fate("reported", self.groups[key]))
                self.note("reported", f"trace {page.trace}, a page of client {page.client}")
            self.deficit[id] = budget if groups else 0

    def step(self, step, clients):
        """Carries a step out; answers False where it cannot be yet."""
        self.line, self.effects = step.line, []
        if step.kind in ("chunk", "crumb", "trigger"):
            queue = getattr(clients[step.number], step.kind + "s")
            if not queue:
                return False
            getattr(self, step.kind)(queue.popleft())
        elif step.kind == "ask":
            if not self.asks:
                return False
            group, ask = self.asks.popleft()
            ask.line = self.line
            self.claim(group)
        elif step.kind == "turn":
            self.turn()
        return True


def follow(workload, outcome):
    """Where each fate came about, what each step brought about, and whom each group asked."""
    if (workload.nodes, workload.clients) != (outcome.nodes, outcome.clients):
        raise Fault(1, "the workload has other nodes or clients")
    clients = {key: Client(workload, *key, draws) for key, draws in outcome.draws.items()}
    agents = [Agent(workload, node) for node in range(outcome.nodes)]
    effects, groups, messages, heard, at = {}, OrderedDict(), {}, 0, [0] * outcome.nodes
    went = True
    while went:
        went = False
        for node, agent in enumerate(agents):
            mine = [clients[node, number] for number in range(outcome.clients)]
            while at[node] < len(outcome.logs[node]) and agent.step(outcome.logs[node][at[node]], mine):
                if agent.effects:
                    effects[agent.line] = agent.effects
                at[node], went = at[node] + 1, True
        while heard < len(outcome.told) and agents[outcome.told[heard][0]].told:
            node, line = outcome.told[heard]
            message = agents[node].told.popleft()
            hear(agents, groups, message)
            messages[message.line] = messages[line] = message
            heard, went = heard + 1, True
    for node, log in enumerate(outcome.logs):
        if at[node] < len(log):
            raise Fault(log[at[node]].line, "the workload has nothing that this step could take")
    check_fates(clients, outcome)
    rounds = {page.draw.line: page.round for client in clients.values() for record in client.records for page in record.pages}
    records = {key: client.records for key, client in clients.items()}
    return Followed(records, effects, list(groups.values()), claims_of(agents), crumbs_of(clients.values()), messages, rounds)


def claims_of(agents):
    claims = defaultdict(list)
    for agent in agents:
        for trace, group in agent.claims.items():
            claims[trace].append((agent.node, group))
    return claims


def crumbs_of(clients):
    crumbs = defaultdict(list)
    for client in clients:
        for crumb in client.left:
            crumbs[crumb.trace].append(crumb)
    return crumbs


def hear(agents, groups, message):
    """The coordinator asks each node that was told and was not asked for the group before."""
    group = groups.setdefault(message.group.key, message.group)
    if not group.asked:
        group.asked.append(Ask(message.node))
    asked = {ask.node for ask in group.asked}
    for node in message.nodes:
        if node not in asked:
            message.asked.append(Ask(node, message))
            agents[node].asks.append((group, message.asked[-1]))
    group.asked += message.asked


def nodes_of(crumbs):
    """The nodes that crumbs name: 'node 1', 'nodes 1, 2'."""
    nodes = sorted({crumb.to for crumb in crumbs})
    return f"node{'s' * (len(nodes) > 1)} {', '.join(map(str, nodes))}"


def told_of(message):
    """In sentences what a message told, what was forgotten before, and who was asked because of it; of a group's first message, all who were asked."""
    group, lost = message.group, defaultdict(list)
    first = group.line == message.line
    told = f"At line {message.line} node {message.node} told of {nodes_of(message.crumbs) if message.crumbs else 'no node'}"
    found = [f"{told} for the group of trigger {group.trigger} with the lead {group.lead}{'' if first else f', admitted at line {group.line}'}."]
    for crumb in message.forgotten:
        lost[crumb.trace, crumb.forgotten].append(crumb)
    found += [f"Forgotten at line {line} with the evicted trace {trace}: its crumbs to {nodes_of(crumbs)}." for (trace, line), crumbs in list(lost.items())[:5]]
    if first:
        asks = [f"node {ask.node} (line {ask.line}), of which node {ask.because.node} told at line {ask.because.line}" for ask in group.asked[1:]]
        found.append(f"Asked for this group: {'; '.join(asks) or 'no node'}.")
    elif message.crumbs:
        asks = [f"node {ask.node} (line {ask.line})" for ask in message.asked]
        found.append(f"Asked because of that: {', '.join(asks) or 'no node, since each had been asked before or admitted the group'}.")
    return " ".join(found)


def page_of_fate(record):
    """The page that decides a record's fate: its first one whose piece was discarded, else its first."""
    lost = (page for page in record.pages if re.match("null|evicted|abandoned", page.standing))
    return next(lost, record.pages[0])


def check_fates(clients, outcome):
    count = 0
    for entry in outcome.ledger:
        records = clients[entry.node, entry.client].records
        count += 1
        if entry.number >= len(records) or records[entry.number].trace != entry.trace:
            raise Fault(entry.line, "the workload has no such record")
        if page_of_fate(records[entry.number]).standing != entry.fate:
            raise Fault(entry.line, f"the journal makes this record {page_of_fate(records[entry.number]).standing}")
    if count != sum(len(client.records) for client in clients.values()):
        raise Fault(outcome.journal_end, "the workload has more records than the ledger")
