"""The lines of a workload and of a journal: which words stand on each, and in which range (docs/FORMATS.md)."""
import collections

MOST_NUMBER = 2**64 - 1
MOST_PAYLOAD = 65535
MOST_OPERATIONS = 262144

# What stands in one place of a line: its name, what kind it is of, and the range of a number that has one, with what it counts.
Place = collections.namedtuple("Place", "name kind least most unit", defaults=[None])


def number(name, least=0, most=MOST_NUMBER, unit=None):
    return Place(name, "number", least, most, unit)


def trace(name):
    return Place(name, "trace", None, None)


HEAD = {
    "hindsight": [number("VERSION", 1, 2)],
    "nodes": [number("N", 1, 16)],
    "clients": [number("N", 1, 16)],
    "buffers": [number("N", 1, 1024)],
    "size": [number("N", 64, 32768, "bytes")],
    "threshold": [number("N", 0, 1024)],
    "traces": [number("N", 1, 65536)],
    "pins": [number("N", 0, 1024)],
    "stride": [number("N", 1, 64)],
}
TRIGGER_ID = [number("ID", 1, 64), number("WEIGHT", 1, 100), number("BURST", 1, 1000), number("RATE", 0, 1000000, "tokens a second")]
WINDOW, SHARE = number("WINDOW", 2, 1024), number("SHARE", 1, 9999)
KINDS = {  # of an autotrigger, with what stands after the kind
    "exception": [number("ID")],
    "percentile": [number("ID"), WINDOW, SHARE],
    "category": [number("ID"), WINDOW, SHARE],
    "queue": [number("ID"), WINDOW, SHARE, number("LATERALS", 1, 32)],
}
AUTO = [number("A", 0, 15), Place("KIND", "kind", None, None)]
CLIENT = [number("NODE"), number("NUMBER")]
MOST_LATERALS = 32
MOMENT = number("MOMENT", unit="microseconds")
OPERATIONS = {
    "begin": [trace("TRACE")],
    "point": [MOMENT, Place("PAYLOAD", "payload", None, None)],
    "crumb": [number("NODE")],
    "end": [],
    "trigger": [MOMENT, number("ID"), trace("LEAD")],
    "sample": [MOMENT, number("A"), number("VALUE")],
}
DRAWS = {"got": [number("BUFFER", 0, 1023), number("STAMP")], "empty": [number("STAMP")]}
STEPS = ("chunk", "crumb", "trigger", "ask", "turn", "given", "missed", "unread")


def is_number(word):
    return word.isdigit() and (word == b"0" or word[:1] != b"0") and len(word) <= 20 and int(word) <= MOST_NUMBER


def is_hex(word):
    return bool(word) and not word.strip(b"0123456789abcdef")


def is_payload(word):
    return word == b"-" or (is_hex(word) and len(word) % 2 == 0)


def fits(word, place, digits):
    """Whether such a word may stand there, be it in its range or not; a trace has so many digits."""
    if place.kind == "number":
        return is_number(word)
    return is_payload(word) if place.kind == "payload" else place.kind != "trace" or (is_hex(word) and len(word) == digits)


class Workload:
    """What the lines of a workload say up to one that is refused: all of them are good."""

    journal = False

    def __init__(self, lines):
        self.settings, self.ids, self.autos, self.started = {}, {}, 0, 0
        self.open = self.ended = self.done = None  # the trace and its line; the line of the last `end`; that of `done`
        for at, line in enumerate(lines, 1):
            self.take(at, line.split(b" "))

    def take(self, at, words):
        first = words[0].decode()
        if at <= len(HEAD):
            self.settings[first] = int(words[1])
        elif first == "triggerid":
            self.ids[int(words[1])] = at
        elif first == "auto":
            self.autos += 1
        elif first == "client":
            self.started, self.ended = self.started + 1, None
        elif first == "begin":
            self.open = (words[1].decode(), at)
        elif first == "end":
            self.open, self.ended = None, at
        elif first == "done":
            self.done = at

    def is_declaring(self):
        """Whether the lines are those between the head and the first client."""
        return len(self.settings) == len(HEAD) and not self.started

    def digits(self):
        """How many digits a trace has."""
        return 32 if self.settings.get("hindsight") == 2 else 16

    def next_client(self):
        """The pair of the next client, or None where all have come."""
        nodes, clients = self.settings["nodes"], self.settings["clients"]
        return None if self.started == nodes * clients else divmod(self.started, clients)

    def places(self, words):
        """What stands after the first word of such a line, or None where no line begins so."""
        first = words[0].decode(errors="replace")
        if len(self.settings) < len(HEAD):
            return HEAD.get(first)
        if first == "crumb":
            return [number("NODE", 0, self.settings["nodes"] - 1)]
        if first == "auto":
            kind = words[2].decode(errors="replace") if len(words) > 2 else None
            return AUTO + KINDS.get(kind, [])
        if first == "trigger":
            laterals = min(max(len(words) - 4, 0), MOST_LATERALS)
            return OPERATIONS[first] + [trace("LATERAL")] * laterals
        return {"triggerid": TRIGGER_ID, "client": CLIENT, "done": [], **OPERATIONS}.get(first)

    def due(self):
        """The lines of which one may stand next."""
        if len(self.settings) < len(HEAD):
            word = list(HEAD)[len(self.settings)]
            return [form(word, HEAD[word])]
        if self.done:
            return []
        if not self.started:
            declaring = [] if self.autos else [form("triggerid", TRIGGER_ID)]
            return [*declaring, *(["auto A KIND .."] if self.ids and self.autos < 16 else []), "client 0 0"]
        words = ["point", "crumb", "end"] if self.open else ["begin"]
        words += ["trigger"] * bool(self.ids) + ["sample"] * bool(self.open and self.autos)
        found = [form(word, OPERATIONS[word]) + (" LATERAL .." if word == "trigger" else "") for word in words]
        if self.open:
            return found
        pair = self.next_client()
        return [*found, f"client {pair[0]} {pair[1]}" if pair else "done"]


class Journal:
    """What the lines of a journal say up to one that is refused: all of them are good."""

    journal = True

    def __init__(self, lines):
        self.nodes = self.clients = self.draws = self.logs = 0
        self.last = None
        for line in lines:
            words = line.split(b" ")
            self.last = words[0].decode()
            if self.last == "journal":
                self.nodes, self.clients = int(words[2]), int(words[3])
            self.draws += self.last == "draws"
            self.logs += self.last == "log"

    def places(self, words):
        first = words[0].decode(errors="replace")
        client = [number("CLIENT", 0, self.clients - 1)]
        known = {"journal": [number("VERSION", 1, 1), number("NODES", 1, 16), number("CLIENTS", 1, 16)]}
        known.update({"draws": [number("NODE"), number("CLIENT")], "log": [number("NODE")], **DRAWS})
        known.update({"chunk": client, "crumb": client, "trigger": client, "ask": [], "turn": [], "unread": []})
        known.update({"given": [number("STAMP")], "missed": [number("STAMP")], "coordinator": [], "end": []})
        known["told"] = [number("NODE", 0, self.nodes - 1)]
        return known.get(first)

    def digits(self):
        """How many digits a trace has: no line of a journal names one."""
        return None

    def next_draws(self):
        return divmod(self.draws, self.clients)

    def due(self):
        """The lines of which one may stand next."""
        if self.last is None:
            return [form("journal", self.places([b"journal"]))]
        if self.last == "journal":
            return ["draws 0 0"]
        if self.last in ("draws", *DRAWS):
            more = self.draws < self.nodes * self.clients
            section = "draws {} {}".format(*self.next_draws()) if more else "log 0"
            return [*(form(word, places) for word, places in DRAWS.items()), section]
        if self.last in ("log", *STEPS) and self.logs:
            section = f"log {self.logs}" if self.logs < self.nodes else "coordinator"
            return [*(form(word, self.places([word.encode()])) for word in STEPS), section]
        return [] if self.last == "end" else [form("told", self.places([b"told"])), "end"]


def form(word, places):
    """A line with the names of what stands in it; a number that can be only one, as itself."""
    return " ".join([word, *(str(place.least) if place.kind == "number" and place.least == place.most else place.name for place in places)])


def range_of(place):
    """The range of a number in words."""
    return f"{place.least:,} to {place.most:,}" if place.most < MOST_NUMBER else "0 to 2^64 - 1"


def named(place):
    """The name of what stands there, and what it counts."""
    return f"{place.name}, in {place.unit}" if place.unit else place.name


def wanted(place, digits):
    """What may stand there, as a sentence; a trace has so many digits."""
    if place.kind == "number":
        return f"{named(place)}: a number from {range_of(place)}, in decimal digits alone, without a leading zero."
    if place.kind == "trace":
        return f"{place.name}: exactly {digits} lower-case hexadecimal digits."
    return f"{place.name}: two lower-case hexadecimal digits for each byte, or `-` for no bytes."
