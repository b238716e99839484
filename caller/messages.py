"""What a status means, and where in the input its reason lies.

The program's word stands: it names the line and the reason, and what is said here looks for the place by that reason. The tables are
those of docs/FORMATS.md, and that of the clauses is the one of docs/RULES.md; .ci/pages compares them.
"""
import difflib
import errno
import os
import re
import select
import stat

from caller import commands, grammar
from caller.found import Found, printable

STATUSES = {  # what is said where no more is known
    "Done": (0, ""),
    "Usage": (2, "the words are no command"),
    "Refused": (3, "the input is refused; the output names the line and the reason"),
    "ReadFault": (4, "standard input could not be read"),
    "WriteFault": (5, "standard output could not be written"),
    "Memory": (6, "memory ran out, and nothing was written"),
    "TooLong": (7, "the input has more than 16,777,216 bytes, which no workload may have"),
    "Unlawful": (8, "the journal is not lawful for the workload; the output names the clause"),
}
REFUSALS = {  # of a line of a workload
    "Truncated": "the input ends too early",
    "Byte": "a byte in it may not stand in a text",
    "Spaces": "one space stands between two words, and none elsewhere",
    "Word": "its first word may not stand here",
    "Count": "it has too few or too many words",
    "Number": "something else stands in place of a number",
    "Hex": "something else stands in place of hexadecimal digits",
    "Range": "a number is too low or too high, or a payload too long",
    "Order": "it is not the next one",
    "Unknown": "what it names was not declared",
    "Open": "a trace is open",
    "NoTrace": "no trace is open for it",
    "StillOpen": "a trace is still open",
    "TooMany": "with it there are more than 262,144 operations",
}
FAULTS = ("Truncated", "Byte", "Spaces", "Word", "Count", "Number", "Range", "Order")  # of a line of a journal
CLAUSES = {  # of a lawful journal: what does not hold
    "L1": "its nodes, clients or logs are not those of the workload, or a client has not one draw for each of its pages",
    "L2": "the stamps of a node do not go from 0 on without a gap, or do not rise within a client or a log",
    "L3": "its draws and gives, by their stamps, are no history of the node's pool",
    "L4": "a buffer is given back whose page was not drawn before, or something happened to the buffer in between",
    "L5": "a log does not consist of passes: first what is taken, queue by queue, then one turn, then offers",
    "L6": "a pass stops offering before its hand is empty or an offer is unread",
    "L7": "an offer is unread that could not be",
    "L8": "a step is left over that has nothing to work on",
    "L9": "the logs differ in their number of passes, or there are fewer than rounds",
    "L10": "at its end something waits, or is pinned",
    "L11": "an agent or the coordinator falls behind",
}
BEGINNINGS = (  # how a text begins that is no workload, and what it is
    (b"\x1f\x8b", "the input is compressed by gzip", "Unpack it first: gunzip -c FILE | ./hindsight ..."),
    (b"\x28\xb5\x2f\xfd", "the input is compressed by zstd", "Unpack it first: zstd -dc FILE | ./hindsight ..."),
    (b"PK\x03\x04", "the input is a zip archive", "Unpack it first: unzip -p FILE | ./hindsight ..."),
    (b"\x7fELF", "the input is a program", None),
    (b"\xef\xbb\xbf", "a byte order mark stands before the first word", "Drop its three bytes: tail -c +4 FILE"),
    (b"\xff\xfe", "the text is in UTF-16, with a byte order mark", "Save it as ASCII: iconv -f UTF-16 -t ASCII FILE"),
    (b"\xfe\xff", "the text is in UTF-16, with a byte order mark", "Save it as ASCII: iconv -f UTF-16 -t ASCII FILE"),
    (b"usage: ", "this is what the program says to words that are no command, and no workload", "Look at the call that wrote it."),
    (b"refused ", "this is what the program says of an input that it refuses, and no workload", "Look at the call that wrote it."),
    (b"unlawful ", "this is what `check` says of a journal, and no workload", "Look at the call that wrote it."),
    (b"journal ", "this is the output of a command, and no workload", f"`check` reads it, after its workload: {commands.call_of('check')}"),
)

AS_PAYLOAD = "Text becomes a payload by: printf 'TEXT' | xxd -p"


def text_of(found, first, page):
    """A message: what is wrong, then where and what is due, then what to read."""
    return "".join(f"{line}\n" for line in (f"hindsight: {first}{found.what}", *found.lines(), f"  See docs/{page}."))


def usage(words):
    """What is said to words that are no command."""
    found = commands.fault_of(words) or Found(STATUSES["Usage"][1], due=commands.all_commands())
    return text_of(found, "", 'FORMATS.md, "The program"')


def refusal(text, said):
    """What is said of an input that the program refuses in these words."""
    line, reason = int(said[-2]), said[-1]
    at = 0
    if said[1] == "journal":
        at = end_of_workload(text)
    lines = text[at:].split(b"\n")
    its_lines = lines[: line - 1]
    state = grammar.Journal(its_lines) if said[1] == "journal" else grammar.Workload(its_lines)
    found = place(reason, state, lines[line - 1], text, line)
    number = line + text[:at].count(b"\n")
    found.number = number
    of_input = f" (line {number} of the input)" if state.journal else ""
    first = f"{'journal ' if state.journal else ''}line {line}{of_input} is refused, {reason}: "
    return text_of(found, first, f'FORMATS.md, "{"Faults of a journal" if state.journal else "Refusals"}"')


def end_of_workload(text):
    """Where the part of the input begins that is a journal."""
    end = 0 if text.startswith(b"done\n") else text.find(b"\ndone\n") + 1
    return end + len(b"done\n") if text[end:].startswith(b"done\n") else len(text)


def place(reason, state, line, text, number):
    """Finds the place in a line that has this reason. Where none is found, the reason's own words are all that is said."""
    for start, what, hint in BEGINNINGS:
        if number == 1 and not state.journal and text.startswith(start):
            length = len(start) if start[0] > 126 or start[0] < 32 else len(line)
            return Found(what, line, 0, length, hint=hint, due=due_of(state))
    words = line.split(b" ")
    found = FINDERS[reason](state, line, words)
    return found or Found(REFUSALS[reason], line, 0, len(line), due=due_of(state))


def due_of(state):
    """The lines that may stand here, as a sentence."""
    due = state.due()
    if not due:
        return "Nothing may stand after `end`." if state.journal else "Nothing may stand after `done`."
    return f"Due here: {due[0]}" if len(due) == 1 else f"Due here, one of: {' | '.join(due)}"


def start_of(words, at):
    """The byte at which a word begins."""
    return len(b" ".join(words[:at])) + bool(at)


def truncated(state, line, words):
    if line.count(b"\r") > 1:
        what = "the input ends in this line: its lines end in carriage returns, and not in newlines"
        return Found(what, line, line.index(b"\r"), hint="Turn them into newlines: tr '\\r' '\\n' < FILE")
    if line:
        due = "Due here: a newline, after the last line too."
        if line != (b"end" if state.journal else b"done"):
            due += f" And then what is left, up to `{'end' if state.journal else 'done'}`."
        return Found("the input ends in this line, before a newline", line, len(line), due=due)
    if state.journal and state.last is None:
        return Found("no journal stands after the workload", due=f"Put one there: {commands.call_of('check')}")
    if not state.journal and not state.settings:
        return Found("the input is empty", due="A workload is due, through standard input: ./hindsight replay < FILE")
    return Found(f"the input ends before its line `{'end' if state.journal else 'done'}`", due=due_of(state))


def byte(state, line, words):
    found = re.search(rb"[^ -~]", line)
    if not found:
        return None
    at, value = found.start(), line[found.start()]
    if value == 13:
        if at == len(line) - 1:
            what = "a carriage return stands before the newline, as in texts from Windows"
            return Found(what, line, at, hint="Drop them all: tr -d '\\r' < FILE")
        return Found("a carriage return stands in it", line, at, due="A newline alone ends a line.")
    if value == 9:
        return Found("a tab stands in it", line, at, due="One space stands between two words.")
    letter = letter_at(line, at)
    named = f"the character {letter}" if letter else f"the byte 0x{value:02x}"
    what = f"{named} stands in it" + (", which is no ASCII" if value > 126 else "")
    due = "Each byte is one of 32 to 126; payloads are in hexadecimal."
    return Found(what, line, at, len(letter.encode()) if letter else 1, due=due)


def letter_at(line, at):
    """The printable character in UTF-8 that begins here, or None."""
    for length in (2, 3, 4):
        try:
            letter = line[at : at + length].decode()
        except UnicodeDecodeError:
            continue
        return letter if len(letter) == 1 and letter.isprintable() else None
    return None


def spaces(state, line, words):
    if not line:
        return Found("the line is empty", line, 0, hint="A text has no empty lines.", due=due_of(state))
    if line.startswith(b" "):
        return Found("a space stands before the first word", line, 0, len(line) - len(line.lstrip(b" ")))
    if line.endswith(b" ") and b"  " not in line.rstrip(b" "):
        return Found("a space stands after the last word", line, len(line.rstrip(b" ")), len(line) - len(line.rstrip(b" ")))
    found = re.search(rb"  +", line)
    return found and Found("more than one space stands between two words", line, found.start(), len(found[0]))


def word(state, line, words):
    if words[0] == b"auto" and not state.journal and state.is_declaring():
        hint, due = meant(words[2], list(grammar.KINDS)), f"Due here, one of: {' | '.join(grammar.KINDS)}"
        return Found(f"{quoted(words[2])} is no kind of autotrigger", line, start_of(words, 2), len(words[2]), hint=hint, due=due)
    hint = meant(words[0], [due.split(" ")[0] for due in state.due()]) or why_not(state, words[0])
    return Found(f"{quoted(words[0])} may not stand here", line, 0, len(words[0]), hint=hint, due=due_of(state))


def meant(given, words):
    """Which word is meant by one that is none of these."""
    near = difflib.get_close_matches(given.decode(errors="replace").lower(), words, 1, 0.7)
    return f"Did you mean {near[0]}?" if near else None


def why_not(state, given):
    """Why a word that there is may not stand here, where it needs saying."""
    if given.startswith((b"#", b"//")):
        return "A text has no comments."
    if state.journal or not state.settings:
        return None
    if state.done:
        return "`check` alone reads something after the workload." if given == b"journal" else None
    if given == b"triggerid" and state.is_declaring():
        return "Ids are declared before the first autotrigger."
    if given in (b"triggerid", b"auto") and state.started:
        return "Ids and autotriggers are declared before the first client."
    if given == b"done" and state.started and state.next_client():
        return "client {} {} is due: each client has its line, also one that does nothing.".format(*state.next_client())
    return "All clients have come." if given == b"client" and state.started and not state.next_client() else None


def quoted(given):
    """A word of the input as it is told."""
    text = printable(given)
    return f"`{text if len(text) <= 40 else text[:37] + '...'}`"


def count(state, line, words):
    places = state.places(words)
    if places is None:
        return None
    first = words[0].decode()
    if first == "auto" and len(words) > 2:
        form = grammar.form(f"auto A {words[2].decode()}", places[2:])
    elif first == "auto":
        form = "auto A KIND ID .."
    else:
        form = grammar.form(first, places) if first != "trigger" else "trigger MOMENT ID LEAD LATERAL .., with up to 32 laterals"
    due = f"Due here: {form}"
    for at, (given, it) in enumerate(zip(words[1:], places), 1):
        if not grammar.fits(given, it, state.digits()):
            hint = AS_PAYLOAD if it.kind == "payload" else grammar.wanted(it, state.digits())
            what = f"{quoted(given)} is no {it.name}, and the line has too {'many' if len(words) - 1 > len(places) else 'few'} words"
            return Found(what, line, start_of(words, at), len(given), hint=hint, due=due)
    if len(words) - 1 > len(places):
        at = len(places) + 1
        return Found(f"{quoted(words[at])} is one word too many", line, start_of(words, at), len(words[at]), due=due)
    missing = places[len(words) - 1 :]
    if not missing:
        return None
    hint = "A payload without bytes is `-`." if missing[0].kind == "payload" else None
    names = missing[0].name if len(missing) == 1 else " and ".join([", ".join(place.name for place in missing[:-1]), missing[-1].name])
    return Found(f"{names} {'is' if len(missing) == 1 else 'are'} missing", line, len(line), hint=hint, due=due)


def places_in(state, words, kind):
    """The words that stand in places of this kind, with their places."""
    places = state.places(words) or []
    return [(at, words[at], it) for at, it in enumerate(places, 1) if it.kind == kind and at < len(words)]


def number(state, line, words):
    for at, given, it in places_in(state, words, "number"):
        if not grammar.is_number(given):
            what = f"{quoted(given)} is no number{why_no_number(given)}"
            return Found(what, line, start_of(words, at), len(given), due=grammar.wanted(it, state.digits()))
    return None


def why_no_number(given):
    if given.isdigit():
        return ": it begins with a zero" if given[:1] == b"0" else ": it is above 2^64 - 1"
    return ": it has a sign" if given[:1] in (b"+", b"-") and given[1:].isdigit() else ""


def hexadecimal(state, line, words):
    for at, given, it in places_in(state, words, "trace") + places_in(state, words, "payload"):
        if not grammar.fits(given, it, state.digits()):
            return bad_hex(given, line, start_of(words, at), grammar.wanted(it, state.digits()), it, state)
    return None


def bad_hex(given, line, start, due, it, state):
    """What keeps a word from being a trace or a payload."""
    of = it.name.lower()
    if given[:2] == b"0x":
        return Found("`0x` stands before the digits", line, start, 2, due=due)
    strange = re.search(rb"[^0-9a-fA-F]", given)
    if strange:
        hint = AS_PAYLOAD if it.kind == "payload" else None
        return Found(f"{quoted(strange[0])} is no hexadecimal digit", line, start + strange.start(), hint=hint, due=due)
    capital = re.search(rb"[A-F]+", given)
    if capital:
        return Found(f"a {of} has no capital letters", line, start + capital.start(), len(capital[0]), due=due)
    digits = f"{len(given):,} digit{'s' if len(given) != 1 else ''}"
    if it.kind == "payload":
        return Found(f"a payload has two digits for each byte, and this one has {digits}", line, start, len(given), due=due)
    hint = "Traces of 32 digits are those of version 2, `hindsight 2` on line 1." if len(given) == 32 else None
    if state.digits() == 32 and len(given) == 16:
        hint = "Traces of 16 digits are those of version 1; `convert` makes a workload of version 2."
    return Found(f"this {of} has {digits}", line, start, len(given), hint=hint, due=due)


def in_range(state, line, words):
    for at, given, it in places_in(state, words, "number"):
        if grammar.is_number(given) and not it.least <= int(given) <= it.most:
            side = "below" if int(given) < it.least else "above"
            bound = it.least if int(given) < it.least else it.most
            hint = "Nodes count from 0." if words[0] in (b"crumb", b"told") and it.name == "NODE" else None
            due = f"{grammar.named(it)}: {grammar.range_of(it)}." if it.least != it.most else f"{it.name}: {it.least}."
            return Found(f"{quoted(given)} is {side} {bound:,}", line, start_of(words, at), len(given), hint=hint, due=due)
    for at, given, it in places_in(state, words, "payload"):
        if len(given) // 2 > grammar.MOST_PAYLOAD:
            due = f"PAYLOAD: at most {grammar.MOST_PAYLOAD:,} bytes. Cut it into several points."
            return Found(f"this payload has {len(given) // 2:,} bytes", line, start_of(words, at), len(given), due=due)
    return None


def order(state, line, words):
    first, start, length = words[0].decode(), start_of(words, 1), len(words[1])
    if first == "triggerid":
        last = max(state.ids)
        due = f"ID: {last + 1} to 64." if last < 64 else "No id is above 64."
        return Found(f"the id {words[1].decode()} does not rise above {last}, the one before", line, start, length, due=due)
    if first == "auto":
        return Found(f"this is not the next autotrigger, {state.autos}", line, start, length, due=f"Due here: auto {state.autos} ..")
    if first == "log":
        return Found(f"log {state.logs} is due", line, start, length, hint="Logs come by node.")
    node, number = state.next_draws() if state.journal else state.next_client()
    hint = "Clients come by node, and then by number; each has its line."
    return Found(f"{first} {node} {number} is due", line, start, len(b" ".join(words[1:])), hint=hint)


def unknown(state, line, words):
    if words[0] == b"sample":
        declared = f"0 to {state.autos - 1}" if state.autos > 1 else "0 alone" if state.autos else "none"
        what, at, form = "autotrigger", 2, "auto A KIND ID .."
    else:
        declared = ", ".join(map(str, state.ids)) or "none"
        what, at, form = "id", 3 if words[0] == b"auto" else 2, grammar.form("triggerid", grammar.TRIGGER_ID)
    due = f"Declared: {declared}. A line `{form}` declares one, before the first client."
    return Found(f"no line above declares the {what} {quoted(words[at])}", line, start_of(words, at), len(words[at]), due=due)


def trace_is_open(state, line, words):
    if not state.open:
        return None
    opened = f"the trace {state.open[0]} is open since line {state.open[1]}"
    return Found(opened, line, 0, len(words[0]), due="Due before it: end")


def no_trace(state, line, words):
    since = f", since `end` on line {state.ended}" if state.ended else ""
    return Found(f"no trace is open{since}", line, 0, len(words[0]), due="Due before it: begin TRACE")


def too_many(state, line, words):
    hint = "A point counts once for each of its pieces. A larger `size` makes fewer pieces."
    return Found(f"with this one there are more than {grammar.MOST_OPERATIONS:,} operations", line, 0, len(words[0]), hint=hint)


FINDERS = {
    "Truncated": truncated,
    "Byte": byte,
    "Spaces": spaces,
    "Word": word,
    "Count": count,
    "Number": number,
    "Hex": hexadecimal,
    "Range": in_range,
    "Order": order,
    "Unknown": unknown,
    "Open": trace_is_open,
    "NoTrace": no_trace,
    "StillOpen": trace_is_open,
    "TooMany": too_many,
}


def of_the_system(status, fault=None):
    """What the system says of standard input or standard output, as far as it is known."""
    try:
        if fault:
            raise fault
        if status == "ReadFault":
            os.read(0, 0)
        else:
            try_output()
    except OSError as fault:
        named = {errno.EBADF: "it is closed, or not open for this", errno.EPIPE: "nobody reads it any more"}
        own = f" ({named[fault.errno]})" if fault.errno in named else ""
        return f": {os.strerror(fault.errno)}{own}"
    return "; the system says no more of it"


def try_output():
    """Finds out why standard output takes no more, without writing to it."""
    mode = os.fstat(1).st_mode
    waiting = select.poll()
    waiting.register(1, 0)
    if any(event & (select.POLLERR | select.POLLHUP) for _, event in waiting.poll(0)) and not stat.S_ISREG(mode):
        raise OSError(errno.EPIPE, "")
    os.write(1, b"")
    if stat.S_ISREG(mode) and os.fstatvfs(1).f_bavail == 0:
        raise OSError(errno.ENOSPC, "")


def names_a_reason(status):
    """Whether the output of a call that ends with this status names a line or a clause."""
    return status in (STATUSES["Refused"][0], STATUSES["Unlawful"][0])


def message(status, words, said, text, fault=None):
    """What is said of a call that ended with this status, not 0: of its words, what it said, its input, and the fault of reading it."""
    name = next((name for name, (its_status, _) in STATUSES.items() if its_status == status), None)
    if name is None:
        return f"hindsight: the program ended with {status}, which is none of its statuses\n"
    meaning = STATUSES[name][1]
    if name == "Usage":
        return usage(words)
    if name == "Refused" and text is not None and re.fullmatch(r"refused (journal )?line \d+ \w+", said) and said.split()[-1] in REFUSALS:
        return refusal(text, said.split())
    if name == "Unlawful" and said.split()[-1:] and said.split()[-1] in CLAUSES:
        clause = said.split()[-1]
        found = Found(f"the journal is not lawful for the workload, {clause}: {CLAUSES[clause]}")
        return text_of(found, "", 'RULES.md, "The lawful journal"')
    if name in ("ReadFault", "WriteFault"):
        meaning += of_the_system(name, fault)
    return text_of(Found(meaning), "", 'FORMATS.md, "Statuses"')
