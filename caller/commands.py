"""The commands of the program, and what is wrong with words that are none."""
import os

from caller.found import Found

MOST_NUMBER = 2**64 - 1
# by the command: its flags, its numbers with their least and greatest, what it reads, what it writes
COMMANDS = {
    "replay": (("--json",), (), "a workload", "what becomes of each record, played on one thread"),
    "run": (("--json", "--watch"), (), "a workload", "the same in threads; with --watch also what two watchers saw"),
    "check": ((), (), "a workload and a journal after it", "the outcome, if the journal is lawful for the workload"),
    "convert": ((), (), "a workload", "the same workload with traces of 128 bits"),
    "compare": ((), (("H", 1, 1000000), ("B", 1, 262144)), "a workload", "what head one in H, tail and a ring of B records would keep"),
    "make": ((), (("SEED", 0, MOST_NUMBER), ("SIZE", 1, 10000)), "", "a workload of SIZE requests"),
    "drill": ((), (("SEED", 0, MOST_NUMBER), ("SIZE", 1, 10000)), "", "the total line of the replay of that workload"),
}
FLAGS = ("--json", "--watch")


def is_number(word):
    """Whether a word is a number as FORMATS has it: digits without a sign and without a leading zero, below 2^64."""
    digits = word.isascii() and word.isdigit()
    return digits and (word == "0" or word[0] != "0") and len(word) <= 20 and int(word) <= MOST_NUMBER


def sorted_out(words):
    """The places of the words that are no flag, and of those that may be one."""
    end = words.index("--") if "--" in words else len(words)
    flags = [at for at in range(end) if words[at].startswith("-")]
    return [at for at in range(len(words)) if at not in flags and at != end], flags


def reads(words):
    """Whether these words are a command that reads standard input."""
    plain, _ = sorted_out(words)
    return fault_of(words) is None and bool(COMMANDS[words[plain[0]]][2])


def awaited(words):
    """What is said where such a command would read what is typed."""
    command = words[sorted_out(words)[0][0]]
    return f"hindsight: {command} reads {COMMANDS[command][2]} from standard input: what is typed here, up to Ctrl-D, or {call_of(command)}"


def fault_of(words):
    """What makes these words no command, or None."""
    plain, flags = sorted_out(words)
    for at, word in enumerate(words):
        if any("\ud800" <= letter <= "\udfff" for letter in word):
            return of_word(words, at, "this word is no text in UTF-8")
    for at in flags:
        if words[at] not in FLAGS:
            return of_word(words, at, f"{shown(words[at])} is no flag", due="A flag is --json or --watch, without a value.")
        if words[at] in [words[before] for before in flags if before < at]:
            return of_word(words, at, f"{words[at]} stands twice")
    if not plain:
        return Found("a command is missing", due=all_commands())
    first = words[plain[0]]
    if first not in COMMANDS:
        return of_word(words, plain[0], f"{shown(first)} is no command", hint_on(first), all_commands())
    return fault_after(words, plain, flags)


def fault_after(words, plain, flags):
    """What is wrong after a command that there is."""
    command = words[plain[0]]
    its_flags, numbers, reading, _ = COMMANDS[command]
    for at in flags:
        if words[at] not in its_flags:
            takers = " and ".join(name for name in COMMANDS if words[at] in COMMANDS[name][0])
            return of_word(words, at, f"{words[at]} goes with {takers} only")
    if len(flags) == 2:
        return of_word(words, flags[1], "--json and --watch do not go together")
    for at, (name, least, most) in zip(plain[1:], numbers):
        if not is_number(words[at]) or not least <= int(words[at]) <= most:
            top = f"{most:,}" if most < MOST_NUMBER else "2^64 - 1"
            due = f"{name}: a number from {least:,} to {top}, in digits alone, without a leading zero."
            return of_word(words, at, f"{shown(words[at])} is no {name}", due=due)
    if len(plain) - 1 < len(numbers):
        missing = [name for name, *_ in numbers[len(plain) - 1 :]]
        return Found(f"{' and '.join(missing)} {'is' if len(missing) == 1 else 'are'} missing", due=f"Due: {form_of(command)}")
    if len(plain) - 1 > len(numbers):
        at = plain[len(numbers) + 1]
        hint = f"It reads {reading} from standard input: {call_of(command, words[at:])}" if reading else None
        return of_word(words, at, f"{shown(words[at])} is one word too many", hint, f"Due: {form_of(command)}")
    return None


def form_of(command):
    """A command with the names of its numbers."""
    flags, numbers, *_ = COMMANDS[command]
    return " ".join([command, *([f"[{' | '.join(flags)}]"] if flags else []), *(name for name, *_ in numbers)])


def call_of(command, files=()):
    """How a command is called whose input stands in a file."""
    words = " ".join([command, *(name for name, *_ in COMMANDS[command][1])])
    if command == "check":
        return f"cat WORKLOAD OUTPUT | ./hindsight {words}"
    return f"./hindsight {words} < {files[0] if len(files) == 1 and os.path.isfile(files[0]) else 'FILE'}"


def hint_on(word):
    """What was meant by a word that is no command."""
    import difflib  # here, since few calls need it

    if os.path.isfile(word):
        return f"A file is given through standard input: ./hindsight replay < {word}"
    near = ["--help"] if word == "help" else ["--version"] if word == "version" else difflib.get_close_matches(word.lower(), COMMANDS, 1)
    return f"Did you mean {near[0]}?" if near else None


def all_commands():
    return f"A command is one of: {', '.join(form_of(name) for name in COMMANDS)}. ./hindsight --help says what each does."


def shown(word):
    """A word as it is told."""
    return "an empty word" if not word else word if word.isprintable() and len(word) < 40 else repr(word)[:40]


def of_word(words, at, what, hint=None, due=None):
    """A fault of one of the words, shown among them all."""
    line = " ".join(["hindsight", *words]).encode(errors="surrogateescape")
    start = len(" ".join(["hindsight", *words[:at], ""]).encode(errors="surrogateescape"))
    return Found(what, line, start, len(words[at].encode(errors="surrogateescape")), hint=hint, due=due)
