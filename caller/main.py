"""Runs the program with these words, for ./hindsight. The first word says what standard input is: `folder` or `input`.

Runs the built program where it is newer than all that it is built from; else the sources as they stand, compiled unproved, with
checks as they run. What was compiled so is kept, and runs as long as no source is newer. Unproved, `replay` alone may go by
crates/replay, which stands on half of the sources and says of it the same.

Words, input, output, signals and status pass through. Where the status is not 0, it is explained on standard error, if that is open.
"""
import os
import signal
import sys
import time

sys.dont_write_bytecode = True
sys.path.insert(0, os.path.dirname(os.path.dirname(os.path.abspath(__file__))))

from caller import commands, passing, sources


def say(text):
    """Says this on standard error, where that is open."""
    try:
        os.write(2, text.encode(errors="replace"))
    except OSError:
        pass


def program_for(words):
    """The program to run, and its words. One that is not there yet is compiled."""
    if sources.is_current(sources.built(), "hindsight"):
        return sources.built(), words
    choices = [("hindsight", words)]
    if words == ["replay"]:
        choices.append(("replay", []))
    for crate, its_words in choices:
        if sources.is_current(sources.unproved(crate), crate):
            say("hindsight: not built from these sources (./build does that): unproved, with checks\n")
            return sources.unproved(crate), its_words
    crate, its_words = choices[-1]
    takes = "about a minute" if crate == "replay" else "two minutes or more"
    say(f"hindsight: not built from these sources (./build does that): unproved, with checks; compiling it, once, takes {takes}\n")
    compile(crate)
    return sources.unproved(crate), its_words


def compile(crate):
    """Compiles a program unproved; on a terminal with a line that counts the seconds."""
    from caller import unproved

    begin, told, on_terminal = time.monotonic(), 0, os.isatty(2)

    def tell(doing):
        nonlocal told
        seconds = int(time.monotonic() - begin)
        if on_terminal and seconds > told:
            told = seconds
            say(f"\r\033[K{seconds} s  {doing}")

    for number in (signal.SIGHUP, signal.SIGTERM):
        signal.signal(number, lambda number, _: sys.exit(128 + number))
    try:
        unproved.compile(crate, tell)
    except unproved.NotCompiled as fault:
        say(f"{fault}\nhindsight: no program was compiled\n")
        sys.exit(1)
    finally:
        if told:
            say("\r\033[K")
        for number in (signal.SIGHUP, signal.SIGTERM):
            signal.signal(number, signal.SIG_DFL)


def answered(words):
    """What this script answers by itself, or None."""
    before = words[: words.index("--")] if "--" in words else words
    if "--help" in before or "-h" in before:
        from caller import about

        return about.usage()
    if "--version" in before:
        from caller import about

        return about.version()
    return None


def is_open(stream):
    try:
        os.fstat(stream)
    except OSError:
        return False
    return True


def explain(status, program, its_words, words, given):
    """Says what the status means. A refused input is given to the program once more, to hear which line and which reason it names."""
    import subprocess

    from caller import messages

    said, text = "", given.text() if given else None
    if messages.names_a_reason(status) and text is not None:
        again = subprocess.run([program, *its_words], input=text, stdout=subprocess.PIPE, stderr=subprocess.DEVNULL)
        said = again.stdout.decode("ascii", "replace").strip() if again.returncode == status else ""
    say(messages.message(status, words, said, text, given.fault if given else None))


def main(is_folder, words):
    own = answered(words)
    if own is not None:
        try:
            os.write(1, own.encode())
        except OSError:
            return 5
        return 0
    if os.isatty(0) and os.isatty(2) and commands.reads(words):
        say(f"{commands.awaited(words)}\n")
    try:
        program, its_words = program_for(words)
    except KeyboardInterrupt:
        passing.end_by(signal.SIGINT)
    if not is_open(2):
        passing.replace(program, its_words)
    if signal.getsignal(signal.SIGINT) == signal.default_int_handler:
        signal.signal(signal.SIGINT, signal.SIG_DFL)
    given = passing.Input(is_folder) if commands.reads(words) else None
    try:
        ended = passing.run(program, its_words, given)
    except OSError as fault:  # of a program that does not start
        say(f"hindsight: {program}: {fault.strerror}\n")
        return 1
    if os.WIFEXITED(ended) and os.WEXITSTATUS(ended):
        try:
            explain(os.WEXITSTATUS(ended), program, its_words, words, given)
        except Exception as fault:  # what is said is a help, and never a reason to end in another way
            say(f"hindsight: status {os.WEXITSTATUS(ended)}; see docs/FORMATS.md, \"Statuses\" ({fault!r})\n")
    passing.end_as(ended)


if __name__ == "__main__":
    sys.exit(main(sys.argv[1] == "folder", sys.argv[2:]))
