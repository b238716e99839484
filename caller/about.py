"""What ./hindsight says of itself."""
import subprocess

from caller import sources
from caller.commands import COMMANDS, form_of


def usage():
    """What each command does."""
    rows = [(form_of(name), reads, writes) for name, (_, _, reads, writes) in COMMANDS.items()]
    width = max(len(form) for form, *_ in rows)
    found = ["usage: ./hindsight COMMAND < INPUT > OUTPUT", ""]
    for form, reads, writes in rows:
        found.append(f"  {form:{width}}  {'reads ' + reads if reads else 'reads nothing'}; writes {writes}")
    found += ["", f"As in: {'./hindsight replay < examples/one-client.txt'}"]
    found += ["Where the status is not 0, standard error says why. docs/FORMATS.md has each line and status, docs/TUTORIAL.md the way in."]
    return "".join(line + "\n" for line in found)


def said_by(*words):
    """The first line that a command writes, or nothing where it cannot be run."""
    try:
        ended = subprocess.run(words, cwd=sources.TOP, stdin=subprocess.DEVNULL, capture_output=True, text=True)
    except OSError:
        return None
    return ended.stdout.partition("\n")[0] if ended.returncode == 0 else None


def version():
    """Of which commit the program is, with which kit, and whether it is proved."""
    commit = said_by("git", "log", "-1", "--format=%h of %cs") or "of an unknown commit"
    changed = ", changed since" if said_by("git", "status", "--porcelain", "--untracked-files=no") else ""
    kit = said_by("rt", "version") or "no Rattle kit on the path"
    if sources.is_current(sources.built(), "hindsight"):
        proved = "proved: ./build made the program of these sources"
    elif sources.is_current(sources.unproved("hindsight"), "hindsight"):
        proved = "unproved: the program was compiled of these sources with checks; ./build proves them"
    else:
        proved = "unproved: no program was made of these sources yet; ./build proves them"
    return f"hindsight {commit}{changed}\n{kit}\n{proved}\n"
