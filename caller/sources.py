"""Which sources a program is made of, and whether what was made is newer than all of them."""
import os

TOP = os.path.dirname(os.path.dirname(os.path.abspath(__file__)))
PARTS = ("src", "specs", "proofs")  # what a crate is built from


def lines_below(program):
    """The lines of crates.txt of the crates that the program stands on, and of itself, by name."""
    listed = {}
    with open(os.path.join(TOP, "crates.txt")) as file:
        for line in file.read().splitlines():
            if ":" in line.partition("#")[0]:
                listed[line.split(":")[0].split()[0]] = line
    below, left = {}, [program]
    while left:
        crate = left.pop()
        if crate not in below:
            below[crate] = listed[crate]
            left += [name for name in listed[crate].split(":", 1)[1].split() if name in listed]
    return below


def out_of(crate):
    """The folder of what is made of a crate."""
    return os.path.join(TOP, "crates", crate, "out")


def built():
    """Where ./build leaves the program."""
    return os.path.join(out_of("hindsight"), "hindsight")


def unproved(crate):
    """Where a program that was compiled unproved is kept."""
    return os.path.join(out_of(crate), "unproved")


def is_current(made, program):
    """Whether this file is newer than all that the program is made of, folders too, since a file may have gone."""
    try:
        when = os.stat(made).st_mtime_ns
        sources = [os.path.join(TOP, name) for name in ("crates.txt", "HANDLES")]
        for crate in lines_below(program):
            for part in PARTS:
                for folder, _, files in os.walk(os.path.join(TOP, "crates", crate, part)):
                    sources += [folder, *(os.path.join(folder, file) for file in files)]
        return all(os.stat(source).st_mtime_ns < when for source in sources)
    except FileNotFoundError:
        return False
