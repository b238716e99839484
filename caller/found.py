"""What was found wrong, and where, as text."""

WIDTH = 72  # how much of a line is shown


class Found:
    """What is wrong; the line that has it, from which byte on and for how many; a hint; and what may stand there."""

    def __init__(self, what, line=None, start=0, length=1, hint=None, due=None, number=None):
        self.what, self.line, self.start, self.length = what, line, start, max(length, 1)
        self.hint, self.due, self.number = hint, due, number

    def lines(self):
        """The line with its place, then the hint, then what is due."""
        found = [*self.excerpt()] if self.line is not None else []
        return found + [f"  {text}" for text in (self.hint, self.due) if text]

    def excerpt(self):
        """The line as it stands, cut to what is around the place, in printable characters; and marks below the place."""
        first = max(0, min(self.start - WIDTH // 2, len(self.line) - WIDTH))
        part = self.line[first : first + WIDTH]
        before = ("..." if first else "") + printable(self.line[first : self.start])
        text = ("..." if first else "") + printable(part) + ("..." if first + WIDTH < len(self.line) else "")
        marked = printable(self.line[self.start : min(self.start + self.length, first + WIDTH)])
        label = f"{self.number} | " if self.number else ""
        yield f"  {label}{text}".rstrip()
        yield f"  {' ' * len(label)}{' ' * len(before)}{'^' * max(len(marked), 1)}"


def printable(line):
    """The bytes of a line as characters; one that is no printable ASCII as \\t, \\r or \\xNN."""
    named = {9: "\\t", 13: "\\r"}
    return "".join(named.get(byte) or (chr(byte) if 32 <= byte <= 126 else f"\\x{byte:02x}") for byte in line)
