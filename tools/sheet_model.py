#!/usr/bin/env python3
"""A second, independent `list_sheet`, to compare with the proved program.

It was written from docs/RULES.md alone ("The run sheet", "A sheet in words")
and shares nothing with the program. It turns the sheet into one long string
of the characters 0 and 1 and cuts the fields off that string.

As a script: sheet on standard input, its text on standard output.
"""

import sys

MOST_BYTES = 65536


class Fault(Exception):
    def __init__(self, number, place):
        layer = "plan" if number in (11, 12, 13) else "sheet"
        super().__init__(f"fault {number} at {place} ({layer})")


class Bits:
    """The bits of a sheet, and the place up to which they have been read."""

    def __init__(self, data):
        self.text = "".join(f"{byte:08b}" for byte in data)
        self.place = 0

    def rest(self):
        return self.text[self.place:]

    def field(self, width, right=None, number=None):
        """Read a field; a value that is not among the right ones gives the fault."""
        cut = self.text[self.place:self.place + width]
        if len(cut) < width:
            raise Fault(20, self.place)
        value = int(cut, 2)
        if right is not None and value not in right:
            raise Fault(number, self.place)
        self.place += width
        return value


def header_line(bits):
    bits.field(4, [1], 21)
    kind = ["tally", "capture"][bits.field(2, [0, 1], 21)]
    shelf = ["flag", "block"][bits.field(2, [0, 1], 21)]
    parties = bits.field(5, range(1, 25), 11)
    links = bits.field(3, range(1, 5), 12)
    channels = bits.field(7, range(1, 65), 13)
    bits.field(1, [0], 21)
    return f"sheet kind {kind} shelf {shelf} parties {parties} links {links} channels {channels}"


def record_words(bits):
    """The next record in words, without its number; None for the end code."""
    code = bits.field(3, range(6), 22)
    if code == 0:
        return None
    party = bits.field(5)
    if code == 1:
        channel = bits.field(7)
        word = bits.field(64)
        return f"amendment party {party} channel {channel} word 0x{word:016X}"
    if code == 2:
        channels = [str(bits.field(7)) for _ in range(bits.field(3))]
        return f"picture party {party} channels {' '.join(channels) or 'none'}"
    if code == 3:
        return f"turn party {party}"
    if code == 4:
        return f"release party {party}"
    return f"look party {party} link {bits.field(3)}"


def lines_of(data):
    """The lines one by one; a fault is raised where it is met."""
    if len(data) > MOST_BYTES:
        raise Fault(24, 0)
    bits = Bits(data)
    yield header_line(bits)
    for number, words in enumerate(iter(lambda: record_words(bits), None), start=1):
        yield f"{number} {words}"
    rest = bits.rest()
    if len(rest) >= 8 or "1" in rest:
        raise Fault(23, bits.place)
    yield "end"


def list_sheet(data: bytes) -> str:
    lines = []
    try:
        for line in lines_of(data):
            lines.append(line)
    except Fault as fault:
        lines.append(str(fault))
    return "".join(line + "\n" for line in lines)


if __name__ == "__main__":
    sys.stdout.write(list_sheet(sys.stdin.buffer.read()))
