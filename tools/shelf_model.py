#!/usr/bin/env python3
"""A second, independent flag shelf and block shelf, to compare with the proved ones.

They were written from docs/RULES.md alone and share nothing with the program.
Readings are tallies. While a schedule runs, each step is checked against the
meaning of a shelf, which is kept apart from both (IdealShelf, CheckedShelf).

As a script: a schedule for `drive_shelf` on standard input, its text on
standard output. With --self-test: worked examples and random schedules, each
checked against the meaning.
"""

import argparse
import random
import sys
from collections import Counter
from dataclasses import dataclass, field

MOST_COMMANDS = 65536
UNMADE = 9999                   # what each block holds before the making
FLAG, BLOCK = 0, 1
SHELVES = ["flag", "block"]
TAKE, PUT, CHECK, DROP, LOOK, TURN, PLACE, IDLE = range(8)
CALLS = ["take", "put", "check", "drop", "look", "turn", "place", "idle"]


# Plans.

def need_of(shelf, n, k, c):
    h = n * k
    return c + n * k if shelf == FLAG else c + n * (h + 1)


def patience_of(shelf, n, k):
    return 0 if shelf == FLAG else max(5, n * k)


def plan_refusal(shelf, n, k, c, blocks):
    if not 1 <= n <= 24:
        return 11
    if not 1 <= k <= 4:
        return 12
    if not 1 <= c <= 64:
        return 13
    if blocks < need_of(shelf, n, k, c):
        return 14
    return None


# The two shelves.

class Shelf:
    """What both share: the making, the refusals, and which parties are busy."""

    def __init__(self, n, k, c, row):
        if plan_refusal(self.kind, n, k, c, len(row)) is not None:
            n = k = c = self.need = 0
        else:
            self.need = need_of(self.kind, n, k, c)
        self.n, self.k, self.c = n, k, c
        self.row = row
        for b in range(self.need):
            row[b] = 0
        self.running = [None] * n       # each party's operation
        self.forced = False             # did the last turn bring an operation into force?

    def refused(self, tests, p, l=None, c=None):
        """The text of the first test that fits, or None."""
        for number in tests:
            if (number == 1 and p >= self.n
                    or number == 2 and self.running[p] is not None
                    or number == 3 and self.running[p] is None
                    or number == 4 and l >= self.k
                    or number == 6 and c >= self.c
                    or number == 8 and self.link(p, l).channel is None):
                return f"no {number}"
        return None

    def take(self, p, l, c):
        no = self.refused((1, 2, 4, 6), p, l, c)
        if no is None:
            self.empty(self.link(p, l))
            self.start_take(p, l, c)
        return no or "ok"

    def put(self, p, l, reading):
        no = self.refused((1, 2, 4, 8), p, l)
        if no is None:
            self.start_put(p, l, reading)
        return no or "ok"

    def check(self, p, l):
        no = self.refused((1, 2, 4, 8), p, l)
        if no is None:
            self.start_check(p, l)
        return no or "ok"

    def drop(self, p, l):
        no = self.refused((1, 2, 4), p, l)
        if no is None:
            self.empty(self.link(p, l))
        return no or "ok"

    def look(self, p, l):
        return self.refused((1, 2, 4, 8), p, l) or str(self.shown(p, l))

    def turn(self, p):
        no = self.refused((1, 3), p)
        if no is not None:
            return no
        self.forced = False
        answer = self.access(p, self.running[p])
        if answer != "run":
            self.running[p] = None
        return answer

    def idle(self, p):
        return "yes" if p >= self.n or self.running[p] is None else "no"


@dataclass
class FlagLink:
    channel: int = None         # None: the link is empty
    live: bool = False


class FlagShelf(Shelf):
    kind = FLAG

    def __init__(self, n, k, c, row):
        super().__init__(n, k, c, row)
        self.links = [[FlagLink() for _ in range(self.k)] for _ in range(self.n)]

    def link(self, p, l):
        return self.links[p][l]

    def link_block(self, p, l):
        return self.c + p * self.k + l

    def shown(self, p, l):
        return self.row[self.link_block(p, l)]

    def is_live(self, p, l):
        return self.link(p, l).live

    def channel_reading(self, c):
        return self.row[c]

    def empty(self, link):
        link.channel = None
        link.live = False

    def start_take(self, p, l, c):
        self.running[p] = ("take", l, c)

    def start_put(self, p, l, reading):
        self.running[p] = ("put", l, reading)

    def start_check(self, p, l):
        self.running[p] = ("check", l, None)

    def access(self, p, operation):
        """Each operation comes into force and ends in one turn."""
        name, l, given = operation
        link = self.link(p, l)
        self.forced = True
        if name == "take":
            self.row[self.link_block(p, l)] = self.row[given]
            link.channel = given
            link.live = True
            return "taken"
        if name == "check":
            return "live" if link.live else "broken"
        if not link.live:
            return "missed"
        self.row[link.channel] = given
        for links in self.links:
            for other in links:
                if other.channel == link.channel:
                    other.live = False
        return "stored"

    def place(self, b):
        return "-"


@dataclass
class BlockLink:
    channel: int = None         # None: the link is empty
    seen: int = None
    guard: int = None           # a block or none
    reading: int = None


@dataclass
class BlockParty:
    links: list
    ready: list                 # a stack, its top is the last
    retired: list = field(default_factory=list)     # in the order of retiring
    hand: int = None


@dataclass
class Operation:
    name: str
    link: BlockLink
    access: str                 # the access that the next turn makes
    channel: int
    guards: list = field(default_factory=list)      # what the scan has read, turn by turn


class BlockShelf(Shelf):
    kind = BLOCK

    def __init__(self, n, k, c, row):
        super().__init__(n, k, c, row)
        self.h = self.n * self.k
        self.current = list(range(self.c))
        self.parties = []
        for p in range(self.n):
            first = self.c + p * (self.h + 1)
            lowest_on_top = list(reversed(range(first, first + self.h + 1)))
            links = [BlockLink() for _ in range(self.k)]
            self.parties.append(BlockParty(links, lowest_on_top))

    def link(self, p, l):
        return self.parties[p].links[l]

    def shown(self, p, l):
        return self.link(p, l).reading

    def is_live(self, p, l):
        link = self.link(p, l)
        return self.current[link.channel] == link.seen

    def channel_reading(self, c):
        return self.row[self.current[c]]

    def empty(self, link):
        link.channel = None
        link.guard = None

    def start_take(self, p, l, c):
        self.running[p] = Operation("take", self.link(p, l), "read current", c)

    def start_put(self, p, l, reading):
        party = self.parties[p]
        assert party.ready, "a put starts without a ready block"
        party.hand = party.ready.pop()
        self.row[party.hand] = reading
        link = self.link(p, l)
        self.running[p] = Operation("put", link, "compare", link.channel)

    def start_check(self, p, l):
        link = self.link(p, l)
        self.running[p] = Operation("check", link, "compare", link.channel)

    def access(self, p, operation):
        if operation.name == "take":
            return self.take_access(operation)
        if operation.name == "check":
            return self.check_access(operation)
        if operation.access == "compare":
            return self.put_access(self.parties[p], operation)
        return self.scan_access(self.parties[p], operation)

    def take_access(self, operation):
        link = operation.link
        if operation.access == "read current":
            link.seen = self.current[operation.channel]
            operation.access = "set guard"
        elif operation.access == "set guard":
            link.guard = link.seen
            operation.access = "compare"
        elif operation.access == "compare":
            if self.current[operation.channel] != link.seen:
                operation.access = "read current"
            else:
                link.channel = operation.channel
                self.forced = True
                operation.access = "read reading"
        else:
            link.reading = self.row[link.seen]
            return "taken"
        return "run"

    def put_access(self, party, operation):
        link = operation.link
        self.forced = True
        block, party.hand = party.hand, None
        if self.current[operation.channel] != link.seen:
            party.ready.append(block)
            return "missed"
        self.current[operation.channel] = block
        party.retired.append(link.seen)
        if party.ready:
            return "stored"
        operation.access = "scan"
        return "run"

    def scan_access(self, party, operation):
        of_party, of_link = divmod(len(operation.guards), self.k)
        operation.guards.append(self.link(of_party, of_link).guard)
        if len(operation.guards) < self.h:
            return "run"
        stay = []
        for block in party.retired:
            if block in operation.guards:
                stay.append(block)
            else:
                party.ready.append(block)
        party.retired = stay
        return "stored"

    def check_access(self, operation):
        self.forced = True
        same = self.current[operation.channel] == operation.link.seen
        return "live" if same else "broken"

    def place(self, b):
        if b >= self.need:
            return "no 10"
        if b in self.current:
            return f"current {self.current.index(b)}"
        for p, party in enumerate(self.parties):
            if b in party.ready:
                return f"ready {p}"
            if b in party.retired:
                return f"retired {p}"
            if b == party.hand:
                return f"hand {p}"
        raise AssertionError(f"block {b} stands nowhere")


# What a shelf means.

@dataclass
class HeldLink:
    channel: int
    reading: int
    version: int


@dataclass
class Wish:
    """An operation of the meaning. It waits until it has an answer."""
    name: str
    link: int
    channel: int
    given: int
    answer: str = None
    undisturbed: int = 0        # turns since it started or another party stored on the channel


class IdealShelf:
    """Load-linked, store-conditional and validate by versions.

    Each stored put raises the version of its channel. A link is live exactly
    if its channel still has the version that the link remembers.
    """

    TESTS = {TAKE: (1, 2, 4, 6), PUT: (1, 2, 4, 8), CHECK: (1, 2, 4, 8), LOOK: (1, 2, 4, 8),
             DROP: (1, 2, 4), TURN: (1, 3)}

    def __init__(self, n, k, c):
        self.n, self.k, self.c = n, k, c
        self.readings = [0] * c
        self.versions = [0] * c
        self.links = [[None] * k for _ in range(n)]         # None or HeldLink
        self.wishes = [None] * n                            # None or Wish

    def refusal(self, op, a, b, c):
        fits = {1: lambda: a >= self.n,
                2: lambda: self.wishes[a] is not None,
                3: lambda: self.wishes[a] is None,
                4: lambda: b >= self.k,
                6: lambda: c >= self.c,
                8: lambda: self.links[a][b] is None}
        return next((number for number in self.TESTS.get(op, ()) if fits[number]()), None)

    def start(self, op, p, l, given):
        if op == TAKE:
            self.links[p][l] = None
        channel = given if op == TAKE else self.links[p][l].channel
        self.wishes[p] = Wish(CALLS[op], l, channel, given)

    def live(self, p, l):
        link = self.links[p][l]
        return link.version == self.versions[link.channel]

    def bring_into_force(self, p):
        wish = self.wishes[p]
        assert wish.answer is None, "an operation comes into force twice"
        c = wish.channel
        if wish.name == "take":
            self.links[p][wish.link] = HeldLink(c, self.readings[c], self.versions[c])
            wish.answer = "taken"
        elif wish.name == "check":
            wish.answer = "live" if self.live(p, wish.link) else "broken"
        elif self.live(p, wish.link):
            self.readings[c] = wish.given
            self.versions[c] += 1
            wish.answer = "stored"
        else:
            wish.answer = "missed"

    def held(self):
        """All links that are not empty, as (party, link, HeldLink)."""
        return [(p, l, link) for p, links in enumerate(self.links)
                for l, link in enumerate(links) if link is not None]


class Row(list):
    """A row of blocks that notes which of them are written."""

    def __init__(self, blocks):
        super().__init__(blocks)
        self.written = set()

    def __setitem__(self, b, reading):
        self.written.add(b)
        super().__setitem__(b, reading)


class CheckedShelf:
    """A shelf that is checked against the meaning at each step.

    `do` carries out one command and gives the line that is printed for it. An
    AssertionError names the step, counted from 1.
    """

    def __init__(self, shelf, n, k, c, blocks):
        self.plan = shelf, n, k, c, blocks
        self.row = Row([UNMADE] * blocks)
        self.shelf = (FlagShelf, BlockShelf)[shelf](n, k, c, self.row)
        self.patience = patience_of(shelf, n, k)
        self.ideal = IdealShelf(self.shelf.n, self.shelf.k, self.shelf.c)
        self.blocks_of_need = set(range(self.shelf.need))
        self.step = 0
        self.known = None                   # everything, as long as nothing has altered it
        self.answers = Counter()            # (call, answer)
        self.notes = Counter(schedules=1)   # what happened, counted
        self.longest_held = 0               # in puts stored on the link's channel
        accepted = plan_refusal(shelf, n, k, c, blocks) is None
        self.notes[f"{SHELVES[shelf]} shelves" if accepted else "refused plans"] += 1
        need = need_of(*self.plan[:4]) if accepted else 0
        assert list(self.row) == [0] * need + [UNMADE] * (blocks - need), "the making of the row"
        self.check_state()

    def last_line(self):
        return "blocks" + "".join(f" {reading}" for reading in self.row)

    def do(self, op, a, b, c):
        self.step += 1
        try:
            line = self.checked_call(op, a, b, c)
        except AssertionError as wrong:
            words = command_words(op, a, b, c)
            raise AssertionError(f"step {self.step} ({words}): {wrong}") from None
        self.count(op, line)
        return line

    def checked_call(self, op, a, b, c):
        self.row.written.clear()
        refusal = self.ideal.refusal(op, a, b, c)
        alters = refusal is None and op not in (LOOK, PLACE, IDLE)
        if self.known is None and not alters:
            self.known = self.everything()
        line = self.call(op, a, b, c)
        if refusal is not None:
            assert line == f"no {refusal}", f"refused with {refusal}, not {line!r}"
        elif op == LOOK:
            want = str(self.ideal.links[a][b].reading)
            assert line == want, f"the link's reading is {want}, not {line}"
        elif op == IDLE:
            idle = a >= self.ideal.n or self.ideal.wishes[a] is None
            assert line == ("yes" if idle else "no"), f"wrong about idleness: {line}"
        elif op == TURN:
            self.check_turn(a, line)
        elif op != PLACE:
            assert line == "ok", f"accepted, not {line!r}"
            if op == DROP:
                self.ideal.links[a][b] = None
            else:
                self.ideal.start(op, a, b, c)
        if alters:
            self.known = None
            self.check_state()
        else:
            assert self.everything() == self.known, "it alters something"
            assert not self.row.written, "it writes a block"
        return line

    def call(self, op, a, b, c):
        shelf = self.shelf
        if op == TAKE:
            return shelf.take(a, b, c)
        if op == PUT:
            return shelf.put(a, b, c)
        if op == CHECK:
            return shelf.check(a, b)
        if op == DROP:
            return shelf.drop(a, b)
        if op == LOOK:
            return shelf.look(a, b)
        if op == TURN:
            return shelf.turn(a)
        if op == PLACE:
            return shelf.place(a * 256 + b)
        return shelf.idle(a)

    def everything(self):
        """All that the shelf holds beside the row, as text."""
        return repr({name: held for name, held in vars(self.shelf).items() if name != "row"})

    def check_turn(self, p, line):
        wish = self.ideal.wishes[p]
        wish.undisturbed += 1
        if self.shelf.forced:
            self.ideal.bring_into_force(p)
            if wish.answer == "stored":
                for other, disturbed in enumerate(self.ideal.wishes):
                    if other != p and disturbed and disturbed.channel == wish.channel:
                        disturbed.undisturbed = 0
                if line == "run":
                    self.notes["scans begun"] += 1
        elif line == "stored":
            self.notes["scans ended"] += 1
            retired = len(self.shelf.parties[p].retired)
            self.notes["blocks kept retired by scans"] += retired
        if line != "run":
            assert wish.answer is not None, f"{line!r} before the operation is in force"
            assert line == wish.answer, f"the meaning says {wish.answer!r}, not {line!r}"
            self.ideal.wishes[p] = None
        else:
            assert wish.undisturbed <= self.patience, "patience is at an end"
            if wish.name == "take" and self.shelf.running[p].access == "read current":
                self.notes["takes begun again"] += 1

    def check_state(self):
        shelf, ideal = self.shelf, self.ideal
        beyond = self.row.written - self.blocks_of_need
        assert not beyond, f"written beyond the need: {beyond}"
        for c, reading in enumerate(ideal.readings):
            have = shelf.channel_reading(c)
            assert have == reading, f"channel {c} holds {have}, and should {reading}"
        for p, links in enumerate(ideal.links):
            for l, link in enumerate(links):
                is_empty = shelf.link(p, l).channel is None
                assert is_empty == (link is None), f"link {l} of party {p}: empty or not is wrong"
        held = ideal.held()
        for p, l, link in held:
            name = f"link {l} of party {p}"
            wish = ideal.wishes[p]
            if wish is None or wish.name != "take" or wish.link != l:
                have = shelf.shown(p, l)
                assert have == link.reading, f"{name} shows {have}, and should {link.reading}"
            assert shelf.is_live(p, l) == ideal.live(p, l), f"{name}: live or broken is wrong"
            self.longest_held = max(self.longest_held,
                                    ideal.versions[link.channel] - link.version)
        if shelf.kind == BLOCK:
            self.check_places()
            self.check_guards(held)

    def check_places(self):
        """Every block of the need stands once, and each party has H + 1 of them."""
        shelf = self.shelf
        standing = list(shelf.current)
        for p, party in enumerate(shelf.parties):
            own = party.ready + party.retired
            if party.hand is not None:
                own.append(party.hand)
            assert len(own) == shelf.n * shelf.k + 1, f"party {p} has {len(own)} blocks"
            standing += own
        if len(standing) != shelf.need or set(standing) != self.blocks_of_need:
            times = Counter(standing)
            wrong = [b for b in self.blocks_of_need | set(standing) if times[b] != 1]
            raise AssertionError(f"not in one place: blocks {wrong}")

    def check_guards(self, held):
        """What a held link guards is not ready, not in hand, and not written."""
        shelf = self.shelf
        free = set(self.row.written)
        for party in shelf.parties:
            free.update(party.ready)
            free.add(party.hand)
        for p, l, link in held:
            name = f"link {l} of party {p}"
            guard = shelf.link(p, l).guard
            assert guard is not None and guard == shelf.link(p, l).seen, f"{name} has no guard"
            assert guard not in free, f"{name} guards block {guard}, which is free or written"
            have = self.row[guard]
            assert have == link.reading, f"{name} guards a block with {have}"

    def count(self, op, line):
        if op == LOOK and not line.startswith("no"):
            line = "reading"
        elif not line.startswith("no"):
            line = line.split()[0]
        self.answers[CALLS[op], line] += 1
        self.notes["steps"] += 1


# Schedules.

def command_words(op, a, b, c):
    if op > IDLE:
        return f"end ({op} {a} {b} {c})"
    if op == PLACE:
        return f"place block {a * 256 + b}"
    words = f"{CALLS[op]} party {a}"
    if op not in (TURN, IDLE):
        words += f" link {b}"
    if op == TAKE:
        words += f" channel {c}"
    if op == PUT:
        words += f" reading {c}"
    return words


def header_bytes(shelf, n, k, c, blocks):
    return bytes([shelf, n, k, c, blocks // 256, blocks % 256])


def commands_of(data):
    """The commands that are read: up to an op above 7 or an unfinished one, and not too many."""
    commands = []
    for i in range(6, len(data) - 3, 4):
        if data[i] > IDLE or len(commands) == MOST_COMMANDS:
            break
        commands.append(tuple(data[i:i + 4]))
    return commands


def run_schedule(data):
    """The lines that are printed for a schedule."""
    shelf, n, k, c, high, low = data[:6]
    checked = CheckedShelf(shelf, n, k, c, high * 256 + low)
    lines = [checked.do(*command) for command in commands_of(data)]
    return lines + [checked.last_line()]


# The self-test.

class Example:
    """A block shelf on which amendments and pictures are carried out by hand."""

    def __init__(self, n, k, c):
        self.checked = CheckedShelf(BLOCK, n, k, c, need_of(BLOCK, n, k, c))
        self.shelf = self.checked.shelf

    def do(self, op, a, b=0, c=0):
        return self.checked.do(op, a, b, c)

    def turns(self, p):
        """Gives turns until the operation ends; how many, and the answer."""
        number = 0
        while True:
            number += 1
            line = self.do(TURN, p)
            if line != "run":
                return number, line

    def operation(self, op, p, l=0, given=0):
        assert self.do(op, p, l, given) == "ok"
        return self.turns(p)

    def amend(self, p, c, word):
        number, line = self.operation(TAKE, p, 0, c)
        assert line == "taken"
        more, line = self.operation(PUT, p, 0, int(self.do(LOOK, p)) + word)
        assert line == "stored"
        return number + more


def plan_examples():
    assert plan_refusal(BLOCK, 2, 1, 1, 7) is None
    assert plan_refusal(BLOCK, 2, 1, 1, 6) == 14
    assert plan_refusal(BLOCK, 24, 4, 64, 2392) is None
    assert plan_refusal(BLOCK, 24, 4, 64, 2391) == 14
    assert plan_refusal(FLAG, 24, 4, 64, 160) is None
    assert plan_refusal(FLAG, 24, 4, 64, 159) == 14
    assert plan_refusal(FLAG, 1, 1, 1, 2) is None
    for n, k, c, number in [(0, 0, 0, 11), (25, 5, 65, 11), (1, 0, 0, 12), (24, 5, 65, 12),
                            (1, 1, 0, 13), (24, 4, 65, 13), (1, 1, 1, 14)]:
        assert plan_refusal(FLAG, n, k, c, 0) == plan_refusal(BLOCK, n, k, c, 0) == number


def worked_examples():
    """The worked runs of docs/RULES.md, as far as they are about the block shelf."""
    run = Example(2, 1, 1)
    assert [run.amend(0, 0, 5) for _ in range(3)] == [5, 5, 7]
    assert run.shelf.parties[0].ready == [0, 1] and run.shelf.parties[0].retired == [2]

    run = Example(2, 1, 1)
    run.operation(TAKE, 1)
    assert run.operation(CHECK, 1) == (1, "live")
    assert [run.amend(0, 0, 5) for _ in range(3)] == [5, 5, 7]
    assert run.shelf.parties[0].ready == [1] and run.shelf.parties[0].retired == [0, 2]
    assert run.do(LOOK, 1) == "0"

    run = Example(2, 1, 1)
    run.do(TAKE, 1)
    run.do(TURN, 1)
    run.amend(0, 0, 5)
    assert run.turns(1) == (6, "taken")
    assert run.operation(CHECK, 1) == (1, "live")
    assert run.do(LOOK, 1) == "5"

    run = Example(2, 2, 2)
    assert run.operation(TAKE, 1, 0, 0) == (4, "taken")
    run.amend(0, 0, 5)
    assert run.operation(TAKE, 1, 1, 1) == (4, "taken")
    assert run.operation(CHECK, 1, 0) == (1, "broken")
    assert run.operation(TAKE, 1, 0, 0) == (4, "taken")
    assert run.operation(TAKE, 1, 1, 1) == (4, "taken")
    assert run.operation(CHECK, 1, 0) == (1, "live")
    assert run.operation(CHECK, 1, 1) == (1, "live")
    assert [run.do(LOOK, 1, l) for l in (0, 1)] == ["5", "0"]


def random_command(rng, shelf):
    """A plain random command: mostly of parties that are there, mostly turns of busy ones."""
    def below(size):
        return rng.randrange(size + 1) if rng.random() < 0.04 else rng.randrange(size or 1)
    if rng.random() < 0.1:
        block = below(shelf.need)
        return PLACE, block // 256, block % 256, 0
    p = below(shelf.n)
    busy = shelf.idle(p) == "no"
    op = TURN if busy == (rng.random() < 0.95) else rng.choice([TAKE, TAKE, PUT, PUT, PUT,
                                                               CHECK, DROP, LOOK, IDLE])
    return op, p, below(shelf.k), below(shelf.c) if op == TAKE else rng.choice([7, 8])


def self_test(schedules, steps, seed):
    plan_examples()
    worked_examples()
    answers, notes, longest = Counter(), Counter(), 0
    for i in range(schedules):
        rng = random.Random(seed + i)
        shelf = rng.choice([FLAG, BLOCK, BLOCK, BLOCK])
        n, k, c = rng.randint(1, 3), rng.randint(1, 2), rng.randint(1, 2)
        blocks = need_of(shelf, n, k, c) + rng.choice([-1, 0, 0, 0, 0, 0, 0, 3])
        checked = CheckedShelf(shelf, n, k, c, blocks)
        data = [header_bytes(shelf, n, k, c, blocks)]
        lines = []
        while len(lines) < steps:
            # For a while one party, or none, is left alone with what it holds and does.
            left_alone = rng.randrange(n + 1)
            for _ in range(rng.randrange(400)):
                command = random_command(rng, checked.shelf)
                if command[0] == PLACE or command[1] != left_alone:
                    data.append(bytes(command))
                    lines.append(checked.do(*command))
        assert run_schedule(b"".join(data)) == lines + [checked.last_line()]
        answers += checked.answers
        notes += checked.notes
        longest = max(longest, checked.longest_held)
    print("plans, worked examples and random schedules: nothing wrong")
    print(counted(answers, notes, longest))


def counted(answers, notes, longest):
    """What was seen, in lines of text."""
    lines = [f"{name}: {number:,}" for name, number in sorted(notes.items())]
    lines.append(f"longest time a link was held, in puts on its channel: {longest:,}")
    for call in CALLS:
        seen = sorted((answer, number) for (name, answer), number in answers.items()
                      if name == call)
        lines.append(f"{call}: " + "; ".join(f"{answer} = {number:,}" for answer, number in seen))
    return "\n".join(lines)


def main():
    parser = argparse.ArgumentParser(description=__doc__.splitlines()[0])
    parser.add_argument("--self-test", action="store_true")
    parser.add_argument("--schedules", type=int, default=400)
    parser.add_argument("--steps", type=int, default=1000)
    parser.add_argument("--seed", type=int, default=1)
    args = parser.parse_args()
    if args.self_test:
        self_test(args.schedules, args.steps, args.seed)
    else:
        print("\n".join(run_schedule(sys.stdin.buffer.read())))


if __name__ == "__main__":
    main()
