#!/usr/bin/env python3
"""Compare the proved shelves, run by `drive_shelf`, with the model in shelf_model.py.

Makes schedules of shelf calls that overlap as much as they can, runs the
program on each and compares every line. The schedule number i is made from
the seed --seed plus i alone, so each can be made again by itself. Stops at
the first difference. Exit status 0 means: no difference.

A schedule has up to --steps commands, on large plans up to three times as
many, and then questions about all links and blocks. Every 250th seed gives
one with more commands than the program reads.
"""

import argparse
import random
import subprocess
import sys
from collections import Counter
from concurrent.futures import ProcessPoolExecutor
from contextlib import suppress
from itertools import repeat, zip_longest
from pathlib import Path

sys.dont_write_bytecode = True
from shelf_model import (BLOCK, CHECK, DROP, FLAG, IDLE, LOOK, MOST_COMMANDS, PLACE, PUT, SHELVES,
                         TAKE, TURN, CheckedShelf, command_words, commands_of, counted,
                         header_bytes, need_of, run_schedule)

ROOT = Path(__file__).resolve().parent.parent
MOST_BLOCKS = 65535
EVERY_LONG = 250


# Plans.

def choose_plan(rng):
    shelf = rng.choice([FLAG, BLOCK, BLOCK, BLOCK])
    size, = rng.choices([tiny, small, wide, largest, wrong_size, few_blocks],
                        [58, 18, 6, 4, 8, 6])
    n, k, c, blocks = size(rng, shelf)
    return shelf, n, k, c, min(blocks, MOST_BLOCKS)


def enough(rng, shelf, n, k, c):
    more = rng.choice([0, 0, 0, 0, 0, 1, 2, rng.randint(3, 300)])
    if rng.random() < 0.005:
        more = MOST_BLOCKS
    return n, k, c, need_of(shelf, n, k, c) + more


def tiny(rng, shelf):
    return enough(rng, shelf, rng.randint(1, 3), rng.randint(1, 2), rng.randint(1, 2))


def small(rng, shelf):
    return enough(rng, shelf, rng.randint(1, 6), rng.randint(1, 4), rng.randint(1, 5))


def wide(rng, shelf):
    return enough(rng, shelf, rng.randint(1, 24), rng.randint(1, 4), rng.randint(1, 64))


def largest(rng, shelf):
    return enough(rng, shelf, 24, 4, 64)


def wrong_size(rng, shelf):
    """One of the sizes, or some, out of range, mostly with blocks enough for it."""
    sizes = list(rng.choice([tiny, wide, largest])(rng, shelf)[:3])
    for i in rng.sample(range(3), rng.choice([1, 1, 1, 2, 3])):
        sizes[i] = rng.choice([0, (25, 5, 65)[i], (25, 5, 65)[i], rng.randint(66, 255)])
    return enough(rng, shelf, *sizes)


def few_blocks(rng, shelf):
    n, k, c, _ = rng.choice([tiny, tiny, small, wide, largest])(rng, shelf)
    need = need_of(shelf, n, k, c)
    return n, k, c, rng.choice([need - 1, need - 1, need - 1, rng.randrange(need), 0])


# Schedules.

class Full(Exception):
    """The schedule has all its commands."""


class Schedule:
    """Makes a schedule while the model carries it out.

    The model's state says which calls are interesting. Links can be *kept*:
    then they stay held, and only puts, checks and looks on them are likely.
    Parties can be *stopped*: then they get hardly any turns and calls. Both
    end after a while.
    """

    def __init__(self, rng, plan, steps):
        self.rng = rng
        self.plan = plan
        self.model = CheckedShelf(*plan)
        self.shelf = self.model.shelf
        self.n, self.k, self.c = self.shelf.n, self.shelf.k, self.shelf.c
        self.steps = min(steps, MOST_COMMANDS if self.n else 200)
        self.commands = []
        self.lines = []
        self.tail = b""                     # what follows the commands
        self.kept = {}                      # (party, link) -> step at which that ends
        self.stopped = {}                   # party -> step at which that ends
        self.aside = rng.choice([0, 0.02, 0.1])     # how often a question comes between
        self.is_aside = False
        self.hot = rng.randrange(self.c or 1)       # the channel on which most happens
        self.heat = rng.choice([0.3, 0.8, 0.95])    # how much of it

    def data(self):
        return header_bytes(*self.plan) + b"".join(map(bytes, self.commands)) + self.tail

    def text(self):
        return self.lines + [self.model.last_line()]

    # One command.

    def do(self, op, a, b=0, c=0):
        if len(self.commands) >= self.steps:
            raise Full
        self.commands.append((op, a, b, c))
        self.lines.append(self.model.do(op, a, b, c))
        if not self.is_aside and self.rng.random() < self.aside:
            self.is_aside = True
            self.rng.choice([self.some_look, self.some_place, self.some_idle, self.refused])()
            self.is_aside = False
        return self.lines[-1]

    def chance(self, likelihood):
        return self.rng.random() < likelihood

    # What the model knows.

    def parties(self):
        """The parties that are not stopped, or all if there are none."""
        now = len(self.commands)
        going = [p for p in range(self.n) if self.stopped.get(p, 0) <= now]
        if not going:
            self.stopped.clear()
        return going or list(range(self.n))

    def busy(self, p):
        return self.shelf.running[p] is not None

    def scanning(self, p):
        return (self.shelf.kind == BLOCK and self.busy(p)
                and self.shelf.running[p].access == "scan")

    def held(self, p, l):
        return self.model.ideal.links[p][l] is not None

    def live(self, p, l):
        return self.held(p, l) and self.model.ideal.live(p, l)

    def all_links(self):
        return [(p, l) for p in range(self.n) for l in range(self.k)]

    def is_kept(self, p, l):
        return self.kept.get((p, l), 0) > len(self.commands)

    def free_links(self, party=None):
        """Links that are not kept, of parties that are not stopped, or some at least."""
        going = self.parties() if party is None else [party]
        links = [(p, l) for p in going for l in range(self.k) if not self.is_kept(p, l)]
        if not links:
            for p in going:
                for l in range(self.k):
                    self.kept.pop((p, l), None)
            links = [(p, l) for p in going for l in range(self.k)]
        return links

    # Choices.

    def some_time(self):
        return len(self.commands) + self.rng.choice([30, 100, 300, 1000, 3000])

    def some_channel(self):
        return self.hot if self.chance(self.heat) else self.rng.randrange(self.c)

    def some_reading(self):
        return self.rng.choice([7, 8, 7, 8, 0, 255, self.rng.randrange(256)])

    def some_link(self):
        return self.rng.choice(self.free_links())

    def some_size(self, size):
        """A number mostly below the size, sometimes the size or far beyond."""
        which = self.rng.random()
        if which < 0.88 and size:
            return self.rng.randrange(size)
        return min(size, 255) if which < 0.96 else self.rng.randrange(256)

    # Small pieces.

    def turns(self, p, most=None):
        """Turns until the party is idle, or as many as said."""
        while self.busy(p) and most != 0:
            self.do(TURN, p)
            most = None if most is None else most - 1

    def make_idle(self, p):
        self.turns(p)

    def take(self, p, l, c, most=None):
        self.make_idle(p)
        self.do(TAKE, p, l, c)
        self.turns(p, most)

    def put(self, p, l, reading, most=None):
        self.make_idle(p)
        self.do(PUT, p, l, reading)
        self.turns(p, most)

    def store(self, p, l, c, reading):
        """A put that stores, unless somebody comes between."""
        self.make_idle(p)
        if not (self.live(p, l) and self.model.ideal.links[p][l].channel == c):
            self.take(p, l, c)
        self.put(p, l, reading)

    def writer(self, other_than=()):
        """A link to write with, of another party than these if there is one."""
        links = self.free_links()
        return self.rng.choice([x for x in links if x[0] not in other_than] or links)

    def some_look(self):
        self.do(LOOK, self.some_size(self.n), self.some_size(self.k))

    def some_idle(self):
        self.do(IDLE, self.some_size(self.n))

    def some_place(self):
        need = self.shelf.need
        block = self.rng.choice([self.rng.randrange(need or 1), self.rng.randrange(need or 1),
                                 need, self.rng.randrange(65536)])
        if self.shelf.kind == BLOCK and self.chance(0.5):
            # Blocks in hand, retired or guarded are the interesting ones.
            parties = self.shelf.parties
            kinds = [[party.hand for party in parties],
                     [b for party in parties for b in party.retired],
                     [link.guard for party in parties for link in party.links]]
            some = [b for b in self.rng.choice(kinds) if b is not None]
            block = self.rng.choice(some or [block])
        self.place(block)

    def place(self, block):
        self.do(PLACE, block // 256, block % 256)

    # Moods: what a stretch of the schedule is about.

    def mix(self):
        """Everybody does anything; busy parties mostly get turns."""
        for _ in range(self.rng.randint(10, 80)):
            p = self.rng.choice(self.parties())
            if self.busy(p) and self.chance(0.95):
                self.do(TURN, p)
            else:
                self.start_something(p)

    def start_something(self, p):
        l = self.rng.choice(self.free_links(p))[1] if self.chance(0.8) \
            else self.rng.randrange(self.k)
        take = (TAKE, p, l, self.some_channel())
        put = (PUT, p, l, self.some_reading())
        check, drop = (CHECK, p, l), (DROP, p, l)
        if not self.held(p, l):
            weights = [85, 5, 5, 5]
        elif self.is_kept(p, l):
            weights = [1, 0 if self.live(p, l) else 40, 58, 1]
        elif self.live(p, l):
            weights = [12, 60, 18, 10]
        else:
            weights = [45, 25, 20, 10]
        command, = self.rng.choices([take, put, check, drop], weights)
        self.do(*command)

    def overlap(self):
        """Takes of one channel are under way while a put stores between their turns."""
        c = self.some_channel()
        p, l = self.writer()
        takers = [q for q in self.parties() if q != p]
        takers = self.rng.sample(takers, self.rng.randint(0, min(len(takers), 4)))
        for _ in range(self.rng.randint(1, 6)):
            self.take(p, l, c)
            self.do(PUT, p, l, self.some_reading())
            if self.chance(0.2):
                self.some_place()
            for q in takers:
                if not self.busy(q):
                    self.do(TAKE, q, self.rng.choice(self.free_links(q))[1], c)
                self.turns(q, self.rng.randint(0, 3))
            self.turns(p, 1 if self.chance(0.3) else None)
            if takers and self.chance(0.5):
                self.turns(self.rng.choice(takers), self.rng.randint(1, 4))
        if self.chance(0.7):
            for q in takers:
                self.turns(q)

    def hold(self):
        """Links are taken, or half taken, and then left as they are for long."""
        for _ in range(self.rng.choice([1, 1, 1, 2, 1 + self.n * self.k // 4])):
            p, l = self.some_link()
            self.take(p, l, self.hot, self.rng.choice([None, None, None, 1, 2, 3]))
            self.kept[p, l] = self.some_time()
            if self.busy(p) or (self.n > 1 and self.chance(0.3)):
                self.stopped[p] = self.some_time()
            if self.chance(0.5):
                self.store(*self.writer([p]), self.hot, self.some_reading())
        self.burst()

    def burst(self):
        """One party stores again and again, mostly on one channel, so that it scans."""
        p, l = self.writer()
        c = self.some_channel()
        scans = self.rng.choice([1, 1, 2, 3, 8])
        limit = len(self.commands) + self.rng.choice([60, 150, 900, 2500])
        while scans and len(self.commands) < limit:
            if self.chance(0.05):
                c = self.some_channel()
            self.take(p, l, c)
            self.put(p, l, self.some_reading(), 1)
            if self.scanning(p):
                scans -= 1
                if self.chance(0.5):
                    self.around_scan(p)
                if self.chance(0.03):
                    self.stopped[p] = self.some_time()
                    return
            self.turns(p)

    def around_scan(self, p):
        """While one party scans, the others take, drop and store."""
        others = [q for q in self.parties() if q != p]
        while others and self.scanning(p):
            q = self.rng.choice(others)
            if self.chance(0.3):
                self.do(TURN, p)
            elif self.busy(q):
                self.turns(q, self.rng.randint(1, 3))
            else:
                self.start_something(q)
            if self.shelf.h > 20:
                self.turns(p, self.rng.randint(0, 20))

    def stale(self):
        """Puts, checks and looks on links that are broken."""
        broken = [(p, l) for p, l in self.all_links() if self.held(p, l) and not self.live(p, l)]
        self.rng.shuffle(broken)
        for p, l in broken[:12]:
            if p in self.stopped and self.chance(0.9):
                continue
            self.make_idle(p)
            for _ in range(self.rng.randint(1, 3)):
                self.do(*self.rng.choice([(PUT, p, l, self.some_reading()), (CHECK, p, l),
                                          (LOOK, p, l)]))
                if self.chance(0.8):
                    self.turns(p)
                else:
                    break

    def again(self):
        """Held links are dropped and taken anew, or taken anew without that."""
        held = [(p, l) for p, l in self.free_links() if self.held(p, l)]
        for p, l in self.rng.sample(held, min(len(held), 6)):
            c = self.model.ideal.links[p][l].channel
            self.make_idle(p)
            if self.chance(0.5):
                self.do(DROP, p, l)
            if self.chance(0.2):
                self.do(*self.rng.choice([(PUT, p, l, 7), (CHECK, p, l), (LOOK, p, l),
                                          (DROP, p, l)]))
            if self.chance(0.9):
                self.take(p, l, c if self.chance(0.7) else self.some_channel(),
                          self.rng.choice([None, None, 0, 1, 2, 3]))

    def there_and_back(self):
        """A channel goes 7, 8, 7 while a link is held or a take is under way."""
        c = self.some_channel()
        p, l = self.some_link()
        if self.n > 1 or self.k > 1:
            self.store(p, l, c, 7)
            self.take(p, l, c, self.rng.choice([None, None, 1, 2, 3]))
            self.kept[p, l] = len(self.commands) + 1000
            for reading in (8, 7) * self.rng.choice([1, 1, 2, 5]):
                q, m = self.writer([p] if self.busy(p) else [])
                if q == p and self.busy(p):
                    break
                self.store(q, m, c, reading)
            self.turns(p)
            self.kept.pop((p, l), None)
            self.do(*self.rng.choice([(CHECK, p, l), (PUT, p, l, 8), (LOOK, p, l)]))
            self.turns(p)

    def come_back(self):
        """A take has read a block; before it goes on, that is replaced and perhaps used again."""
        c = self.some_channel()
        p, l = self.some_link()
        q, m = self.writer([p])
        if self.shelf.kind == FLAG or p == q:
            return
        self.take(p, l, c, self.rng.choice([1, 1, 1, 2]))
        block = self.shelf.link(p, l).seen
        aim = self.rng.choice(["current", "current", "ready", "retired", "hand"])
        self.store(q, m, c, self.some_reading())
        limit = len(self.commands) + self.rng.choice([20, 100, 200])
        while len(self.commands) < limit and not self.shelf.place(block).startswith(aim):
            if self.busy(q):
                self.do(TURN, q)
            elif self.live(q, m):
                self.do(PUT, q, m, self.some_reading())
            else:
                self.do(TAKE, q, m, c)
        self.turns(p, self.rng.choice([1, 2, 3, None]))

    def refused(self):
        """A call that will be refused, or several."""
        for _ in range(1 if self.is_aside else self.rng.randint(3, 15)):
            self.rng.choice([self.bad_party, self.bad_busy, self.bad_idle, self.bad_link,
                             self.bad_channel, self.bad_empty, self.bad_block])()

    def any_call(self, p, ops=(TAKE, PUT, CHECK, DROP, LOOK)):
        """A call whose other numbers may be wrong too, so that the order of tests shows."""
        op = self.rng.choice(ops)
        self.do(op, p, self.some_size(self.k),
                self.some_size(self.c) if op == TAKE else self.some_reading())

    def bad_party(self):
        p = self.rng.choice([self.n, self.n, self.n + 1, 255])
        self.any_call(p, (TAKE, PUT, CHECK, DROP, LOOK, TURN, IDLE))

    def bad_busy(self):
        busy = [p for p in range(self.n) if self.busy(p)]
        if busy:
            self.any_call(self.rng.choice(busy))

    def idle_party(self):
        return self.rng.choice([p for p in range(self.n) if not self.busy(p)] or [self.n])

    def bad_idle(self):
        self.do(TURN, self.idle_party())

    def bad_link(self):
        op = self.rng.choice([TAKE, PUT, CHECK, DROP, LOOK])
        self.do(op, self.idle_party(), self.rng.choice([self.k, self.k, self.k + 1, 255]),
                self.some_size(self.c))

    def bad_channel(self):
        self.do(TAKE, self.idle_party(), self.some_size(self.k),
                self.rng.choice([self.c, self.c, self.c + 1, 64, 255]))

    def bad_empty(self):
        empty = [(p, l) for p, l in self.all_links()
                 if not self.busy(p) and not self.held(p, l)]
        if empty:
            p, l = self.rng.choice(empty)
            self.do(self.rng.choice([PUT, CHECK, LOOK]), p, l, self.some_reading())

    def bad_block(self):
        need = self.shelf.need
        self.place(self.rng.choice([need, need, need + 1, self.plan[4], 65535,
                                    self.rng.randint(need, 65535)]))

    def questions(self):
        """Looks at all links, and all blocks or a stretch of them."""
        for p, l in self.all_links():
            self.do(LOOK, p, l)
        need = self.shelf.need
        if self.shelf.kind == FLAG:
            self.place(self.rng.randrange(need + 2))
        elif need <= 60 or self.chance(0.02):
            for block in range(need + 1):
                self.place(block)
        else:
            first = self.rng.randrange(need)
            for block in range(first, min(first + 50, need + 2)):
                self.place(block)

    def blind(self):
        """Commands made without regard to the state."""
        for _ in range(self.rng.randint(5, 60)):
            op = self.rng.choice([TAKE, PUT, CHECK, DROP, LOOK, TURN, TURN, TURN, TURN, PLACE,
                                  IDLE])
            if op == PLACE:
                block = self.rng.randrange(self.shelf.need + 2)
                self.place(block if self.chance(0.8) else self.rng.randrange(65536))
            else:
                self.do(op, self.some_size(self.n), self.some_size(self.k),
                        self.some_size(self.c) if op == TAKE else self.rng.randrange(256))

    def settle(self):
        """Everybody who is not stopped comes to an end, turn about or one after another."""
        busy = [p for p in self.parties() if self.busy(p)]
        while busy:
            p = self.rng.choice(busy)
            self.turns(p, self.rng.choice([1, 1, None]))
            busy = [p for p in busy if self.busy(p)]

    def let_go(self):
        """Kept links and stopped parties are free again; another channel may be the hot one."""
        self.kept.clear()
        self.stopped.clear()
        self.hot = self.rng.randrange(self.c)

    MOODS = {mix: 30, overlap: 18, hold: 14, burst: 6, stale: 8, again: 8, there_and_back: 8,
             come_back: 6, refused: 4, questions: 3, blind: 4, settle: 4, let_go: 1}
    MOODS_WITHOUT_PARTIES = {blind: 4, refused: 2, questions: 1}

    def fill(self):
        """The whole schedule."""
        moods = dict(self.MOODS if self.n else self.MOODS_WITHOUT_PARTIES)
        for mood in moods:                  # each schedule has a taste of its own
            moods[mood] *= self.rng.choice([0.3, 1, 1, 3])
        with suppress(Full):
            while True:
                mood, = self.rng.choices(list(moods), moods.values())
                mood(self)
        self.steps = MOST_COMMANDS
        self.aside = 0
        with suppress(Full):
            self.last_questions()
        self.tail = self.some_tail()

    def last_questions(self):
        """Questions about everything, mostly when all are idle."""
        if self.chance(0.7):
            self.stopped.clear()
            self.settle()
        for p in range(self.n + 1):
            self.do(IDLE, p)
        for p, l in self.all_links():
            self.do(LOOK, p, l)
        for block in range(self.shelf.need + 2 if self.shelf.kind == BLOCK else 2):
            self.place(block)

    def some_tail(self):
        """What may follow and is not carried out."""
        end = bytes([self.rng.randint(8, 255)]) + self.rng.randbytes(3)
        more = bytes([IDLE, 0, 0, 0]) * self.rng.randint(1, 5)
        unfinished = bytes([IDLE, 0, 0])[:self.rng.randint(0, 3)]
        if len(self.commands) == MOST_COMMANDS:
            return self.rng.choice([more, more + unfinished, unfinished])
        return self.rng.choice([b"", unfinished, end, end + more + unfinished])


def make_schedule(seed, steps, plan=None):
    rng = random.Random(seed)
    if seed % EVERY_LONG == 0:
        shelf = rng.choice([FLAG, BLOCK])
        plan = plan or (shelf, *tiny(rng, shelf))
        steps = MOST_COMMANDS
    elif rng.random() < 0.2:
        steps = rng.randint(0, steps)
    plan = plan or choose_plan(rng)
    if plan[1] * plan[2] > 24:              # it takes long until a party scans
        steps *= 3
    schedule = Schedule(rng, plan, steps)
    schedule.fill()
    return schedule


# Comparing.

def run_program(program, data):
    try:
        ran = subprocess.run([program], input=data, capture_output=True, timeout=120)
    except subprocess.TimeoutExpired:
        return ["(the program does not end)"]
    lines = ran.stdout.decode("ascii", "backslashreplace").splitlines(True)
    lines = [line[:-1] if line.endswith("\n") else line + "(no line feed)" for line in lines]
    if ran.returncode:
        lines.append(f"(the program ended with status {ran.returncode})")
    return lines


def cut(line, other):
    """The line, or its part around the first difference if it is long."""
    if line is None:
        return "(no line)"
    if len(line) <= 300:
        return line
    first = next((i for i, (a, b) in enumerate(zip(line, other or "")) if a != b), 0)
    start = max(first - 60, 0)
    return f"... {line[start:start + 200]} ... (from letter {start})"


def difference(schedule, got):
    """None, or what differs first."""
    want = schedule.text()
    if want == got:
        return None
    number, (a, b) = next((number, pair) for number, pair in enumerate(zip_longest(want, got), 1)
                          if pair[0] != pair[1])
    commands = commands_of(schedule.data())
    shelf, n, k, c, blocks = schedule.plan
    lines = [f"{SHELVES[shelf]} shelf, N = {n}, K = {k}, C = {c}, {blocks} blocks,"
             f" {len(commands)} commands"]
    for i in range(max(number - 20, 0), min(number, len(commands))):
        lines.append(f"  step {i + 1}: {command_words(*commands[i])}")
    where = f"step {number}" if number <= len(commands) else "after the last step"
    lines.append(f"{where}, the model:   {cut(a, b)}")
    lines.append(f"{where}, the program: {cut(b, a)}")
    return "\n".join(lines)


def compare(seed, steps, program, plan):
    """What differs with that seed, and what was seen: answers, notes, longest time held."""
    try:
        schedule = make_schedule(seed, steps, plan)
    except AssertionError as wrong:
        return f"the model itself is at odds with the meaning at {wrong}", Counter(), Counter(), 0
    differs = difference(schedule, run_program(program, schedule.data()))
    model = schedule.model
    return differs, model.answers, model.notes, model.longest_held


def compare_all(args):
    answers, notes, longest = Counter(), Counter(), 0
    seeds = range(args.seed, args.seed + args.schedules)
    with ProcessPoolExecutor() as pool:
        results = pool.map(compare, seeds, repeat(args.steps), repeat(args.program),
                           repeat(args.plan))
        for seed, (differs, more_answers, more_notes, held) in zip(seeds, results):
            if differs:
                pool.shutdown(wait=False, cancel_futures=True)
                print(f"difference with --seed {seed} --steps {args.steps}: {differs}")
                return 1
            answers.update(more_answers)
            notes.update(more_notes)
            longest = max(longest, held)
    print(f"{notes['schedules']:,} schedules with {notes['steps']:,} steps compared,"
          " no difference")
    print(counted(answers, notes, longest))
    return 0


def write(args):
    schedule = make_schedule(args.seed, args.steps, args.plan)
    assert run_schedule(schedule.data()) == schedule.text()
    directory = Path(args.write)
    directory.mkdir(parents=True, exist_ok=True)
    (directory / "stdin").write_bytes(schedule.data())
    (directory / "stdout").write_text("\n".join(schedule.text()) + "\n")
    return 0


def main():
    parser = argparse.ArgumentParser(description=__doc__.splitlines()[0])
    parser.add_argument("--schedules", type=int, default=1000)
    parser.add_argument("--steps", type=int, default=1000)
    parser.add_argument("--seed", type=int, default=1)
    parser.add_argument("--program", default=str(ROOT / "crates/drive_shelf/out/drive_shelf"))
    parser.add_argument("--plan", type=int, nargs=5, metavar=("SHELF", "N", "K", "C", "BLOCKS"),
                        help="use this plan in every schedule; SHELF is 0 (flag) or 1 (block)")
    parser.add_argument("--write", metavar="DIR",
                        help="write one schedule and the model's output as DIR/stdin and"
                             " DIR/stdout, and run nothing")
    args = parser.parse_args()
    if args.write:
        return write(args)
    if not Path(args.program).is_file():
        parser.error(f"there is no program {args.program}")
    return compare_all(args)


if __name__ == "__main__":
    sys.exit(main())
