#!/usr/bin/env python3
"""Compare the proved `list_sheet` program with the model in sheet_model.py.

Makes sheets from a fixed seed: first a systematic part, which is always
compared whole, then random ones until there are --count. Stops at the first
difference. Exit status 0 means: no difference, and every ending was met.
"""

import argparse
import random
import subprocess
import sys
from collections import Counter
from concurrent.futures import ThreadPoolExecutor
from itertools import zip_longest
from pathlib import Path

sys.dont_write_bytecode = True
from sheet_model import list_sheet

ROOT = Path(__file__).resolve().parent.parent
ENDINGS = ["end"] + [f"fault {n}" for n in (11, 12, 13, 20, 21, 22, 23, 24)]
EXAMPLE = bytes.fromhex("11 11 02 20 00 00 00 00 00 00 00 00 0A C0 C0 C0 C0 C1 40 00")

# The header's fields: width, right values.
HEADER = [(4, [1]), (2, [0, 1]), (2, [0, 1]), (5, range(1, 25)), (3, range(1, 5)),
          (7, range(1, 65)), (1, [0])]
HEADER_BITS = 24
END = "000"
MOST = 65536


# Building sheets, as strings of the characters 0 and 1.

def field(value, width):
    return f"{value:0{width}b}"


def pack(bits):
    """The bits as bytes, the last one filled with zeros."""
    bits += "0" * (-len(bits) % 8)
    return bytes(int(bits[i:i + 8], 2) for i in range(0, len(bits), 8))


def unpack(data):
    return "".join(field(byte, 8) for byte in data)


def header(rng, given=None):
    """A header in range, but for the fields given as {index: value}."""
    given = given or {}
    return "".join(field(given.get(i, rng.choice(right)), width)
                   for i, (width, right) in enumerate(HEADER))


def wild_header(rng):
    """A header in which some fields have any value of their width."""
    some = [i for i in range(len(HEADER)) if rng.random() < 0.3]
    return header(rng, {i: rng.getrandbits(HEADER[i][0]) for i in some})


def word(rng):
    return rng.choice([0, 1, 2**63, 2**64 - 1, 1 << rng.randrange(64),
                       rng.getrandbits(64), rng.getrandbits(64)])


def record(rng, code=None):
    code = code or rng.randint(1, 5)
    bits = field(code, 3) + field(rng.getrandbits(5), 5)
    if code == 1:
        bits += field(rng.getrandbits(7), 7) + field(word(rng), 64)
    elif code == 2:
        count = rng.randint(0, 7)
        bits += field(count, 3) + "".join(field(rng.getrandbits(7), 7) for _ in range(count))
    elif code == 5:
        bits += field(rng.getrandbits(3), 3)
    return bits


def records(rng, most=12):
    return "".join(record(rng) for _ in range(rng.randint(0, most)))


def records_of_size(rng, size):
    """Records of exactly that many bits together: any kinds, then turns (8) and looks (11)."""
    parts = []
    while size >= 79 + 70:
        parts.append(record(rng))
        size -= len(parts[-1])
    looks = next(n for n in range(8) if (size - 11 * n) % 8 == 0)
    codes = [5] * looks + [3] * ((size - 11 * looks) // 8)
    return "".join(parts + [record(rng, code) for code in codes])


def long_bits(rng, length, fill):
    """A right sheet of that many bytes without its last `fill` bits."""
    return header(rng) + records_of_size(rng, 8 * length - HEADER_BITS - 3 - fill) + END


# The systematic part.

def header_sheets(rng):
    for i, (width, _) in enumerate(HEADER):
        for value in range(2**width):
            yield pack(header(rng, {i: value}) + records(rng, 3) + END)
    for length in range(4):
        yield pack(header(rng))[:length]


def code_sheets(rng):
    for code in range(8):
        start = header(rng) + field(code, 3)
        for tail in "", "0" * 125, "1" * 125, field(rng.getrandbits(125), 125):
            yield pack(start + tail)
        for length in range(16):
            yield pack(start + field(rng.getrandbits(125), 125))[:4 + length]


def every_length_sheets(rng):
    for _ in range(25):
        kinds = rng.sample(range(1, 6), 5)
        whole = pack(header(rng) + "".join(record(rng, code) for code in kinds) + END)
        for length in range(len(whole) + 1):
            yield whole[:length]


def long_sheets(rng):
    for length in MOST - 1, MOST, MOST + 1:
        for fill in range(8):
            yield pack(long_bits(rng, length, fill))
        yield bytes(length)                                     # wrong version, or too long
        yield pack(header(rng)) + bytes(length - 3)             # end, then more bytes
        yield rng.randbytes(length)
        yield pack(header(rng) + record(rng, 3) * (length - 4) + END)
        yield pack(header(rng) + record(rng, 1) * ((8 * length - 27) // 79) + END)
        yield pack(header(rng) + records_of_size(rng, 8 * length - HEADER_BITS))  # no end code
    for length in MOST + 2, MOST + 8, 70000, 2 * MOST, 2 * MOST + 1, 2**20:
        yield pack(long_bits(rng, length, 0))
        yield bytes(length)
    for length in MOST - 1, MOST:                               # a fault late in the sheet
        yield pack(long_bits(rng, length, 5))[:-1]
        yield pack(long_bits(rng, length, 5)) + b"\0"
        yield pack(long_bits(rng, length, 5)[:-3] + "110")
        yield pack(long_bits(rng, length, 5)[:-3] + "111")
        for fill in range(1, 8):
            yield pack(long_bits(rng, length, fill) + "0" * (fill - 1) + "1")
        for _ in range(5):
            yield flip(rng, pack(long_bits(rng, length, rng.randint(0, 7))), 8 * (length - 50))


# The random part.

def flip(rng, data, first=0):
    bits = list(unpack(data))
    for i in rng.sample(range(first, len(bits)), rng.randint(1, 3)):
        bits[i] = "10"[int(bits[i])]
    return pack("".join(bits))


def valid(rng):
    return pack(header(rng) + records(rng, rng.choice([3, 12, 60])) + END)


def flipped(rng):
    return flip(rng, valid(rng))


def truncated(rng):
    whole = valid(rng)
    return whole[:rng.randrange(len(whole))]


def extended(rng):
    size = rng.randint(1, 5)
    return valid(rng) + rng.choice([bytes(size), rng.randbytes(size)])


def fill_set(rng):
    bits = header(rng) + records(rng) + END
    fill = -len(bits) % 8 or 8                      # no fill: a whole further byte
    return pack(bits + field(rng.randrange(1, 2**fill), fill))


def wrong_code(rng):
    return pack(header(rng) + records(rng) + rng.choice(["110", "111"]) + records(rng, 2))


def wild_head(rng):
    return pack(wild_header(rng) + records(rng, 3) + END)


def random_bytes(rng):
    return rng.randbytes(rng.randint(0, 60))


def random_body(rng):
    return pack(header(rng)) + random_bytes(rng)


MIX = {valid: 20, flipped: 25, truncated: 13, extended: 8, fill_set: 8, wrong_code: 4,
       wild_head: 8, random_bytes: 6, random_body: 8}


def sheets(rng, count):
    made = [EXAMPLE]
    for part in header_sheets, code_sheets, every_length_sheets, long_sheets:
        made.extend(part(rng))
    while len(made) < count:
        make, = rng.choices(list(MIX), MIX.values())
        made.append(make(rng))
    return made


# Comparing.

def both_texts(program, sheet):
    ran = subprocess.run([program], input=sheet, capture_output=True, timeout=60)
    got = ran.stdout.decode("ascii", "backslashreplace")
    if ran.returncode < 0:
        got += f"(the program was ended by signal {-ran.returncode})\n"
    return list_sheet(sheet), got


def show_difference(sheet, want, got):
    print(f"difference at a sheet of {len(sheet)} bytes: {sheet[:200].hex(' ')}")
    lines = zip_longest(want.splitlines(True), got.splitlines(True))
    number, (a, b) = next((n, pair) for n, pair in enumerate(lines, 1) if pair[0] != pair[1])
    print(f"line {number} of the model:   {a!r}")
    print(f"line {number} of the program: {b!r}")


def main():
    parser = argparse.ArgumentParser(description=__doc__.splitlines()[0])
    parser.add_argument("--seed", type=int, default=1)
    parser.add_argument("--count", type=int, default=12000)
    parser.add_argument("--program", default=str(ROOT / "crates/list_sheet/out/list_sheet"))
    args = parser.parse_args()

    made = sheets(random.Random(args.seed), args.count)
    endings = Counter()
    with ThreadPoolExecutor(2) as pool:
        results = pool.map(lambda sheet: both_texts(args.program, sheet), made)
        for sheet, (want, got) in zip(made, results):
            if want != got:
                show_difference(sheet, want, got)
                pool.shutdown(cancel_futures=True)
                return 1
            endings[want.splitlines()[-1].split(" at ")[0]] += 1

    print(f"{endings.total()} sheets compared, no difference")
    for ending in ENDINGS:
        print(f"{ending:10}{endings[ending]:7}")
    missing = [ending for ending in ENDINGS if not endings[ending]]
    if missing:
        print("never met: " + ", ".join(missing))
    return 1 if missing else 0


if __name__ == "__main__":
    sys.exit(main())
