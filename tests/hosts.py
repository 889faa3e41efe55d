#!/usr/bin/env python3
"""Compares two hosts of the library, one in C over the header and one in Rust over the safe crate, on seeded call lists.

    python3 tests/hosts.py C_HOST RUST_HOST

Each host reads a call list, one call a line, and writes all that the call answers: its number, its count, the part that read returns, the
link's 338 octets, and every octet of the areas that were lent. Both must write the same. The lists must show every call with every refusal
that the scope gives it, and no other, and every kind of record. Words of a line; numbers decimal, octets in hexadecimal, `-` for none;
POOL, DESC, ROOM and OUT are how many octets or words of the host's areas are lent:

    open K M N T D A MASK FILTER ITU ORN POOL DESC
    wipe POOL DESC           receive POOL DESC ROOM HEX      octets POOL DESC ROOM HEX (receive_octets)
    command C                clear BITS                      row R
    send OUT HEX             fill OUT
    number POOL DESC SLOT    read POOL DESC SLOT             hand POOL DESC SLOT
    link I V                 pool I V                        desc I V: what a host with a fault writes there
"""

import subprocess
import sys
from collections import Counter

from crc_units import FLAG, Draw, check_octets, content, line_bits, octets_of, right_unit, wrong_unit

LISTS = 150
CALLS = 120
SEED = 16
POOL, DESC, RECORDS, OUTPUT, MOST_LINE = 4608, 40, 49200, 512, 1024
LINK = 338

# "Checked in rising number, where the call has that fault to find"; 0 is success.
NUMBERS = {
    "open": {0, 1, 3, 4, 5, 6},
    "wipe": {0},
    "receive": {0, 1, 2, 5, 7, 8},
    "octets": {0, 1, 2, 5, 7, 8},
    "command": {0, 1, 2, 11},
    "clear": {0, 1, 2},
    "send": {0, 1, 2, 9, 10},
    "fill": {0, 1, 2, 9},
    "number": {0, 1, 2, 5, 12, 13},
    "read": {0, 1, 2, 5, 12, 13},
    "hand": {0, 1, 2, 5, 12, 13},
}
KINDS = set(range(9))


def hexed(octets):
    return octets.hex() or "-"


# ---- the line: units of every kind, one behind the other at any bit

def stuffed(unit):
    return line_bits(unit).replace("11111", "111110")


def any_octets(draw, n):
    return bytes(draw.below(256) for _ in range(n))


def fill_in(draw):
    header = bytes([draw.below(3), draw.below(2), 0])
    return header + check_octets(header)


def link_status(draw):
    length = 1 + draw.below(2)
    header = bytes([0, 0, length] + [draw.below(2)] * length)
    return header + check_octets(header)


def repeats(draw, unit):
    return (stuffed(unit) + FLAG) * (1 + draw.below(5))


PIECES = [
    lambda draw: FLAG * (1 + draw.below(3)),
    lambda draw: repeats(draw, fill_in(draw)),
    lambda draw: repeats(draw, fill_in(draw)),
    lambda draw: repeats(draw, link_status(draw)),
    lambda draw: stuffed(right_unit(draw)) + FLAG,
    lambda draw: stuffed(wrong_unit(draw)) + FLAG,
    lambda draw: stuffed(any_octets(draw, 1 + draw.below(4))) + FLAG,
    lambda draw: stuffed(content(draw) + content(draw)) + "0" * (1 + draw.below(7)) + FLAG,
    lambda draw: "1" * (7 + draw.below(9)),
    lambda draw: stuffed(any_octets(draw, 279 + draw.below(30))) + FLAG if draw.below(8) == 0 else FLAG,
    lambda draw: line_bits(any_octets(draw, 1 + draw.below(5))),
]


class Line:
    def __init__(self, draw):
        self.draw, self.bits = draw, FLAG

    # the next octets of the line
    def take(self, n):
        while len(self.bits) < 8 * n:
            self.bits += self.draw.one_of(PIECES)(self.draw)
        taken, self.bits = self.bits[:8 * n], self.bits[8 * n:]
        return octets_of(taken)


# ---- the calls

class List:
    def __init__(self, seed):
        self.draw = Draw(seed)
        self.line = Line(self.draw)
        self.k = 1
        self.calls = []

    def chance(self, n):
        return self.draw.below(n) == 0

    def add(self, *words):
        self.calls.append(" ".join(str(word) for word in words))

    # the sizes of pool and descriptors, now and then wrong
    def sizes(self):
        pool, desc = 280 * self.k, 2 * self.k
        if self.chance(25):
            pool = self.draw.one_of([0, max(pool - 1, 0), min(pool + 1, POOL), POOL])
        if self.chance(25):
            desc = self.draw.one_of([0, desc - 1, min(desc + 1, DESC), DESC])
        return pool, desc

    def slot(self):
        return self.draw.one_of([self.draw.below(self.k), self.draw.below(self.k), self.draw.below(self.k), self.k, 65535])

    def open(self):
        self.k = 1 + self.draw.below(16)
        below = self.draw.below
        numbers = [self.k, self.draw.one_of([278, 278, 7 + below(272), 40]), 1 + below(40), 1 + below(self.draw.one_of([4, 64])), 1 + below(20), 1 + below(4)]
        switches = [below(2), below(2), below(2)]
        if self.chance(6):
            numbers[below(6)] = self.draw.one_of([0, 6, 17, 279, 1025, 65535])
        if self.chance(20):
            switches[below(3)] = 2 + below(254)
        mask = self.draw.one_of(["ffffffffff", "ffffff0000", "7f7fff0000", "0000000000", any_octets(self.draw, 5).hex()])
        self.add("open", *numbers, mask, *switches, *self.sizes())

    def receive(self):
        n = self.draw.one_of([0, 1, 1, 2, 7, 20, 60, 60, 200]) if not self.chance(60) else self.draw.one_of([MOST_LINE, MOST_LINE + 1])
        octets = self.line.take(n)
        room = min(48 * n + self.draw.one_of([0, 0, 16]), RECORDS)
        if self.chance(25):
            room = max(48 * n - 1 - self.draw.below(48), 0)
        self.add(self.draw.one_of(["receive", "octets"]), *self.sizes(), room, hexed(octets))

    def command(self):
        self.add("command", self.draw.one_of([1, 2, 2, 3, 3, 4, 5, 0, 6, 65535]))

    def clear(self):
        self.add("clear", self.draw.one_of([1 << self.draw.below(9), self.draw.below(65536), 65535]))

    def room_out(self):
        return self.draw.one_of([336, 336, 336, 336, 400, 335, 0])

    def send(self):
        n = self.draw.one_of([3, 3, 8, 40, 276, 2, 0, 277])
        self.add("send", self.room_out(), hexed(any_octets(self.draw, n)))

    def fill(self):
        self.add("fill", self.room_out())

    def at_slot(self):
        self.add(self.draw.one_of(["number", "read", "hand", "hand"]), *self.sizes(), self.slot())

    # a slot read and handed back, as a host without a fault does
    def empty_slots(self):
        for slot in range(self.k):
            self.add("read", 280 * self.k, 2 * self.k, slot)
            self.add("hand", 280 * self.k, 2 * self.k, slot)

    def row(self):
        self.add("row", self.draw.below(7))

    # what a host with a fault writes into lent memory
    def spoil(self):
        if self.chance(2):
            self.add("pool", self.draw.below(280 * self.k), self.draw.below(256))
        else:
            self.add("desc", self.draw.below(2 * self.k), self.draw.one_of([0, 1, 2, 3, 278, 279, 32768, 65535]))

    def spoil_link(self):
        self.add("link", self.draw.one_of([self.draw.below(59), self.draw.below(LINK)]), self.draw.one_of([0, 1, 2, 4, 255, self.draw.below(256)]))

    def any_call(self):
        calls = [self.receive] * 8 + [self.at_slot] * 3 + [self.command, self.command, self.clear, self.send, self.send, self.fill, self.fill, self.row]
        self.draw.one_of(calls)()

    def booking(self):
        for _ in range(self.draw.below(3)):
            self.draw.one_of([self.any_call, self.any_call, self.open, self.spoil])()
        if not self.chance(6):
            self.add("wipe", POOL, DESC)
        self.open()
        for _ in range(10 + self.draw.below(40)):
            self.draw.one_of([self.any_call] * 20 + [self.empty_slots] * 2 + [self.spoil, self.open])()
        if self.chance(2):
            for _ in range(1 + self.draw.below(4)):
                self.spoil_link()
                self.any_call()
                self.open()
        self.add("wipe", self.draw.below(POOL + 1), self.draw.below(DESC + 1))
        if not self.chance(4):
            self.add("wipe", POOL, DESC)

    def made(self):
        while len(self.calls) < CALLS:
            self.booking()
        return self.calls


# ---- the comparison

def run(host, calls):
    done = subprocess.run([host], input="\n".join(calls) + "\n", capture_output=True, text=True)
    if done.returncode != 0:
        sys.exit(f"hosts: {host} ended with {done.returncode}: {done.stderr.strip()}")
    return done.stdout.split("\n")[:-1]


# the kinds of the records that an answer shows: they stand at the front of the last area
def kinds(words):
    records = bytes.fromhex(words[-1]) if words[-1] != "-" else b""
    return {records[16 * i] for i in range(int(words[2]))}


def main(hosts):
    if len(hosts) != 2:
        sys.exit("usage: python3 tests/hosts.py C_HOST RUST_HOST")
    answers, seen, total = Counter(), set(), 0
    for number in range(LISTS):
        calls = List(SEED + number).made()
        in_c, in_rust = (run(host, calls) for host in hosts)
        if len(in_c) != len(calls) or len(in_rust) != len(calls):
            sys.exit(f"hosts: list {number} has {len(calls)} calls, and {len(in_c)} and {len(in_rust)} were answered")
        for place, (call, c, rust) in enumerate(zip(calls, in_c, in_rust)):
            if c != rust:
                at = next((i for i, (a, b) in enumerate(zip(c, rust)) if a != b), min(len(c), len(rust)))
                sys.exit(f"hosts: list {number}, call {place}, `{call[:80]}`: the answers differ from character {at} on: `{c[at:at + 40]}` in C, `{rust[at:at + 40]}` in Rust")
            words = c.split(" ")
            answers[words[0], int(words[1])] += 1
            if words[0] in ("receive", "octets"):
                seen |= kinds(words)
        total += len(calls)
    for call, numbers in NUMBERS.items():
        given = {n for (name, n) in answers if name == call}
        if given != numbers:
            sys.exit(f"hosts: {call} was answered with {sorted(given)}, and the scope has {sorted(numbers)}")
    if seen != KINDS:
        sys.exit(f"hosts: records of kinds {sorted(seen)} were seen, not of all nine")
    print(f"hosts: {LISTS} lists of {total} calls, {sum(1 for _, n in answers if n)} pairs of call and refusal, nine kinds of records: the C and the Rust host answer the same")


if __name__ == "__main__":
    main(sys.argv[1:])
