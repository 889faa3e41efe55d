#!/usr/bin/env python3
"""Compares the program console with the independent reference on seeded scripts.

    python3 tests/scripts.py CONSOLE REFERENCE     runs both on every script; they must print the same octets
    python3 tests/scripts.py show N                prints script N

The scripts must show every call with every refusal that the scope gives it and a console can provoke, every kind of record, every event
(both alarms among them) and lines that can't be read. The grammar is that of `help`. Then both read octets that are no script, and the
console must answer a line before the next one is sent.
"""

import random
import subprocess
import sys
from collections import Counter

from crc_units import Draw
from hosts import KINDS, Line, any_octets

SCRIPTS = 240
SEED = 1717
NOISE = 10_000_000
LIMITS = {"pool": 4608, "desc": 40, "records": 49152, "output": 512}
MOST_RECEIVE, MOST_SEND = 1100, 300

# A console's link is never malformed, so 1 is not among them.
NUMBERS = {
    "open": {0, 3, 4, 5, 6},
    "receive": {0, 2, 5, 7, 8},
    "command": {0, 2, 11},
    "clear": {0, 2},
    "send": {0, 2, 9, 10},
    "fill": {0, 2, 9},
    "read": {0, 2, 5, 12, 13},
    "hand": {0, 2, 5, 12, 13},
}

# every event bit
EVENTS = 511

# lines that can't be read, beside those that are drawn
UNREADABLE = [
    b" fill", b"fill ", b"fill  ", b"fill\t", b"fill\r", b"Fill", b"fill 1", b"fil", b"receive", b"receive ", b"receive -", b"receive 7", b"receive 7E",
    b"receive 7e 7e", b"receive  7e", b"send", b"send -", b"command", b"command -1", b"command +1", b"command 65536", b"command 1 1", b"command 0x1",
    b"clear", b"clear 99999999999999999999", b"size pool 4609", b"size desc 41", b"size records 49153", b"size output 513", b"size auto 1", b"size all 1",
    b"poke pool 4608 0", b"poke pool 0 256", b"poke desc 40 0", b"poke desc 0 65536", b"poke link 0 0", b"open 1 278 16 64 256 4 fffffffff",
    b"open 1 278 16 64 256 4 ffffffffff filter filter", b"open 1 278 16 64 256 ffffffffff", b"open 1 278 16 64 256 4 ffffffffff all", b"row 1 4",
    b"row 1 4 ffffffffff itu orn filter orn", b"fill # a comment", b"\xff\xfe", b"\x00", b"show 1", b"wipe 0", b"hand", b"read",
]


class Script:
    def __init__(self, seed):
        self.draw = Draw(seed)
        self.line = Line(self.draw)
        self.k = 4
        self.lines = []

    def chance(self, n):
        return self.draw.below(n) == 0

    def add(self, *words):
        self.lines.append(" ".join(str(word) for word in words).encode())

    def mask(self):
        return self.draw.one_of(["ffffffffff", "ffffff0000", "7f7fff0000", "0000000000", any_octets(self.draw, 5).hex()])

    def switches(self):
        names = [name for name in ("filter", "itu", "orn") if self.chance(2)]
        return names if self.chance(2) else names[::-1]

    def open(self):
        below = self.draw.below
        self.k = 1 + below(self.draw.one_of([3, 16]))
        if self.chance(3):
            self.add("row", self.draw.one_of([1, 2, 3, 4, 4, 0, 5]), self.k, self.mask(), *self.switches())
            return
        numbers = [self.k, self.draw.one_of([278, 278, 7 + below(272), 40]), 1 + below(40), 1 + below(self.draw.one_of([4, 64])), 1 + below(20), 1 + below(4)]
        if self.chance(8):
            numbers[below(6)] = self.draw.one_of([0, 6, 17, 279, 1025, 65535])
        self.add("open", *numbers, self.mask(), *self.switches())

    def receive(self):
        n = self.draw.one_of([1, 1, 2, 7, 20, 60, 60, 200]) if not self.chance(60) else self.draw.one_of([1024, 1025, MOST_RECEIVE])
        self.add("receive", self.line.take(n).hex())

    def command(self):
        self.add("command", self.draw.one_of([1, 2, 2, 3, 3, 4, 5, 0, 6, 65535]))

    def clear(self):
        self.add("clear", self.draw.one_of([1 << self.draw.below(9), self.draw.below(65536), 65535]))

    def send(self):
        self.add("send", any_octets(self.draw, self.draw.one_of([3, 3, 8, 40, 276, 1, 2, 277, MOST_SEND])).hex())

    def fill(self):
        self.add("fill")

    def at_slot(self):
        self.add(self.draw.one_of(["read", "hand", "hand"]), self.draw.one_of([self.draw.below(self.k)] * 4 + [self.k, 65535]))

    def empty_slots(self):
        for slot in range(self.k):
            if self.chance(3):
                self.add("read", slot)
            self.add("hand", slot)

    # sizes that make a call refused, for a few calls
    def sizes(self):
        area = self.draw.one_of(list(LIMITS))
        right = {"pool": 280 * self.k, "desc": 2 * self.k, "records": 48 * 20, "output": 336}[area]
        self.add("size", area, min(self.draw.one_of([0, max(right - 1, 0), right, right + 1, LIMITS[area]]), LIMITS[area]))
        if self.chance(4):
            self.add("wipe")
            self.open()
        for _ in range(1 + self.draw.below(4)):
            self.call()
        self.add("size", "auto")

    def poke(self):
        if self.chance(2):
            self.add("poke", "pool", self.draw.below(280 * self.k), self.draw.below(256))
        else:
            self.add("poke", "desc", self.draw.below(2 * self.k), self.draw.one_of([0, 1, 2, 3, 278, 279, 32768, 65535]))

    def look(self):
        self.add(self.draw.one_of(["show", "show", "slots", "# a comment", "", "help"] if self.chance(4) else ["show"]))

    # lines of about one block of input, and of many
    def long_line(self):
        n = self.draw.one_of([4095, 4096, 4097, 5000, 9000, 70000])
        self.lines.append(self.draw.one_of([b"#" * n, b"command " + b"0" * (n - 9) + b"1", b"receive " + b"7e" * ((n - 8) // 2), b" " * n, b"x" * n]))

    def unreadable(self):
        self.lines.append(self.draw.one_of(UNREADABLE) if self.chance(2) else any_octets(self.draw, 1 + self.draw.below(30)).replace(b"\n", b"x"))

    def call(self):
        calls = [self.receive] * 8 + [self.at_slot] * 3 + [self.command, self.clear, self.send, self.send, self.fill, self.fill]
        self.draw.one_of(calls)()

    def booking(self):
        if self.chance(4):
            self.call()
        self.open()
        self.add("command", self.draw.one_of([2, 2, 2, 3]))
        others = [self.empty_slots] * 2 + [self.sizes, self.poke, self.look, self.look, self.unreadable, self.open] + ([self.long_line] if self.chance(8) else [])
        for _ in range(20 + self.draw.below(120)):
            self.draw.one_of([self.call] * 4 + others)() if self.chance(3) else self.call()
        self.add("show")
        self.add("slots")
        if not self.chance(8):
            self.add("wipe")

    def made(self):
        calls = 50 + self.draw.below(400)
        while len(self.lines) < calls:
            self.booking()
        return b"\n".join(self.lines[:500]) + (b"\n" if self.chance(2) else b"")


def printed(program, script):
    done = subprocess.run([program], input=script, capture_output=True)
    if done.returncode != 0:
        sys.exit(f"scripts: {program} ended with {done.returncode}: {done.stderr.decode(errors='replace').strip()}")
    return done.stdout


def compare(name, ours, theirs):
    if ours == theirs:
        return
    a, b = ours.split(b"\n"), theirs.split(b"\n")
    at = next((i for i, (x, y) in enumerate(zip(a, b)) if x != y), min(len(a), len(b)))
    x, y = (lines[at][:100] if at < len(lines) else b"nothing" for lines in (a, b))
    sys.exit(f"scripts: {name}: line {at + 1} of the output is {x!r} of the console and {y!r} of the reference")


# any octets, and one long line with no end
def noise():
    draw = random.Random(SEED)
    return [("any octets", draw.randbytes(NOISE)), ("octets without an end of line", draw.randbytes(NOISE // 10).replace(b"\n", b"x"))]


# each line is answered while the input is still open
def check_at_once(console):
    with subprocess.Popen([console], stdin=subprocess.PIPE, stdout=subprocess.PIPE) as child:
        for line, answer in [(b"row 1 1 ffffffffff\n", b"open 0\n"), (b"command 2\nfil\n", b"command 0\n? 3\n"), (b"fill\n", b"fill 0 1 7e\n")]:
            child.stdin.write(line)
            child.stdin.flush()
            for part in answer.splitlines(keepends=True):
                said = child.stdout.readline()
                if said != part:
                    sys.exit(f"scripts: to {line!r} the console answers {said!r} and not {part!r}")


def main(words):
    if len(words) == 2 and words[0] == "show":
        sys.stdout.buffer.write(Script(SEED + int(words[1])).made())
        return
    if len(words) != 2:
        sys.exit("usage: python3 tests/scripts.py CONSOLE REFERENCE | show N")
    answers, kinds, alarms, events, unread, lines = Counter(), set(), 0, 0, 0, 0
    for number in range(SCRIPTS):
        script = Script(SEED + number).made()
        ours, theirs = (printed(program, script) for program in words)
        compare(f"script {number}", ours, theirs)
        lines += script.count(b"\n")
        for line in ours.split(b"\n"):
            parts = line.split(b" ")
            if len(parts) > 1 and parts[1].isdigit() and parts[0].decode(errors="replace") in NUMBERS:
                answers[parts[0].decode(), int(parts[1])] += 1
            elif parts[0] == b"record":
                octets = bytes.fromhex(parts[1].decode())
                kinds.add(octets[0])
                alarms += octets[13]
            elif parts[0] == b"events":
                events |= int(parts[1])
            unread += parts[0] == b"?"
    for name, octets in noise():
        compare(name, *(printed(program, octets) for program in words))
    check_at_once(words[0])
    for call, numbers in NUMBERS.items():
        given = {n for (name, n) in answers if name == call}
        if given != numbers:
            sys.exit(f"scripts: {call} was answered with {sorted(given)}, and a console can be answered with {sorted(numbers)}")
    if kinds != KINDS or alarms == 0 or events != EVENTS or unread == 0:
        sys.exit(f"scripts: kinds {sorted(kinds)}, {alarms} alarms, events {events}, {unread} lines that can't be read: not all were shown")
    print(f"scripts: {SCRIPTS} scripts of {lines} lines, {alarms} alarms, {unread} lines that can't be read, and {NOISE} octets that are no script: console and reference print the same")


if __name__ == "__main__":
    main(sys.argv[1:])
