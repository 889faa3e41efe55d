#!/usr/bin/env python3
"""The lines of records, with a program that shares nothing with the project.

It makes a file of records, of every kind and with every mark, and what the program recordview must write for it: first from what each
record was made of, and again from the octets alone. Both must be the same. For the records of crates/lineview_crc it goes by the octets.

    python3 tests/record_lines.py write    writes stdin and stdout of the crates recordview and recordview_crc
    python3 tests/record_lines.py check    fails unless these four files are exactly what it makes
    python3 tests/record_lines.py run PROGRAM    feeds a compiled recordview many inputs, and compares

That each compiled program turns its stdin into its stdout is compared, octet by octet, whenever its crate is checked.
The rules quoted are those of the product's scope.
"""

import struct
import subprocess
import sys
from collections import Counter
from itertools import groupby
from pathlib import Path

from crc_units import Draw

CRATES = Path(__file__).resolve().parent.parent / "crates"
SEED = 140
DRAWN = 1500

# "Kinds: 0 handed over, 1 dropped, 2 good but lost, 3 check wrong, 4 not whole octets, 5 short, 6 long, 7 abort, 8 octet tick while counting."
GOOD = ["handed over", "dropped", "lost"]
KINDS = GOOD + ["check bits wrong", "not whole octets", "short", "long", "abort", "octet counting"]


# "5 octets is fill-in, 6 or 7 link status, more is message."
def unit(length):
    return "MSU" if length > 7 else "LSSU" if length > 5 else "FISU" if length == 5 else "SU"


# ---- a line from what a record tells: what is compared, and the parts before the two counts, the counts, and after them

def line(kind, lost, length, count, good, first, alarm):
    fields = [f"{unit(length)} {kind}" if kind in GOOD else kind]
    if lost:
        fields.append("no slot")
    # "Kinds 6 to 8 have length and octets zero": they tell of no unit
    if kind not in ("long", "abort", "octet counting"):
        fields.append(f"{length} octets {first[:length].hex() or '-'}")
    if kind in GOOD and length >= 3:
        back, forward, indicator = (format(octet, "08b") for octet in first[:3])
        fields.append(
            f"BSN {int(back[1:], 2)} BIB {back[0]} FSN {int(forward[1:], 2)} FIB {forward[0]} LI {int(indicator[2:], 2)}"
        )
    return (kind, lost, length, first, alarm), fields, [f"monitor {count}", f"good {good}"], ["ALARM"] if alarm else []


# Octets that are no record.
def no_line(octets):
    return octets, ["no record", octets.hex()], [], []


# What is counted: the kind's name, and the alarm.
def totals(kinds, alarms):
    seen = Counter(kinds)
    return "".join(f"total {kind}  {seen[kind]}\n" for kind in [*KINDS, "no record"]) + f"total alarms  {alarms}\n"


# Records in a row that are the same but for the two counts are one line, with the counts of the last.
def text(lines, torn, kinds, alarms):
    out = []
    for _, alike in groupby(lines, key=lambda parts: parts[0]):
        alike = list(alike)
        _, before, counts, after = alike[-1]
        times = [f"x {len(alike)}"] if len(alike) > 1 else []
        out.append("  ".join(before + counts + after + times) + "\n")
    if torn:
        out.append(f"torn end  {len(torn)} octets {torn.hex()}\n")
    return ("".join(out) + totals(kinds, alarms)).encode()


# ---- from the octets alone
# "Sixteen octets each, no header, low octet first: 0 kind; 1 one if lost for want of a slot; 2-3 length; 4-5 monitor count after it;
# 6-7 good count; 8-12 first five octets, zero filled; 13 one if this event raised SUER or AERM; 14-15 zero."

RECORD = struct.Struct("<BBHHH5sBH")


def text_of_octets(octets):
    whole = len(octets) // 16 * 16
    lines, kinds, alarms = [], [], 0
    for place in range(0, whole, 16):
        kind, lost, length, count, good, first, alarm, rest = RECORD.unpack_from(octets, place)
        if kind < len(KINDS) and lost < 2 and alarm < 2 and rest == 0:
            lines.append(line(KINDS[kind], lost, length, count, good, first, alarm))
            kinds.append(KINDS[kind])
            alarms += alarm
        else:
            lines.append(no_line(octets[place:place + 16]))
            kinds.append("no record")
    return text(lines, octets[whole:], kinds, alarms)


# ---- a file of records, and what is told of each

class File:
    def __init__(self):
        self.octets, self.lines, self.kinds, self.alarms = b"", [], [], 0

    def record(self, kind, length=0, count=0, good=0, first=b"", lost=False, alarm=False):
        low_first = b"".join(number.to_bytes(2, "little") for number in (length, count, good))
        self.octets += bytes([KINDS.index(kind), lost]) + low_first + first.ljust(5, b"\0") + bytes([alarm, 0, 0])
        self.lines.append(line(kind, lost, length, count, good, first.ljust(5, b"\0"), alarm))
        self.kinds.append(kind)
        self.alarms += alarm

    def none(self, octets):
        self.octets += octets
        self.lines.append(no_line(octets))
        self.kinds.append("no record")


# One of everything that a board writes, in the order of a booking.
def booking(file):
    fill_in = bytes([0xFF, 0x80, 0, 0x12, 0x34])
    for good in range(1, 41):
        file.record("handed over" if good == 1 else "dropped", 5, 0, good, fill_in)
    for good in range(41, 44):
        file.record("handed over" if good < 43 else "dropped", 6, 0, good, bytes([0x7F, 0xFF, 1, 2, 3]))
    file.record("handed over", 7, 0, 44, bytes([0x80, 0x01, 2, 0xAA, 0xBB]))
    for length in (8, 66, 278):
        file.record("handed over", length, 0, 45, bytes([1, 2, 0xC0 | min(length - 5, 63), 0x83, 0]))
    file.record("lost", 9, 0, 46, bytes([0x81, 0x82, 4, 5, 6]), lost=True)
    file.record("check bits wrong", 5, 1, 46, bytes([1, 2, 3, 4, 5]))
    file.record("check bits wrong", 5, 2, 46, bytes([1, 2, 3, 4, 5]), lost=True)
    file.record("not whole octets", 5, 3, 46, bytes([9, 8, 7, 6, 5]))
    file.record("not whole octets", 6, 4, 46, bytes([9, 8, 7, 6, 5]), lost=True)
    for length in (0, 1, 2, 3, 4, 4, 4):
        file.record("short", length, 4, 46, bytes(range(0xA1, 0xA1 + length)))
    for kind in ("long", "abort", "abort", "abort"):
        file.record(kind, 0, 4, 46)
    for count in range(5, 65):
        file.record("octet counting", 0, count, 46, alarm=count == 64)
    file.record("octet counting", 0, 64, 46)
    file.record("check bits wrong", 40, 64, 46, bytes([1, 1, 1, 1, 1]), alarm=True)
    file.record("dropped", 5, 65535, 65535, fill_in)
    file.record("dropped", 5, 0, 0, fill_in)


# What no board writes.
def foreign(file):
    file.record("lost", 5, 0, 0, bytes(5))
    for length in range(5):
        file.record("handed over", length, 0, 0, bytes([0x91, 0x92, 0x93, 0x94, 0x95]))
    file.record("abort", 3, 0, 0, bytes([1, 2, 3]), lost=True, alarm=True)
    whole = bytes(16)
    for place, octet in ((0, 9), (0, 255), (1, 2), (13, 2), (13, 255), (14, 1), (15, 1), (15, 128)):
        file.none(whole[:place] + bytes([octet]) + whole[place + 1:])
    # alike but for octets 4 to 7, which are no counts here
    for counts in (0, 0, 1, 256, 65536, 65536, 65536, 0):
        file.none(bytes([77, 0, 5, 0]) + counts.to_bytes(4, "little") + bytes(8))


# Records of any numbers, many of them like the one before it but for the counts, or for one thing.
def drawn(file, draw):
    for number in range(DRAWN):
        if number == 0 or draw.below(5) < 2:
            kind, length = draw.one_of(KINDS), draw.one_of([0, 1, 4, 5, 6, 7, 8, 9, 278, 65535])
            first, lost, alarm = bytes(draw.below(256) for _ in range(5)), draw.below(4) == 0, draw.below(8) == 0
        elif draw.below(4) == 0:
            alarm = not alarm
        elif draw.below(8) == 0:
            first = first[:4] + bytes([first[4] ^ 1 << draw.below(8)])
        file.record(kind, length, draw.below(65536), draw.below(65536), first, lost, alarm)
        if draw.below(20) == 0:
            file.none(bytes([9 + draw.below(247)]) + bytes(draw.below(256) for _ in range(15)))


def made():
    file = File()
    booking(file)
    foreign(file)
    drawn(file, Draw(SEED))
    torn = bytes([0, 0, 5, 0, 1, 0, 7])
    expected = text(file.lines, torn, file.kinds, file.alarms)
    assert expected == text_of_octets(file.octets + torn)
    return file.octets + torn, expected


# ---- many inputs

# Beginnings of the made file, so that a record is torn at each octet, and near the ends of the blocks that the program reads; and any octets.
def inputs(octets, draw):
    for length in range(50):
        yield octets[:length]
    repeated = octets[:32] * 1100
    for length in (16383, 16384, 16385, 16400, 32767, 32768, 32769, len(repeated)):
        yield repeated[:length]
        yield (octets + octets)[5 * 16:][:length]
    for length in (15, 16, 16384, 100003, 1 << 20):
        yield bytes(draw.below(256) for _ in range(length))
        yield bytes(length)


def run(program):
    count = size = 0
    for octets in inputs(made()[0], Draw(SEED + 1)):
        ran = subprocess.run([program], input=octets, capture_output=True, check=True, timeout=120)
        if ran.stdout != text_of_octets(octets) or ran.stderr:
            sys.exit(f"record_lines: {program} writes other lines for an input of {len(octets)} octets: {octets[:64].hex()}..")
        count += 1
        size += len(octets)
    print(f"record_lines: {program} writes what this program expects for {count} inputs, {size} octets in all")


def main(words):
    if len(words) == 2 and words[0] == "run":
        run(words[1])
        return
    if words not in (["write"], ["check"]):
        sys.exit("usage: python3 tests/record_lines.py write | check | run PROGRAM")
    octets, expected = made()
    records = (CRATES / "lineview_crc/stdout").read_bytes()
    files = {
        "recordview/stdin": octets,
        "recordview/stdout": expected,
        "recordview_crc/stdin": records,
        "recordview_crc/stdout": text_of_octets(records),
    }
    for name, octets_made in files.items():
        path = CRATES / name
        if words == ["write"]:
            path.write_bytes(octets_made)
        elif not path.is_file() or path.read_bytes() != octets_made:
            sys.exit(f"record_lines: crates/{name} is not what this program makes; its `write` makes it anew")
    print(
        f"record_lines: the lines of {len(octets) // 16} records and a torn end, and of {len(records) // 16} records of crates/lineview_crc:"
        " stdin and stdout of crates/recordview and crates/recordview_crc are what this program makes"
    )


if __name__ == "__main__":
    main(sys.argv[1:])
