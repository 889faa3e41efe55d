#!/usr/bin/env python3
"""The program unitdump against a reader of lines and a reader of pcap files that share nothing with the project.

    python3 tests/unitdump.py write          writes stdin and stdout of the crate unitdump
    python3 tests/unitdump.py check          fails unless these two files are exactly what it makes
    python3 tests/unitdump.py run PROGRAM    runs the program on many lines, reads the files that it writes, and compares each packet's unit
                                             and time with the units that this program cuts out of the line; where tshark is installed,
                                             also what it reads there

A line is cut here by its runs of ones, and not bit after bit: between two zeros stand six ones in a flag, seven or more in an abort, and
five before a zero that was put in. The rules quoted are those of the product's scope.
"""

import os
import re
import shutil
import struct
import subprocess
import sys
import tempfile
from pathlib import Path

from crc_units import FLAG, Draw, is_right, line_bits, octets_of, right_unit, wrong_unit

CRATES = Path(__file__).resolve().parent.parent / "crates"
SEED = 140


# ---- the units of a line

M = 278
MICROSECONDS = 125

# "a new link has R = 7 and hunts": as after seven ones
BEFORE = "1111111"


# The runs of ones that a zero ends, and how many bits of the line have come with that zero; what follows the last zero closes nothing.
def runs(octets):
    bits = BEFORE + line_bits(octets)
    for run in re.finditer("(1*)0", bits):
        yield len(run[1]), run.end() - len(BEFORE)


# "A zero: after R = 5 it is removed"; else it is the unit's, like the ones before it.
def bits_of_run(ones):
    return "1" * ones + "0" * (ones != 5)


# Each unit's bits, and after how many bits of the line its closing flag ends. "A flag closes the unit if one is open and always opens the
# next"; an abort drops the unit, and there is none until the next flag. "The last seven gathered bits belong to the flag": six ones, and the
# bit before them.
def closed_units(octets):
    parts = None
    for ones, end in runs(octets):
        if ones == 6:
            if parts is not None:
                yield "".join(parts)[:-1], end
            parts = []
        elif ones > 6:
            parts = None
        elif parts is not None:
            parts.append(bits_of_run(ones))


# Those handed over, with the number of line octets that had come: not those of fewer than 40 bits, nor those of more than 8M. All slots are
# empty when one comes, and nothing is dropped, with the filter off. "only its whole octets are kept".
def handed_over(octets):
    for bits, end in closed_units(octets):
        if 40 <= len(bits) <= 8 * M:
            yield octets_of(bits[:len(bits) // 8 * 8]), (end + 7) // 8


# ---- a pcap file, written and read

HEADER = struct.Struct("<IHHiIII")
PACKET = struct.Struct("<IIII")
MTP2 = 140


def file_of(octets):
    file = HEADER.pack(0xA1B2C3D4, 2, 4, 0, 0, M, MTP2)
    for unit, count in handed_over(octets):
        seconds, microseconds = divmod(MICROSECONDS * count, 1_000_000)
        file += PACKET.pack(seconds, microseconds, len(unit), len(unit)) + unit
    return file


# Each packet's octets and its time in microseconds.
def packets_of(file):
    assert HEADER.unpack_from(file) == (0xA1B2C3D4, 2, 4, 0, 0, M, MTP2), "another header"
    at = HEADER.size
    while at < len(file):
        seconds, microseconds, kept, came = PACKET.unpack_from(file, at)
        assert microseconds < 1_000_000 and kept == came <= M, "a packet header out of range"
        at += PACKET.size
        assert at + kept <= len(file), "the last packet is torn"
        yield file[at:at + kept], 1_000_000 * seconds + microseconds
        at += kept


# ---- lines

def stuffed(bits):
    return bits.replace("11111", "111110")


def any_octets(draw, n):
    return bytes(draw.below(256) for _ in range(n))


# What can stand between two flags, or stand there for a unit.
def piece(draw):
    unit = right_unit(draw) if draw.below(3) else wrong_unit(draw)
    return draw.one_of([
        lambda: stuffed(line_bits(unit)),
        lambda: stuffed(line_bits(unit)),
        lambda: stuffed(line_bits(unit)),
        lambda: stuffed(line_bits(unit)) + FLAG,
        # the flags before and after share a zero with it
        lambda: stuffed(line_bits(unit)) + FLAG[:-1],
        # not whole octets, up to seven bits cut off or put on
        lambda: stuffed(line_bits(unit)[:-1 - draw.below(7)]),
        lambda: stuffed(line_bits(unit) + "0101101"[draw.below(7):]),
        # an abort in a unit
        lambda: stuffed(line_bits(unit))[:1 + draw.below(60)] + "1111111",
        # five ones at the end with no zero put in
        lambda: stuffed(line_bits(unit) + "0" + "11111")[:-1],
        # at the border of short and of long
        lambda: stuffed(line_bits(any_octets(draw, 6))[:38 + draw.below(4)]),
        lambda: stuffed(line_bits(any_octets(draw, M + 1))[:8 * M - 1 + draw.below(3)]),
        lambda: stuffed(line_bits(any_octets(draw, M + draw.below(40)))),
        lambda: "1" * draw.below(30) + "0" * draw.below(3),
        lambda: line_bits(any_octets(draw, draw.below(40))),
        lambda: "",
    ])()


def line_of_pieces(draw, count):
    bits = "0" * draw.below(9)
    for _ in range(count):
        bits += FLAG + piece(draw)
    bits += FLAG
    return octets_of(bits + "0" * (-len(bits) % 8))


# the shortest units, one behind the other: no line brings more packets
def densest(count):
    unit = bytes([0, 0, 0, 0xCC, 0xC6])
    assert is_right(unit)
    return bytes([0x7E]) + (unit + bytes([0x7E])) * count


def lines():
    yield "no octet", b""
    yield "one flag", bytes([0x7E])
    yield "the sample of lineview", (CRATES / "lineview_sample/stdin").read_bytes()
    yield "2,000 units", (CRATES / "lineview_crc/stdin").read_bytes()
    for number in range(20):
        yield f"pieces {number}", line_of_pieces(Draw(SEED + number), 30 + 15 * number)
    yield "ones", bytes([0xFF]) * 5000
    yield "zeros", bytes(5000)
    yield "flags", bytes([0x7E]) * 5000
    yield "flags that share a zero", octets_of(("0" + "111111") * 8000)
    # more than a second of the line
    yield "the shortest units", densest(4000)
    yield "any octets", any_octets(Draw(SEED - 1), 300_000)


# ---- comparing

def fail(name, what):
    sys.exit(f"unitdump: {name}: {what}")


# Each packet's unit, with its time. "24 octets and at most 3.5 for each line octet": a packet of 16 + n octets takes n + 1 line octets, its unit
# and a flag, and n is 5 or more.
def compare(name, octets, units, file):
    try:
        found = list(packets_of(file))
    except (AssertionError, struct.error) as error:
        fail(name, f"the file can't be read: {error}")
    wanted = [(unit, MICROSECONDS * count) for unit, count in units]
    for number, (want, have) in enumerate(zip(wanted, found), 1):
        if want != have:
            fail(name, f"packet {number} is {have[0].hex()} at {have[1]} and not {want[0].hex()} at {want[1]}")
    if len(found) != len(wanted):
        fail(name, f"{len(found)} packets and not {len(wanted)}")
    if 2 * len(file) > 2 * HEADER.size + 7 * len(octets):
        fail(name, f"{len(file)} octets of {len(octets)}, more than the bound")


FIELDS = [
    "frame.time_epoch", "frame.len", "frame.cap_len", "mtp2.bsn", "mtp2.bib", "mtp2.fsn", "mtp2.fib", "mtp2.li", "mtp2.fcs_16",
    "mtp2.fcs_16.status",
]


# What tshark is to show of a unit: BSN, BIB, FSN, FIB, LI, the check octets low octet first, and whether they are right.
def fields_of(unit, count):
    seconds, microseconds = divmod(MICROSECONDS * count, 1_000_000)
    return [
        f"{seconds}.{microseconds:06d}000", str(len(unit)), str(len(unit)), str(unit[0] & 0x7F), str(unit[0] >> 7), str(unit[1] & 0x7F),
        str(unit[1] >> 7), str(unit[2] & 0x3F), f"0x{int.from_bytes(unit[-2:], 'little'):04x}", str(int(is_right(unit))),
    ]


def compare_tshark(name, units, file):
    with tempfile.NamedTemporaryFile(suffix=".pcap") as kept:
        kept.write(file)
        kept.flush()
        words = ["tshark", "-n", "-r", kept.name, "-o", "mtp2.capture_contains_frame_check_sequence:TRUE", "--disable-protocol", "mtp3", "-T", "fields"]
        words += [word for field in FIELDS for word in ("-e", field)]
        done = subprocess.run(words, capture_output=True, text=True)
    if done.returncode:
        fail(name, f"tshark: {done.stderr.strip()}")
    shown = [line.split("\t") for line in done.stdout.splitlines()]
    for number, ((unit, count), have) in enumerate(zip(units, shown), 1):
        if have != fields_of(unit, count):
            fail(name, f"tshark shows {have} in packet {number}, and not {fields_of(unit, count)}")
    if len(shown) != len(units):
        fail(name, f"tshark shows {len(shown)} packets and not {len(units)}")


# The line comes in parts of any size, as from a pipe.
def dumped(program, name, octets, draw):
    with tempfile.TemporaryFile() as file:
        running = subprocess.Popen([program], stdin=subprocess.PIPE, stdout=file, stderr=subprocess.PIPE)
        at = 0
        while at < len(octets):
            size = 1 + draw.below(3000)
            running.stdin.write(octets[at:at + size])
            running.stdin.flush()
            at += size
        said = running.communicate()[1]
        if running.returncode or said:
            fail(name, f"status {running.returncode}: {said.decode(errors='replace')}")
        file.seek(0)
        return file.read()


# A write that fails, and a read: each is said, and is the status.
def compare_failures(program):
    with open("/dev/full", "wb") as full:
        done = subprocess.run([program], input=b"", stdout=full, stderr=subprocess.PIPE)
        if (done.returncode, done.stderr) != (1, b"write: No space left on device\n"):
            fail("a full device", f"status {done.returncode}: {done.stderr!r}")
    folder = os.open("/", os.O_RDONLY)
    done = subprocess.run([program], stdin=folder, capture_output=True)
    os.close(folder)
    if (done.returncode, done.stderr, done.stdout) != (1, b"read: Is a directory\n", file_of(b"")):
        fail("a folder for input", f"status {done.returncode}: {done.stderr!r}, output {done.stdout!r}")


def run(program):
    tshark = shutil.which("tshark")
    draw = Draw(SEED - 2)
    count = packets = 0
    for name, octets in lines():
        units = list(handed_over(octets))
        file = dumped(program, name, octets, draw)
        compare(name, octets, units, file)
        if tshark:
            compare_tshark(name, units, file)
        count += 1
        packets += len(units)
    compare_failures(program)
    read = "and by tshark" if tshark else "(tshark is not installed)"
    print(f"unitdump: {count} lines, {packets} packets: the files hold the units that are cut out of the lines here, read by this program {read}")


# ---- the two files of the crate

def files():
    line = line_of_pieces(Draw(SEED), 150)
    return {"stdin": line, "stdout": file_of(line)}


def main(words):
    if words in (["write"], ["check"]):
        for name, made in files().items():
            path = CRATES / "unitdump" / name
            if words == ["write"]:
                path.write_bytes(made)
            elif not path.is_file() or path.read_bytes() != made:
                sys.exit(f"unitdump: crates/unitdump/{name} is not what this program makes; its `write` makes it anew")
        print(f"unitdump: stdin and stdout of crates/unitdump are what this program makes: {len(list(packets_of(files()['stdout'])))} packets")
    elif len(words) == 2 and words[0] == "run":
        run(words[1])
    else:
        sys.exit("usage: python3 tests/unitdump.py write | check | run PROGRAM")


if __name__ == "__main__":
    main(sys.argv[1:])
