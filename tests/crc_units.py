#!/usr/bin/env python3
"""The check of units, with a program that shares nothing with the project.

For the receiving side it makes a line of 2,000 units, about half with right check octets, and the records that the program lineview must
write for it. For the sending side it makes 600 octets, and the check octets of each beginning of them.
The check is long division of polynomials over GF(2), each a Python integer: no register that is shifted, and no table.

    python3 tests/crc_units.py write    writes stdin and stdout of the crates lineview_crc and check_prefixes
    python3 tests/crc_units.py check    fails unless these four files are exactly what it makes

That each compiled program turns its stdin into its stdout is compared, octet by octet, whenever its crate is checked.
The rules quoted are those of the product's scope.
"""

import sys
from pathlib import Path

CRATES = Path(__file__).resolve().parent.parent / "crates"
UNITS = 2000
PREFIXES = 600
SEED = 703


# ---- bits and polynomials

# "Each line octet is eight bits, lowest first."
def line_bits(octets):
    return "".join(format(octet, "08b")[::-1] for octet in octets)


def octets_of(bits):
    return bytes(int(bits[at:at + 8][::-1], 2) for at in range(0, len(bits), 8))


# The first bit on the line has the highest power of x: bit n of the integer is the coefficient of x^n.
def polynomial(bits):
    return int(bits, 2)


# Long division: while the dividend reaches the divisor's degree, its leading term is cancelled by the divisor moved up to it.
# Sums and differences of coefficients modulo 2 are both `^`.
def remainder(dividend, divisor):
    while dividend.bit_length() >= divisor.bit_length():
        dividend ^= divisor << (dividend.bit_length() - divisor.bit_length())
    return dividend


# ---- the check
# "CRC-CCITT, generator x^16 + x^12 + x^5 + 1, lowest bit first, preset FFFF; a good unit leaves F0B8"; check octets: "the complement,
# low octet first".

GENERATOR = 1 << 16 | 1 << 12 | 1 << 5 | 1
OTHER_GENERATOR = 1 << 16 | 1 << 15 | 1 << 2 | 1
ONES = 0xFFFF


# What is left of n bits: they are multiplied by x^16, and the preset adds sixteen ones to the leading sixteen bits of the product,
# x^n (x^15 + .. + 1). The answer is sixteen bits, the highest power first, as they stand on the line.
def left_over(bits, generator, preset):
    dividend = polynomial(bits) << 16 ^ preset << len(bits)
    return format(remainder(dividend, generator), "016b")


def complement(bits):
    return format(int(bits, 2) ^ ONES, "016b")


def check_octets(content, generator=GENERATOR, preset=ONES):
    return octets_of(complement(left_over(line_bits(content), generator, preset)))


# What is left as a number, as in F0B8: the first bit on the line is the lowest.
def register(bits, preset=ONES):
    return int(left_over(bits, GENERATOR, preset)[::-1], 2)


# The receiver's rule and the sender's, which must agree.
def is_right(unit):
    right = register(line_bits(unit)) == 0xF0B8
    assert right == (unit[-2:] == check_octets(unit[:-2]))
    return right


# ---- what is drawn: the same on every machine

class Draw:
    def __init__(self, seed):
        self.state = seed

    # a number below n
    def below(self, n):
        self.state = (self.state * 6364136223846793005 + 1442695040888963407) % 2**64
        return (self.state >> 33) % n

    def one_of(self, things):
        return things[self.below(len(things))]


# 3 to 40 octets, one in thirty up to 276; any octets, mostly ones (many zeros are put in), or mostly zeros
def content(draw):
    length = 3 + (draw.below(274) if draw.below(30) == 0 else draw.below(38))
    likely = draw.one_of([None, None, 0xFF, 0x00])
    return bytes(draw.below(256) if likely is None or draw.below(4) == 0 else likely for _ in range(length))


# ---- units whose check should be wrong, each from a content

def bit_flipped(octets, at):
    return bytes(octet ^ (1 << at % 8 if place == at // 8 else 0) for place, octet in enumerate(octets))


def content_bit_flipped(c, draw):
    return bit_flipped(c, draw.below(8 * len(c))) + check_octets(c)


def check_bit_flipped(c, draw):
    return c + bit_flipped(check_octets(c), draw.below(16))


def check_octets_swapped(c, draw):
    return c + check_octets(c)[::-1]


def complement_missing(c, draw):
    return c + octets_of(left_over(line_bits(c), GENERATOR, ONES))


def preset_missing(c, draw):
    return c + check_octets(c, preset=0)


def other_generator(c, draw):
    return c + check_octets(c, generator=OTHER_GENERATOR)


def highest_bit_first(c, draw):
    return c + octets_of("".join(format(octet, "08b") for octet in check_octets(c)))


def octet_of_content_missing(c, draw):
    at = draw.below(len(c))
    return c[:at] + c[at + 1:] + check_octets(c)


def neighbours_swapped(c, draw):
    at = draw.below(len(c) - 1)
    return c[:at] + bytes([c[at + 1], c[at]]) + c[at + 2:] + check_octets(c)


def check_of_another(c, draw):
    return c + check_octets(content(draw))


FAULTS = [
    content_bit_flipped, check_bit_flipped, check_octets_swapped, complement_missing, preset_missing, other_generator,
    highest_bit_first, octet_of_content_missing, neighbours_swapped, check_of_another,
]


def right_unit(draw):
    c = content(draw)
    unit = c + check_octets(c)
    assert is_right(unit)
    return unit


# A fault may leave a right unit (two equal check octets, swapped) or a unit that is too short: then it is drawn again.
def wrong_unit(draw):
    while True:
        unit = draw.one_of(FAULTS)(content(draw), draw)
        if len(unit) >= 5 and not is_right(unit):
            return unit


# No wrong unit among the first 256, so that the first decay point finds the monitor's count at 0; a tenth of the next 512, so that
# two decay points lower it; then 77 of 100: the alarm comes soon, and about half of all units are wrong.
def units(draw):
    for number in range(UNITS):
        wrong_of_100 = 0 if number < 256 else 10 if number < 768 else 77
        yield wrong_unit(draw) if draw.below(100) < wrong_of_100 else right_unit(draw)


# ---- the line
# "a zero after every fifth one in a row, even where the flag follows; then one flag, which opens the next unit. The first output of
# a booking begins with a flag." Units follow one another at any bit; zeros fill the last octet.

FLAG = "01111110"


def line_of(all_units):
    bits = FLAG + "".join(line_bits(unit).replace("11111", "111110") + FLAG for unit in all_units)
    return octets_of(bits + "0" * (-len(bits) % 8))


# ---- the records
# "errored adds 1; count T raises SUER and the monitor goes idle with both counts kept; otherwise the event number rises, and at every
# D-th event, a decay point, it returns to 0 and the count is lowered, not below 0." T and D are those of row 1.

T, D = 64, 256


class Monitor:
    def __init__(self):
        self.count = self.event = 0
        self.idle = False

    # one event; the answer is whether it raised SUER
    def takes(self, errored):
        if self.idle:
            return False
        self.count += errored
        if self.count == T:
            self.idle = True
            return True
        self.event += 1
        if self.event == D:
            self.event = 0
            self.count = max(self.count - 1, 0)
        return False


def low_first(number):
    return number.to_bytes(2, "little")


# "0 kind; 1 one if lost for want of a slot; 2-3 length; 4-5 monitor count after it; 6-7 good count; 8-12 first five octets, zero filled;
# 13 one if this event raised SUER or AERM; 14-15 zero." lineview hands slots back at once and has the filter off, so that a right unit
# is kind 0, handed over, and a wrong one is kind 3, check wrong.
def records_of(all_units):
    monitor, good, records = Monitor(), 0, []
    for unit in all_units:
        right = is_right(unit)
        good = (good + right) % 65536
        alarm = monitor.takes(not right)
        records.append(
            bytes([0 if right else 3, 0]) + low_first(len(unit)) + low_first(monitor.count) + low_first(good) + unit[:5] + bytes([alarm, 0, 0])
        )
    return b"".join(records)


# ---- check octets to send

# Contents of every kind, one behind the other.
def octets_to_check(draw):
    octets = b""
    while len(octets) < PREFIXES:
        octets += content(draw)
    return octets[:PREFIXES]


def checks_of_prefixes(octets):
    return b"".join(check_octets(octets[:length]) for length in range(1, len(octets) + 1))


# ---- the four files

def main(words):
    if words not in (["write"], ["check"]):
        sys.exit("usage: python3 tests/crc_units.py write | check")
    # the catalogues' value for this check: 906E of the nine digits
    assert check_octets(b"123456789") == bytes([0x6E, 0x90])
    all_units = list(units(Draw(SEED)))
    octets = octets_to_check(Draw(SEED + 1))
    files = {
        "lineview_crc/stdin": line_of(all_units),
        "lineview_crc/stdout": records_of(all_units),
        "check_prefixes/stdin": octets,
        "check_prefixes/stdout": checks_of_prefixes(octets),
    }
    for name, made in files.items():
        path = CRATES / name
        if words == ["write"]:
            path.write_bytes(made)
        elif not path.is_file() or path.read_bytes() != made:
            sys.exit(f"crc_units: crates/{name} is not what this program makes; its `write` makes it anew")
    right = sum(is_right(unit) for unit in all_units)
    print(
        f"crc_units: {UNITS} units, {right} right, {UNITS - right} wrong, and the check octets of {PREFIXES} contents:"
        " stdin and stdout of crates/lineview_crc and crates/check_prefixes are what this program makes"
    )


if __name__ == "__main__":
    main(sys.argv[1:])
