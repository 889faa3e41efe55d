#!/usr/bin/env python3
"""README's sixteen constants and its worked example, against the long division of tests/crc_units.py.

    python3 tests/check_by_hand.py      fails unless README.md has exactly the lines that this program makes
"""

import sys
from pathlib import Path

from crc_units import check_octets, line_bits, register

README = Path(__file__).resolve().parent.parent / "README.md"
CONTENT = bytes([0x1F, 0x02, 0x00])
HALF = 4


# The constant at n is what is left of the four bits of n, with no preset.
def constants():
    return [register(line_bits([n])[:HALF], preset=0) for n in range(16)]


# A row for each half octet: the register before and after it is what is left of the bits up to there. What is added to the register
# moved down by one digit must be one of the constants, and its place is that of the row's n.
def rows():
    bits = line_bits(CONTENT)
    for at in range(0, len(bits), HALF):
        before, after = (register(bits[:end]) if end else 0xFFFF for end in (at, at + HALF))
        half = int(bits[at:at + HALF][::-1], 2)
        n = constants().index(before >> HALF ^ after)
        assert n == before % 16 ^ half
        yield f"    {half:x}           {before:04x}       {n:x}   {before >> HALF:04x}    {constants()[n]:04x}       {after:04x}"


# The check octets, and what is left of the whole unit.
def last_sentences():
    last, check = register(line_bits(CONTENT)), check_octets(CONTENT)
    return (
        f"The complement of `{last:04x}` is `{last ^ 0xFFFF:04x}`; low octet first the check octets are `{check.hex(' ')}`. "
        f"Four steps more, with these two octets, leave `{register(line_bits(CONTENT + check)):04x}`: a good unit."
    )


def main():
    heading = "    half octet  register   n   moved   constant   register after"
    blocks = {
        "constants": "    " + " ".join(f"{constant:04x}" for constant in constants()),
        "example": "\n".join([heading, *rows()]),
        "check octets": last_sentences(),
    }
    text = README.read_text()
    for name, block in blocks.items():
        if block not in text:
            sys.exit(f"check_by_hand: README.md does not have the {name} that long division gives:\n{block}")
    print("check_by_hand: the sixteen constants and the example of README.md are what long division gives")


main()
