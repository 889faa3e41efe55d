#!/usr/bin/env python3
"""What README shows of the library is real.

    python3 tests/readme.py FOLDER

The C program of README is compiled with the flags that pkg-config gives for the library installed under FOLDER/prefix, is run, and must print
what README shows. The Rust program of README must be the example of the crate's documentation, which `cargo test` compiles and runs.
README's session of the console must be that of crates/console_session, which the gate runs.
"""

import os
import re
import subprocess
import sys
from pathlib import Path

ROOT = Path(__file__).resolve().parent.parent


# the fenced blocks of a language, in their order
def blocks(text, language):
    return re.findall(rf"^```{language}\n(.*?)^```$", text, re.MULTILINE | re.DOTALL)


def the_block(text, language):
    found = blocks(text, language)
    if len(found) != 1:
        sys.exit(f"readme: {len(found)} blocks of {language}, not one")
    return found[0]


# the example of the crate's own documentation, without the lines that it hides
def crate_example():
    lines = (ROOT / "rust/src/lib.rs").read_text().splitlines()
    docs = "\n".join(line[3:].removeprefix(" ") for line in lines if line.startswith("//!")) + "\n"
    return "".join(line + "\n" for line in the_block(docs, "").splitlines() if not line.startswith("# "))


def output_of_c(source, folder):
    prefix = folder / "prefix"
    program = folder / "readme"
    (folder / "readme.c").write_text(source)
    found = dict(os.environ, PKG_CONFIG_PATH=str(prefix / "lib/pkgconfig"))
    flags = subprocess.run(["pkg-config", "--cflags", "--libs", "penguinjug"], env=found, check=True, capture_output=True, text=True).stdout.split()
    warnings = ["-std=c99", "-Wall", "-Wextra", "-Werror", "-pedantic"]
    subprocess.run([os.environ.get("CC", "cc"), *warnings, str(folder / "readme.c"), *flags, "-o", str(program)], check=True)
    there = dict(os.environ, LD_LIBRARY_PATH=str(prefix / "lib"))
    return subprocess.run([str(program)], env=there, check=True, capture_output=True, text=True).stdout


def main(words):
    if len(words) != 1:
        sys.exit("usage: python3 tests/readme.py FOLDER")
    readme = (ROOT / "README.md").read_text()
    printed = output_of_c(the_block(readme, "c"), Path(words[0]).resolve())
    if printed != the_block(readme, "text"):
        sys.exit(f"readme: the C program prints\n{printed}and README shows something else")
    if the_block(readme, "rust") != crate_example():
        sys.exit("readme: the Rust program is not the example of the crate's documentation")
    session = [(ROOT / "crates/console_session" / name).read_text() for name in ("stdin", "stdout")]
    if blocks(readme, "console") != session:
        sys.exit("readme: the session of the console is not that of crates/console_session")
    print("readme: the C program, built from the installed library, prints what README shows; the Rust program is the crate's tested example; the session is one that the gate runs")


if __name__ == "__main__":
    main(sys.argv[1:])
