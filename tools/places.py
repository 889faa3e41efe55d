#!/usr/bin/env python3
"""Lists places in crates/*/src and crates/*/proofs that an older Rattle's forms leave, by the points of docs/DESIGN-PASS.md, and counts them.

Usage: tools/places.py [-v] [FOLDER [LIST]]    (FOLDER is a checkout; with -v each place is printed; of the crates that LIST, a crates.txt, names, if it is given)
It goes by text: a place that it finds may be one that stays, for a reason that stands beside it."""

import collections
import difflib
import pathlib
import re
import sys

VERBOSE = "-v" in sys.argv[1:]
PATHS = [pathlib.Path(a) for a in sys.argv[1:] if a != "-v"] or [pathlib.Path(".")]
TOP = PATHS[0]
COMMENT = re.compile(r"//.*")
CLAUSE = re.compile(r"^\s*(?:requires|ensures)(?: \w+)? \{ (.*) \}$")
FN = re.compile(r"^\s*(?:pub )?(?:extern \"C\" )?fn (\w+)")
TOKEN = re.compile(r"[A-Za-z_]\w*|\d\w*|[^\s\w]")
PLAIN = {"omega arith", "search rules", "refl", "grind arith", "cc"}


def names(path):
    """The crates that a crates.txt names, in its order."""
    for line in path.read_text().splitlines():
        if line.strip() and not line.startswith("#"):
            yield line.split(":")[0].split()[0]


def listed():
    """The crates that are looked at."""
    these = set(names(PATHS[-1])) if len(PATHS) > 1 else None
    return [name for name in names(TOP / "crates.txt") if these is None or name in these]


def sources():
    for crate in listed():
        for path in sorted((TOP / "crates" / crate / "src").glob("*.rt")):
            if path.name != "table.rt":
                lines = [COMMENT.sub("", line) for line in path.read_text().splitlines()]
                yield f"{crate}/{path.name}", lines


def functions(lines):
    """Each function's name, line, head (up to its body, clauses out), clauses and body."""
    at = 0
    while at < len(lines):
        name = FN.match(lines[at])
        if not name:
            at += 1
            continue
        begin, head, clauses, depth, body = at, [], [], 0, []
        while at < len(lines) and not (lines[at].strip() == "{" or lines[at].rstrip().endswith(" {") and not CLAUSE.match(lines[at])):
            clause = CLAUSE.match(lines[at])
            clauses.append(clause[1]) if clause else head.append(lines[at])
            if lines[at].rstrip().endswith(";"):
                break
            at += 1
        if at < len(lines) and lines[at].strip() != "{":
            head.append(lines[at].rstrip(" {"))
        while at < len(lines):
            depth += lines[at].count("{") - lines[at].count("}")
            body.append(lines[at])
            at += 1
            if depth <= 0:
                break
        yield name[1], begin + 1, " ".join(head), clauses, "\n".join(body[1:-1])


found = collections.defaultdict(list)


def grep(point, kind, pattern, only=None):
    for name, lines in SOURCES:
        if only and not re.match(only, name):
            continue
        for number, line in enumerate(lines, 1):
            if re.search(pattern, line):
                found[point, kind].append(f"{name}:{number} {line.strip()[:90]}")


SOURCES = list(sources())
ALL = [(name, *f) for name, lines in SOURCES for f in functions(lines)]

grep(1, "variants that say that there is none", r"^\s+(Nothing|Unknown|None|More),?$")
grep(1, "fields and results that are a refusal's number", r"^\s+pub number: u8|fn \w*number\w*\(.*-> u8|^\) -> u8", r"(?!host_link|capi_)")
grep(1, "refusals found by a chain of numbers", r"link::refuse\(|pub fn refuse\(")
grep(1, "switches and engines by number", r"\b(engine|switches|call): u64")
for name, fn, line, head, clauses, body in ALL:
    if re.search(r"(\bwhile\b.*\bmatch!|is_written|-> \(bool,)", body):
        found[1, "a bool that says whether it could be done"].append(f"{name}:{line} {fn}")

pairs = []
shape = [(name, fn, line, [t for t in TOKEN.findall(body)]) for name, fn, line, head, clauses, body in ALL]
for i, a in enumerate(shape):
    for b in shape[i + 1 :]:
        if min(len(a[3]), len(b[3])) >= 30 and abs(len(a[3]) - len(b[3])) <= 0.25 * len(a[3]):
            matcher = difflib.SequenceMatcher(None, a[3], b[3], autojunk=False)
            if matcher.quick_ratio() >= 0.85 and matcher.ratio() >= 0.85:
                found[2, "pairs of functions of 30 words or more whose bodies agree in 85 of 100"].append(f"{a[0]}:{a[2]} {a[1]} ~ {b[0]}:{b[2]} {b[1]}")
same = [t for t in re.findall(r"fn (\w+?)_(octets?|words?|two|2)\b", "\n".join(l for _, ls in SOURCES for l in ls))]
for stem, count in collections.Counter(s for s, _ in same).items():
    if count > 1:
        found[2, "functions named for the type or number that they take"].append(f"{stem}_.. x {count}")

grep(3, "while loops", r"^\s*while ")
grep(3, "for loops, fold, all, any, fill, copy_from_slice (today's forms)", r"^\s*for |\.fold\(|\.all\(|\.any\(|\.fill\(|\.copy_from_slice\(|while let \[")

for name, fn, line, head, clauses, body in ALL:
    arms = re.findall(r"^\s+(?:\w+::)?\w+::\w+ => ([^\n]*),$", body, re.M)
    if len(arms) >= 3 and all(re.fullmatch(r"\d+|true|false|[\w:]*[A-Z_]{3,}", a) for a in arms):
        found[4, "a match that only turns a kind into a number, a bool or a constant"].append(f"{name}:{line} {fn}")
    tests = re.findall(r"if \w+ == \d+ \{\s+return \w+::\w+;", body)
    if len(tests) >= 2:
        found[4, "a chain of tests that turns a number into a kind"].append(f"{name}:{line} {fn}")
    if len(re.findall(r"\w+\[\d\] == \w+\[\d\]", body)) >= 3:
        found[4, "equality by hand"].append(f"{name}:{line} {fn}")
    for field in re.findall(r"^\s+(\w+): (\w+),$", body, re.M):
        if field[0] == field[1]:
            found[4, "`field: field` in a literal"].append(f"{name}:{line} {fn}")
    if len(re.findall(r"^\s+\w+: (?:\w+\.)+\w+,$", body, re.M)) >= 2 or len(set(re.findall(r"let (\w+) = (?:link|l)\.\1;", body))) >= 2:
        found[4, "a struct copied field by field"].append(f"{name}:{line} {fn}")
grep(4, "widening casts by `as`", r"\bas (u16|u32|u64|usize)\b")

clauses_of = collections.defaultdict(set)
groups = collections.defaultdict(set)
for name, fn, line, head, clauses, body in ALL:
    for clause in clauses:
        for part in re.split(r" × ", clause):
            part = part.strip("() ")
            if "result" not in part and len(part) > 12:
                clauses_of[re.sub(r"\.(old|now|new)\b", "", part)].add(f"{name} {fn}")
    params = [p.strip() for p in re.sub(r".*?\(", "", head, count=1).split(")")[0].split(",") if ":" in p]
    for size in (3, 4, 5):
        for at in range(len(params) - size + 1):
            groups[", ".join(params[at : at + size])].add(f"{name} {fn}")
for clause, where in clauses_of.items():
    if len(where) >= 3:
        found[5, "a fact in the contracts of three or more functions"].append(f"{clause[:70]}: {len(where)}")
for group, where in groups.items():
    if len(where) >= 3 and not any(group != other and group in other and groups[other] == where for other in groups):
        found[5, "three or more parameters that travel together through three or more functions"].append(f"{group}: {len(where)}")
grep(5, "the link lent in its parts", r"is_malformed\($|link\.line\.state,")

for name, fn, line, head, clauses, body in ALL:
    if re.search(r"&(?:mut )?\[u\d+; \d+\], (?:count|bits)|(?:count|bits): u16,? .*&(?:mut )?\[u\d+; \d+\]", head):
        found[6, "an array and beside it how much of it is used"].append(f"{name}:{line} {fn}")
grep(6, "tables that are copied and lent", r"(rows|table|sixteen): &\[u\d+; \d+\]|let (rows|table|sixteen) = ")

grep(7, "a step chosen by a number", r"match call \{|if engine == ")
for name, fn, line, head, clauses, body in ALL:
    if re.search(r"while left > 0", body) and "left -= 1" in body:
        found[7, "a loop around one step, written out for each step"].append(f"{name}:{line} {fn}")

for crate in listed():
    for path in sorted((TOP / "crates" / crate / "proofs").rglob("*.antt")):
        text = path.read_text()
        if path.name in ("Answers.antt", "Invariants.antt"):
            found[8, f"files {path.name}"].append(str(path.parent.relative_to(TOP / "crates")))
        if path.name == "Answers.antt":
            for goal, answer in re.findall(r"^([\w-]+) c = (.*)$", text, re.M):
                if answer.strip() in PLAIN:
                    found[8, "answers that are one plain tactic"].append(f"{crate} {path.parent.name} {goal}")

for (point, kind), places in sorted(found.items()):
    print(f"{point}  {len(places):4}  {kind}")
    if VERBOSE:
        for place in places:
            print(f"           {place}")
