#!/usr/bin/env python3
"""Counts the places that the design pass looks at, in the sources of a checkout: tools/places.py [-v] [FOLDER]

A pattern finds candidates, and a candidate is a place to be read, no more: docs/DESIGN-PASS.md says of each that is left why it stays."""
import collections
import pathlib
import re
import sys

ARGS = [a for a in sys.argv[1:] if a != "-v"]
VERBOSE = "-v" in sys.argv
TOP = pathlib.Path(ARGS[0] if ARGS else ".")
SOURCES = sorted((TOP / "crates").glob("*/src/**/*.rt"))
TEXT = {p: p.read_text() for p in SOURCES}

PATTERNS = [
    (1, "let-else that gives none", r"let (?:Some|Ok)\([^=]*\) = [^;{]* else \{\s*return None;\s*\}"),
    (1, "let-else that gives none in an answer", r"else \{\s*return Ok\(None\);\s*\}"),
    (1, "a match or if that wraps again", r"None => None,|Err\((\w+)\) => Err\(\1\),|Some\(_\) => false,|Ok\(_\) => Ok\(\(\)\),|Some\(\((\w+), (\w+)\)\) => Some|else \{\s*None\s*\}"),
    (1, "a flag with a value beside it", r"\(bool, \w+\)|\w+: bool\b"),
    (1, "numbers for kinds", r"const [A-Z0-9_]+: u(?:8|16) = "),
    (1, "a number where nothing is given", r"fn \w+\(\) -> u8"),
    (1, "own enums", r"enum \w+"),
    (3, "index loops", r"for \w+ in [\w.]+\.\.[\w.()]+"),
    (3, "loops that add one", r"while [^{]*[<>][^{]*\{|\b\w+ \+= 1;"),
    (4, "equality or conversion by hand", r"fn (?:same|is_word|hex|hex_digit|blank\w*|numbers|answer_of)\b|fn of\(res"),
    (4, "casts", r" as u64| as usize| as u16"),
    (4, "fields copied one by one", r"^\s+(\w+): \w+\.\1,$"),
    (6, "a length beside a buffer", r"^\s+(?:pub(?:\(crate\))? )?(?:len|count): u\w+,$"),
    (6, "arrays of a fixed size in a type", r"^\s+(?:pub(?:\(crate\))? )?\w+: \[\w+; \w+\],$"),
    (7, "tables of functions, dyn, function pointers", r"\bdyn \w|: fn\("),
]


def where(path, text, at):
    return f"{path.relative_to(TOP)}:{text.count(chr(10), 0, at) + 1}"


def show(point, name, found):
    print(f"{point}  {name}: {len(found)}")
    if VERBOSE:
        for line in found:
            print("     " + line)


def functions():
    for path, text in TEXT.items():
        for m in re.finditer(r"fn (\w+)(<[^(]*>)?\(([^{]*?)\)(?: -> ([^\n{]*))?\n?((?:\s+(?:requires|ensures).*\n)*)", text):
            yield path, text, m


for point, name, pattern in PATTERNS:
    found = []
    for path, text in TEXT.items():
        for m in re.finditer(pattern, text, re.M):
            found.append(f"{where(path, text, m.start())}: {' '.join(m.group(0).split())[:90]}")
    show(point, name, found)

names = collections.defaultdict(set)
types = collections.defaultdict(set)
groups = collections.defaultdict(set)
clauses = collections.defaultdict(set)
for path, text, m in functions():
    crate = path.relative_to(TOP / "crates").parts[0]
    if "tests" not in crate:
        names[m.group(1)].add(crate)
    parameters = re.findall(r"(\w+): ", m.group(3))
    for i, a in enumerate(parameters):
        for b in parameters[i + 1:]:
            groups[tuple(sorted((a, b)))].add(f"{where(path, text, m.start())} {m.group(1)}")
    for clause in re.findall(r"(?:requires|ensures)(?: \w+)? \{(.*)\}", m.group(5) or ""):
        clauses[" ".join(clause.split())].add(f"{where(path, text, m.start())} {m.group(1)}")
for path, text in TEXT.items():
    crate = path.relative_to(TOP / "crates").parts[0]
    for m in re.finditer(r"(?:struct|enum) (\w+)", text):
        if "tests" not in crate:
            types[m.group(1)].add(crate)
trait_methods = {"len", "byte", "read", "owns", "number", "new", "fmt", "next"}
show(2, "function names in several crates", [f"{n}: {' '.join(sorted(c))}" for n, c in sorted(names.items()) if len(c) > 1 and n not in trait_methods])
show(2, "type names in several crates", [f"{n}: {' '.join(sorted(c))}" for n, c in sorted(types.items()) if len(c) > 1])
show(5, "pairs of parameters in three or more functions", [f"{' '.join(g)}: {len(f)}" for g, f in sorted(groups.items()) if len(f) >= 3])
show(5, "clauses in three or more functions", [f"{len(f)} x {c[:100]}" for c, f in sorted(clauses.items()) if len(f) >= 3])
files = [p for p in (TOP / "crates").glob("*/proofs/**/*.antt") if p.name in ("Answers.antt", "Invariants.antt", "Proof.antt")]
lines = sum(len(p.read_text().splitlines()) for p in (TOP / "crates").glob("*/proofs/**/*.antt"))
show(8, "proof files of functions", [str(p.relative_to(TOP)) for p in files])
print(f"8  lines of proofs: {lines}")
