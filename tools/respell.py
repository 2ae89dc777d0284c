#!/usr/bin/env python3
"""Brings the names that this repository's own antt files declare to today's spelling.

usage: tools/respell.py            at the top of the repository, after port.py

Definitions, lemmas, fields and constructors go to snake case (`rules-of` to `rules_of`), facts and
types to camel case (`Runs-on` to `RunsOn`). A name stays where a file brings it in from another
library or from goals that the check makes, and behind the names that stand for a function's facts
in its answers. Prose in comments stays, but for what stands in backticks.
"""

import os
import re
import sys

NAME = r'[^\s(){}.;,@"«»]+'
TOKEN = re.compile(rf'--[^\n]*|"(?:[^"\\\n]|\\.)*"|{NAME}|.', re.S)
RT_TOKEN = re.compile(rf'//[^\n]*|b?"(?:[^"\\\n]|\\.)*"|[^\s(){{}}.;,@"«»:<>&\[\]!|*=]+(?:-[^\s(){{}}.;,@"«»:<>&\[\]!|*=]+)*|.', re.S)
DECLARED = re.compile(rf"(?m)^[ \t]*(?:(?:abbrev|unfoldable|opaque|sealed|pub|data|record|private) +)*((?!(?:use|let|mod|open|where)\s)[^\s(){{}}.;,@\"«»\[\]|]+)(?: +\{{[^{{}}\n]*\}}| +\([^()\n]*\))* +:(?= )")
USE = re.compile(r"(?m)^ *(?:ghost )?(?:pub )?use ([^\s;{]+?)\.?(?:\{([^}]*)\})?(?: as (\S+?))?;?$")
BINDER = re.compile(rf"[(](?:{NAME} )*?({NAME}-{NAME})(?= (?:{NAME} )*:)")
ALIAS = re.compile(rf" as «?({NAME})")
MADE = ("goal", "c", "w", "l", "g", "s")


def texts(root):
    for folder, dirs, files in os.walk(os.path.join(root, "crates")):
        dirs[:] = sorted(d for d in dirs if d not in ("out", "target"))
        for f in sorted(files):
            if f.endswith((".rt", ".antt", ".edit")):
                yield os.path.join(folder, f)


def is_answer(path):
    return os.path.basename(path) in ("Answers.antt", "Invariants.antt", "Proof.antt") and "/proofs/" in path


def respelled(name):
    if name[0].isupper():
        words = re.split(r"[-_]", name)
        return "".join(w[:1].upper() + w[1:] for w in words)
    words = re.sub(r"(?<=[a-z0-9])([A-Z])(?=[a-z]|$|-)", lambda m: "_" + m[1].lower(), name)
    return words.replace("-", "_")


def uses(code, crates):
    """The names that a file brings in from elsewhere than this repository's texts."""
    theirs = set()
    for path, items, _ in USE.findall(code):
        steps = path.split(".")
        own = len(steps) > 1 and steps[0] == "Rattle" and steps[1] in crates and "Goals" not in steps and "declared" not in steps
        if not own:
            theirs.update(re.findall(NAME, items))
    return theirs


def turned(code, table, pattern, skip_behind):
    out, before = [], ("", "")
    for m in pattern.finditer(code):
        it = m[0]
        if it.startswith(("--", "//")) and len(it) > 2 and not it.startswith("->"):
            it = re.sub(r"`([^`\n]+)`", lambda q: "`" + re.sub(NAME, lambda n: table.get(n[0], n[0]), q[1]) + "`", it)
        elif not it.startswith(('"', 'b"')) and it in table:
            if not (before[1] == "." and before[0] in skip_behind):
                it = table[it]
        out.append(it)
        before = (before[1], m[0])
    return "".join(out)


def main():
    root = os.getcwd()
    crates = set(os.listdir(os.path.join(root, "crates")))
    files = {p: open(p, encoding="utf-8").read() for p in texts(root)}
    declared = set()
    for p, code in files.items():
        if p.endswith(".antt") and not is_answer(p):
            bare = re.sub(r"(?m)(?<!\S)--[^\n]*", "", code)
            declared.update(DECLARED.findall(bare))
            declared.update(BINDER.findall(bare))
            declared.update(ALIAS.findall(bare))
        elif p.endswith(".rt"):
            declared.update(ALIAS.findall(" ".join(re.findall(r"ghost use[^;]*;", code))))
    declared = {n for n in declared if "-" in n.strip("-") and re.match(r"[A-Za-z]", n)}
    table = {n: respelled(n) for n in declared if respelled(n) != n}
    # an operator's name stands bare between its arguments
    table.update({"\u25ccor-else\u25cc": "\u25ccor_else\u25cc"})
    infix = {p for p, code in files.items() if "\u25ccor-else\u25cc" in code}
    again = {}
    for old, new in sorted(table.items()):
        again.setdefault(new, []).append(old)
    for new, olds in again.items():
        if len(olds) > 1:
            print(f"fall together: {olds} -> {new}")
    for p, code in files.items():
        mine = dict(table)
        if p in infix:
            mine["or-else"] = "or_else"
        for n in uses(code, crates):
            mine.pop(n, None)
        tokens = set(re.findall(NAME, re.sub(r"(?m)(?<!\S)--[^\n]*", "", code)))
        if p.endswith(".antt"):
            for old, new in mine.items():
                if old in tokens and new in tokens:
                    print(f"meets another: {os.path.relpath(p, root)}: {old} -> {new}")
        pattern = TOKEN if p.endswith(".antt") else RT_TOKEN
        new = turned(code, mine, pattern, MADE if is_answer(p) else ())
        if new != code:
            with open(p, "w", encoding="utf-8") as f:
                f.write(new)
    print(f"{len(table)} names respelled")


if __name__ == "__main__":
    sys.exit(main())
