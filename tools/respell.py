#!/usr/bin/env python3
"""Spells the repository's own definitions and lemmas as today's Rattle does, in every crate below crates/.

usage: python3 tools/respell.py [--check]      at the top, once, right after port.py; --check writes nothing and lists the table

A value, a lemma, a field or a constructor is in snake case: stage-cost is stage_cost, addE is add_e. A fact or a type, spelled with a capital, is in
camel case: Along-a-list is AlongAList; a value named after a matrix of the subject keeps that letter: P-over is P_over. A dash stays where it joins
two operations, as in add-zero. Names of Rust, and the names of goals and of steps, which Rattle makes, keep their spelling.
"""

import os
import re
import sys

NAME = r"[^\s(){}.;,@\"«»]+"
DECLARED = re.compile(rf"(?m)^ *(?:(?:abbrev|unfoldable|pub|record|data|mutual|\|) +)*({NAME})(?: [({{][^\n]*?[)}}])* :(?= |$)(?! goal\.)")
WORD = re.compile(rf"{NAME}")
OPERATIONS = {"add", "mul", "neg", "sub", "zero", "one", "inv", "sum", "norm", "suc"}
MADE = re.compile(r"^(returns|invariant|decreases|loop|overflow|nonzero|bounds|slice-bounds|offset-bounds|ghost)[-_]|-requires(-\d+)?$|^the-")
PROOF = re.compile(r"/proofs/.*/(Answers|Invariants|Choices|Proof|Given|Goals)\.antt$")
# Names that would meet another one, and what they are called in its place; values that were spelled with a capital.
OTHERWISE = {
    "No-line": "HasNoLine",
    "Bad-value": "HasBadValue",
    "Other-size": "HasOtherSize",
    "Exact-ring": "exact_ring",
    "Exact-ordered": "exact_ordered",
    "Exact-inverses": "exact_inverses",
    "Exact-set": "exact_set",
    "Exact-discrete": "exact_discrete",
    "Exact-square": "exact_square",
    "not-zero-sum": "not_zero_sum",
    "stage-cost": "stage_cost",
    "column-less": "column_less",
    "corner-less": "corner_less",
    "last-index": "last_index",
    "lowest-parts": "lowest_parts",
    "size-at": "size_at",
}


# Names that a text gives to what it binds or brings in.
BOUND = "aims-held-below trains-held-below at-z exact-number fault-f fault-g in-fs in-ts same-t same-u small-f small-g sound-f sound-g".split()


def snake(name):
    name = re.sub(r"(?<=[a-z0-9])[A-Z](?![A-Z])", lambda m: "_" + m[0].lower(), name)
    parts = name.split("-")
    spelled = parts[0]
    for before, after in zip(parts, parts[1:]):
        joined = before in OPERATIONS and after in OPERATIONS or not (before[-1:].isalnum() or before[-1:] in "'₁₂₃") or not after[:1].isalnum()
        if before in ("*ℤ", "+ℤ", "ℚ", "ℤ") and after[:1].isalpha():
            joined = False
        spelled += ("-" if joined else "_") + after
    return spelled


def camel(name):
    parts = name.split("-")
    return parts[0] + "".join(p[:1].upper() + p[1:] for p in parts[1:])


def respelled(name):
    if name in OTHERWISE:
        return OTHERWISE[name]
    if "◌" in name:
        return name
    if name[:1].isascii() and name[:1].isupper():
        first = name.split("-")[0]
        if len(first) == 1 and first in "FGMPT":
            return name.replace("-", "_")
        return camel(name)
    return snake(name)


def files(kinds):
    for folder, dirs, names in os.walk("crates"):
        dirs[:] = sorted(d for d in dirs if d != "out")
        for f in sorted(names):
            if f.endswith(kinds):
                yield os.path.join(folder, f)


def read(path):
    with open(path, encoding="utf-8") as f:
        return f.read()


def items():
    """The names of functions and constants of src/."""
    found = set()
    for p in files(".rt"):
        found |= set(re.findall(r"\b(?:fn|const|static) (\w+)", read(p)))
    return found


def declared():
    """Each name that a text declares and that changes, with its new spelling: a lemma that would have a function's name gets _lem."""
    found, rust = {name: snake(name) for name in BOUND}, items()
    for p in files(".antt"):
        for m in DECLARED.finditer(read(p)):
            name = m[1]
            if PROOF.search(p) and MADE.search(name):
                continue
            new = respelled(name)
            if new != name:
                found[name] = new + "_lem" if new in rust and name not in OTHERWISE else new
    return found


def clauses(text):
    """The parts of a source file that are read as antt: the inside of its clauses and its ghost imports."""
    for m in re.finditer(r"ghost use [^;]*;", text):
        yield m.span()
    head = r"(?:requires\*?|ensures\*?|ghost)(?: +\w+)? *(?:=|:)? *\{"
    for m in re.finditer(rf"(?m)^ *(?:pub )?{head}", text):
        depth, at = 1, m.end()
        while depth and at < len(text):
            depth += {"{": 1, "}": -1}.get(text[at], 0)
            at += 1
        yield (m.end(), at - 1)


def turn_words(text, table, answers):
    def turn(m):
        before = text[max(0, m.start() - 2):m.start()]
        if answers and before.endswith(".") and re.search(r"(?<![\w-])(?:c|w|l|g|goal|args|new|initial)\.$", text[max(0, m.start() - 9):m.start()]):
            return m[0]
        return table.get(m[0], m[0])
    return WORD.sub(turn, text)


def imported(text):
    """What a file takes from libraries: these words keep their spelling there."""
    found = set()
    for m in re.finditer(r"\buse ((?:Rattle\.std|Prim|native|lib|borrow|denote|mathlib|logic)[.\w'-]*)\.\{([^}]*)\}", text):
        for item in m[2].split(","):
            found |= set(item.split())
    return found


def turn_file(path, table):
    text = read(path)
    kept = imported(text)
    table = {k: v for k, v in table.items() if k not in kept}
    if path.endswith(".rt"):
        new, at = "", 0
        for lo, hi in sorted(clauses(text)):
            new += text[at:lo] + turn_words(text[lo:hi], table, False)
            at = hi
        new += text[at:]
        used = {k for k in table if k in set(WORD.findall(text))}
        return text, re.sub(r"(?m)//.*$", lambda m: turn_words(m[0], {k: table[k] for k in used if "-" in k and clause_has(text, k)}, False), new)
    code = re.sub(r"(?m)--.*$", "", text)
    used = set(WORD.findall(code))
    new = []
    for line in text.split("\n"):
        m = re.search(r"(?:^|(?<=\s))--(?=\s|$)", line)
        here, said = (line[:m.start()], line[m.start():]) if m else (line, "")
        new.append(turn_words(here, table, bool(PROOF.search(path))) + turn_words(said, {k: v for k, v in table.items() if k in used}, False))
    return text, "\n".join(new)


def clause_has(text, name):
    return any(name in WORD.findall(text[lo:hi]) for lo, hi in clauses(text))


def meetings(table):
    """Pairs of names that would fall together, or meet a name that stands there already."""
    by_new = {}
    for old, new in table.items():
        by_new.setdefault(new, []).append(old)
    for new, olds in sorted(by_new.items()):
        if len(olds) > 1:
            yield f"{' and '.join(olds)} would both be {new}"
    for p in files((".antt", ".rt")):
        words = set(WORD.findall(read(p))) if p.endswith(".antt") else set(re.findall(r"[\w-]+", read(p)))
        for old, new in table.items():
            if old in words and new in words:
                yield f"{p}: {old} would meet {new}"


def main(argv):
    table = declared()
    met = list(meetings(table))
    if "--check" in argv:
        for old, new in sorted(table.items()):
            print(f"{old}\t{new}")
        print("\n".join("meets: " + m for m in met), file=sys.stderr)
        return 0
    if met:
        print("\n".join("meets: " + m for m in met), file=sys.stderr)
    changed = 0
    for p in files((".antt", ".rt")):
        text, new = turn_file(p, table)
        if new != text:
            changed += 1
            with open(p, "w", encoding="utf-8") as f:
                f.write(new)
    print(f"respell: {len(table)} names, {changed} files")
    return 0


if __name__ == "__main__":
    raise SystemExit(main(sys.argv[1:]))
