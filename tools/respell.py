#!/usr/bin/env python3
"""Respells the repository's own definitions and lemmas as today's Rattle spells them.

usage: python3 tools/respell.py [--dry]     at the top of the repository, once, right after the kit's port.py

Types and facts become upper camel case (`Around-exact` is `AroundExact`), everything else snake case (`inBox` is `in_box`, `vector-small` is `vector_small`).
A name is the repository's own if a file of specs/ or a lemma file of proofs/ declares it. Names of the library, names that Rattle makes (goals, steps, fields
of generated records), functions of src/, strings, inputs and outputs stay. Names that fall together in one file are listed and nothing is written.
"""

import os
import re
import sys

NAME = r"[A-Za-z_][A-Za-z0-9_']*(?:-[A-Za-z0-9_'₀-₉]+)*"
TOKEN = re.compile(r"(?<![\w'◌«·₀-₉-])" + NAME + r"(?![\w'◌»₀-₉]|-\w)")
DECLARED = re.compile(r"(?m)^ *(?:(?:pattern|unfoldable|abbrev|pub|axiom)\s+)*(?:(?:record|data|ruleset)\s+)?(?:pub\s+)?(" + NAME + r")(?=\s[^\n]*?[:=])")
GOAL = re.compile(r"(?m)^(?:abbrev )?pub (" + NAME + r") : goal\.")
FOREIGN = re.compile(r"use (Rattle\.(\w+)|lib|Prim|mathlib|native|borrow|denote)\b[^\n{]*(?:\{([^}]*)\})?")

# Names that would fall together with another in a file: a lemma that would have its definition's name gets `_lem`; `first_of` is a tactic.
APART = {
    "after_check": "after_check_lem",
    "best-below": "best_below_lem",
    "bit-and": "bit_and_lem",
    "bit-or": "bit_or_lem",
    "boxes-from": "boxes_from_lem",
    "commons-but": "commons_but_lem",
    "first-least": "first_least_lem",
    "first_of": "first_index",
    "geh-finds": "geh_finds_lem",
    "getD-join": "get_or_join",
    "letterCost": "letter_costs",
    "number-fault": "number_fault_lem",
    "of-plan": "fits_plan",
    "rows-below": "rows_below_lem",
    "setCost": "set_costs",
    "so-many": "so_many_lem",
    "stored_row": "stored_row_lem",
}


def spelled(name):
    """The name as today's Rattle spells it."""
    if name in APART:
        return APART[name]
    parts = [p for p in name.split("-") if p]
    if name[0].isupper():
        return "".join(p[0].upper() + p[1:] for part in parts for p in part.split("_") if p)
    hump = re.compile(r"(?<=[a-z0-9])(?=[A-Z])")
    words = []
    for part in parts:
        words += [w.lower() if w[0].isupper() and not w.isupper() or w.isupper() and len(w) == 1 else w for w in hump.split(part)]
    return "_".join(words)


def read(path):
    with open(path, encoding="utf-8") as f:
        return f.read()


def files(root):
    for folder, dirs, names in os.walk(os.path.join(root, "crates")):
        dirs[:] = sorted(d for d in dirs if d != "out")
        for n in sorted(names):
            if n.endswith((".antt", ".rt", ".edit")):
                yield os.path.join(folder, n)


def is_lemmas(root, path):
    """A file of specs/, or one of proofs/ that belongs to no function."""
    parts = os.path.relpath(path, root).split(os.sep)
    return path.endswith(".antt") and (parts[2] == "specs" or parts[2] == "proofs" and len(parts) == 4)


def own_names(root, crates):
    """The names that the repository declares, and those that it takes from elsewhere or that Rattle makes."""
    own, other = set(), set()
    for path in files(root):
        if not path.endswith(".antt"):
            continue
        text = read(path)
        goals = set(GOAL.findall(text))
        other |= goals
        code = re.sub(r"(?m)--.*$", "", text)
        if is_lemmas(root, path):
            own |= set(DECLARED.findall(code))
        else:
            own |= {n for n in DECLARED.findall(code) if n not in goals}
        for m in FOREIGN.finditer(code):
            if m[2] not in crates and m[3]:
                other |= {w.strip().split(" as ")[-1].strip() for w in m[3].split(",")}
    return own, other


def turned(path, text, names):
    """The text with the names respelled: in comments only those with a capital within, in strings none."""
    out = []
    mark = "//" if path.endswith(".rt") else "--"
    for line in text.split("\n"):
        code, comment = line, ""
        if path.endswith(".rt"):
            pieces = re.split(r'("(?:[^"\\]|\\.)*")', line)
            at = next((i for i, p in enumerate(pieces) if i % 2 == 0 and mark in p), None)
            if at is not None:
                cut = len("".join(pieces[:at])) + pieces[at].index(mark)
                code, comment = line[:cut], line[cut:]
            pieces = re.split(r'("(?:[^"\\]|\\.)*")', code)
            code = "".join(p if i % 2 else TOKEN.sub(lambda m: names.get(m[0], m[0]), p) for i, p in enumerate(pieces))
        else:
            m = re.search(r"(?:^|\s)-- ", line)
            if m and not path.endswith(".edit"):
                code, comment = line[: m.start()], line[m.start() :]
            code = TOKEN.sub(lambda m: names.get(m[0], m[0]), code)
        comment = TOKEN.sub(lambda m: names.get(m[0], m[0]) if re.search("[a-z][A-Z]", m[0]) else m[0], comment)
        out.append(code + comment)
    return "\n".join(out)


def main(argv):
    root = os.getcwd()
    dry = "--dry" in argv
    crates = set(os.listdir(os.path.join(root, "crates")))
    own, other = own_names(root, crates)
    names = APART | {n: spelled(n) for n in own if spelled(n) != n and n not in other}
    clashes = []
    for path in files(root):
        text = read(path)
        code = re.sub(r"(?m)(--|//) .*$", "", text)
        seen = {}
        for t in set(TOKEN.findall(code)):
            seen.setdefault(names.get(t, t), set()).add(t)
        clashes += [f"{os.path.relpath(path, root)}: {', '.join(sorted(ts))} -> {new}" for new, ts in seen.items() if len(ts) > 1]
    print("\n".join(sorted(clashes)))
    print(f"respell: {len(names)} names, {len(clashes)} that fall together")
    kept = sorted(n for n in own if n in other and spelled(n) != n)
    print("respell: kept, since a library or Rattle has it:", ", ".join(kept))
    if dry:
        print("\n".join(f"{a} {b}" for a, b in sorted(names.items())))
        return 0
    for path in files(root):
        text = read(path)
        new = turned(path, text, names)
        if new != text:
            with open(path, "w", encoding="utf-8") as f:
                f.write(new)
    for folder in ("docs", "."):
        for n in sorted(os.listdir(os.path.join(root, folder))):
            if n.endswith(".md"):
                path = os.path.join(root, folder, n)
                text = read(path)
                new = re.sub(r"`([^`\n]+)`", lambda m: "`" + names.get(m[1], m[1]) + "`", text)
                if new != text:
                    with open(path, "w", encoding="utf-8") as f:
                        f.write(new)
    return 0


if __name__ == "__main__":
    raise SystemExit(main(sys.argv[1:]))
