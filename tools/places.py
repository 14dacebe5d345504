#!/usr/bin/env python3
"""Lists the places that docs/DESIGN-PASS.md counts: python3 tools/places.py [FOLDER] [POINT]. FOLDER holds crates/, here by default. Each line is a place that a
pattern finds; whether it is one is judged by a reader, and the page says so. Tests are left out."""
import collections
import pathlib
import re
import sys

ROOT = pathlib.Path(next((a for a in sys.argv[1:] if not a.isdigit()), "."))
POINTS = [a for a in sys.argv[1:] if a.isdigit()] or list("12345678")


def sources():
    for path in sorted(ROOT.glob("crates/*/src/*.rt")):
        if path.name != "tests.rt":
            yield path, path.read_text()


def name(path):
    return str(path.relative_to(ROOT / "crates"))


def lines(pattern):
    for path, text in sources():
        for number, line in enumerate(text.splitlines(), 1):
            if re.search(pattern, line) and not line.lstrip().startswith(("//", "ghost")):
                yield f"{name(path)}:{number}: {line.strip()}"


def functions():
    """Each function with its text from `fn` to the opening brace of its body or the `;` of its end."""
    for path, text in sources():
        for m in re.finditer(r"^ *(?:pub(?:\(crate\))? )?fn (\w+)", text, re.M):
            end = re.compile(r"^ *\{$|;$|\{$", re.M).search(text, m.end())
            yield path, m.group(1), text[m.start() : end.start() if end else len(text)]


def enums_of_two():
    for path, text in sources():
        for m in re.finditer(r"^(?:pub )?enum (\w+)[^{]*\{(.*?)^\}", text, re.M | re.S):
            variants = [v for v in re.findall(r"^    (\w+)[ ({,]", m.group(2), re.M)]
            payload = len(re.findall(r"^    \w+[({]", m.group(2), re.M))
            if len(variants) == 2 and payload:
                yield f"{name(path)}: enum {m.group(1)} {{ {', '.join(variants)} }}"


def repeated_requires():
    seen = collections.defaultdict(list)
    for path, function, text in functions():
        for clause in re.findall(r"requires \w* ?\{ (.*) \}$", text, re.M):
            clause = re.sub(r"\.(now|old)\b", "", clause)
            seen[clause].append(f"{name(path)}:{function}")
    for clause, where in sorted(seen.items(), key=lambda x: -len(x[1])):
        if len(where) > 2:
            yield f"{len(where)} contracts: {clause}: {', '.join(where)}"


def long_parameters():
    for path, function, text in functions():
        head = text.split("requires")[0].split("ensures")[0]
        inside = re.search(r"\((.*?)\)\s*(->|$)", head, re.S)
        parameters = [p for p in (inside.group(1) if inside else "").replace("\n", " ").split(",") if p.strip()]
        if len(parameters) > 4:
            yield f"{name(path)}:{function}: {len(parameters)} parameters"


def answers():
    for crate in sorted((ROOT / "crates").iterdir()):
        files = [p for p in (crate / "proofs").rglob("*.antt")]
        text = "\n".join(p.read_text() for p in files if p.name == "Answers.antt")
        goals = len(re.findall(r"^(?:pub )?\S+ : goal\.", text, re.M))
        lemmas = sum(len(re.findall(r"^(?:pub |abbrev pub |unfoldable pub )?[\w+'-]+ : ", p.read_text(), re.M)) for p in files if p.parent.name == "proofs")
        size = sum(len(p.read_text().splitlines()) for p in files)
        yield f"{crate.name}: {goals} answers, {lemmas} lemmas in proofs/*.antt, {size} lines of proof"


FOUND = {
    "1": [
        ("enums of two, one or both with a value", enums_of_two),
        ("matches that a method says", lambda: lines(r"^\s*(Some|Ok|Err)\(\w+\)( if .*)? => (Some|Ok|Err)\(|^\s*(None|Err\(_\)|_) => (None|Err\()|^\s*Ok\(_\) => None")),
        ("let .. else that gives back an error", lambda: lines(r"^\s*let .* else \{$")),
        ("numbers told of kinds and refusals", lambda: lines(r"fn (number|place|row|layer)\(self\)")),
        ("results of bool or of bare numbers side by side", lambda: lines(r"-> (bool|\(.*usize\))( |$|,)")),
    ],
    "2": [("functions and constants, to be read side by side", lambda: lines(r"^\s*(pub(\(crate\))? )?(fn \w+|const \w+)"))],
    "3": [("loops by index", lambda: lines(r"\bfor .* in .*\.\.|\.enumerate\(\)|\bwhile\b|\bloop \{")), ("other loops", lambda: lines(r"^\s*for \w+ in [^.]*\{$|iter_mut\(\) \{"))],
    "4": [
        ("impls of the traits that are derived or convert", lambda: lines(r"^impl.* (fmt::)?(PartialEq|Eq|PartialOrd|Ord|Clone|Copy|Hash|Default|Display|Debug|From<.*>|TryFrom<.*>|Ranked) for")),
        ("casts", lambda: lines(r" as (u8|u16|u32|u64|usize)\b")),
        ("orders by hand", lambda: lines(r"fn (is_less|precedes|cmp|eq|lt)\b")),
    ],
    "5": [("requires in three or more contracts", repeated_requires), ("five parameters or more", long_parameters)],
    "6": [
        ("arrays and lists with a length beside", lambda: lines(r"-> \(\[.*usize\)|^\s*(pub(\(crate\))? )?len: usize|n: usize|len: usize|count: usize|top: usize")),
        ("places of an arena", lambda: lines(r"\b(at|root|child|spare|free|place): (&?(mut )?\[)?usize")),
    ],
    "7": [("bool parameters, function types and matches on a kind", lambda: lines(r"\w+: bool[,)]|\bfn\(|\bdyn |match kind"))],
    "8": [("answers and lemmas", answers)],
}

for point in POINTS:
    for title, find in FOUND[point]:
        found = list(find())
        print(f"== {point}. {title}: {len(found)}")
        for place in found:
            print("  ", place)
