#!/usr/bin/env python3
"""Lists the places in src/ where an older form of the language may stand, point by point.

    python3 tools/places.py            the files as they lie here
    python3 tools/places.py COMMIT     the files of a commit
    python3 tools/places.py -q ..      counts alone

A line that is found is a candidate; docs/DESIGN-PASS.md says which of them are places.
"""
import collections
import re
import subprocess
import sys

args = [a for a in sys.argv[1:] if a != "-q"]
quiet = "-q" in sys.argv[1:]


def sources():
    """Each source file, as (path, text)."""
    if args:
        names = subprocess.run(["git", "ls-tree", "-r", "--name-only", args[0], "crates"],
                               capture_output=True, text=True, check=True).stdout.split("\n")
    else:
        names = subprocess.run(["git", "ls-files", "crates"], capture_output=True, text=True, check=True).stdout.split("\n")
    for name in sorted(names):
        if "/src/" in name and name.endswith(".rt"):
            if args:
                yield name, subprocess.run(["git", "show", f"{args[0]}:{name}"], capture_output=True, text=True, check=True).stdout
            else:
                yield name, open(name, encoding="utf-8").read()


FILES = list(sources())

# Each command of a point: what it looks for, and the pattern of a line.
LINES = {
    "1 enums": r"^\s*(pub |pub\(crate\) )?enum ",
    "1 flags in structs": r"^\s*(pub |pub\(crate\) )?[a-z_]+: bool,$",
    "1 numbers for kinds, causes and flags": r"\bkind: u8|front_merges: u32|fn (number|from_number)\b|-> \(u32, u8\)",
    "1 answers passed on by hand": r"(Err|None)(\([a-z_]+\))? => \(?(return )?(Err|None|false|0|\(ticks, 0\))",
    "1 success told by a flag": r"fn .*&mut self.*-> bool",
    "3 loops": r"^\s*(for|while|loop)\b",
    "3 offsets and counters by hand": r"\[[a-z_]+\.\.[a-z_]+ \+ SECTOR\]|\+= 1;|(count|next) = (count|next)\.saturating_add\(1\)",
    "4 equality, conversion and printing by hand":
        r"fn (number|from_number|text|same_kind|is_write|is_flush|is_open|mask_in|show_[a-z_]+)\b|match \(a, b\)",
    "6 arrays, and vectors passed as such": r": \[[a-z0-9]+; [A-Za-z0-9_]+\]|&\[u32; 8\]|&(mut )?Vec<",
    "7 switches among steps": r"[(,] ?(front|merges|behind): bool|: fn\(|dyn ",
}


def lines(pattern):
    for name, text in FILES:
        for i, line in enumerate(text.split("\n"), 1):
            if re.search(pattern, line):
                yield f"{name}:{i}: {line.strip()}"


def functions():
    """Each function, as (path, name, parameters)."""
    for name, text in FILES:
        for m in re.finditer(r"\bfn ([a-z_0-9]+)(?:<[^(]*>)?\(([^)]*)\)", text):
            params = [" ".join(p.split()) for p in m.group(2).split(",") if ":" in p]
            yield name, m.group(1), params


def same_names():
    """Functions outside tests that have one name in several places."""
    seen = collections.defaultdict(list)
    for path, name, _ in functions():
        seen[name].append(path)
    for name, paths in sorted(seen.items()):
        if len(paths) > 1:
            yield f"{name}: {len(paths)}: {' '.join(paths)}"


def pairs():
    """Pairs of parameters that stand together in three functions or more."""
    seen = collections.defaultdict(set)
    for path, name, params in functions():
        for i, a in enumerate(params):
            for b in params[i + 1:]:
                seen[(a, b)].add(f"{path}:{name}")
    for (a, b), where in sorted(seen.items()):
        if len(where) > 2:
            yield f"{a} + {b}: {len(where)}"


def facts():
    """Texts of `requires`, and premises of clauses, that stand in three clauses or more."""
    seen = collections.Counter()
    for _, text in FILES:
        for m in re.finditer(r"^\s*requires(?: [a-z_]+)? \{ (.*) \}$", text, re.M):
            for part in re.split(r" × (?![^(]*\))", m.group(1)):
                seen[part.strip("() ")] += 1
        for m in re.finditer(r"^\s*ensures(?: [a-z_]+)? \{ (.*) \}$", text, re.M):
            for part in m.group(1).split(" → ")[:-1]:
                seen[part.split("(", 1)[0].split(" ")[0] + " .."] += 1
    for fact, n in sorted(seen.items()):
        if n > 2:
            yield f"{fact}: {n}"


REPORTS = [(title, list(lines(pattern))) for title, pattern in LINES.items()]
REPORTS.insert(5, ("2 functions of one name", list(same_names())))
REPORTS.insert(9, ("5 parameters that stand together in three functions or more", list(pairs())))
REPORTS.insert(10, ("5 facts that stand in three clauses or more", list(facts())))
REPORTS.append(("8 files of proofs", [n for n in subprocess.run(
    ["git", "ls-tree", "-r", "--name-only", args[0], "crates"] if args else ["git", "ls-files", "crates"],
    capture_output=True, text=True, check=True).stdout.split("\n") if "/proofs/" in n and n.endswith(".antt")]))

for title, found in REPORTS:
    print(f"== {title}: {len(found)}")
    if not quiet and not title.startswith("8"):
        for line in found:
            print(f"  {line}")
