#!/usr/bin/env python3
"""Counts, in src/ of a commit, the places that docs/DESIGN-PASS.md speaks of: tools/places.py [COMMIT]; without one, in the files as they stand.

It finds candidates by their text; which of them are places, and what became of each, stands on the page."""
import collections
import itertools
import re
import subprocess
import sys

LEAST = 3  # a fact or a group of parameters counts from so many functions on


def sources(commit):
    """Path and text of each source of a crate."""
    if commit:
        names = subprocess.run(["git", "ls-tree", "-r", "--name-only", commit, "crates"], capture_output=True, text=True, check=True).stdout.split()
    else:
        names = subprocess.run(["git", "ls-files", "crates"], capture_output=True, text=True, check=True).stdout.split()
    for name in names:
        if "/src/" in name and name.endswith(".rt"):
            if commit:
                yield name, subprocess.run(["git", "show", f"{commit}:{name}"], capture_output=True, text=True, check=True).stdout
            else:
                with open(name, encoding="utf-8") as file:
                    yield name, file.read()


def place(path, text, start):
    """Crate and function (or file and line, outside one) of a place in a text."""
    crate = path.split("/")[1]
    functions = re.findall(r"fn (\w+)", text[:start])
    return f"{crate}::{functions[-1]}" if functions else f"{crate}:{text[:start].count(chr(10)) + 1}"


def lines(files, pattern):
    found = []
    for path, text in files:
        for match in re.finditer(pattern, text, re.M):
            line = text[text.rfind("\n", 0, match.start()) + 1:text.find("\n", match.end())].strip()
            found.append((path, text.count("\n", 0, match.start()) + 1, line))
    return found


def enums_with_nothing(files):
    """Enums with a variant that says that there is nothing, or why not."""
    found = []
    for path, text in files:
        for match in re.finditer(r"enum (\w+) \{([^}]*)\}", text):
            nothing = re.findall(r"^\s+(No|Bad|Unknown|None|Stopped|Refused|Skipped|Nothing|End)\b", match.group(2), re.M)
            if nothing:
                found.append(f"{path.split('/')[1]}::{match.group(1)} ({', '.join(nothing)})")
    return found


def conjuncts(clause):
    """The facts of a clause, parted at its outermost signs."""
    parts, depth, part = [], 0, ""
    for sign in re.sub(r"\s+", " ", clause).strip():
        depth += (sign in "([{") - (sign in ")]}")
        if sign == "×" and depth == 0:
            parts.append(part)
            part = ""
        else:
            part += sign
    return [unwrapped(piece.strip()) for piece in parts + [part]]


def unwrapped(fact):
    while fact.startswith("(") and fact.endswith(")"):
        depth = 0
        for index, sign in enumerate(fact):
            depth += (sign == "(") - (sign == ")")
            if depth == 0 and index < len(fact) - 1:
                return fact
        fact = fact[1:-1].strip()
    return fact


def facts(files):
    """Facts that stand in the requires of so many functions."""
    held = collections.defaultdict(set)
    for path, text in files:
        for match in re.finditer(r"requires\s+(?:\w+\s+)?\{((?:[^{}]|\{[^{}]*\})*)\}", text):
            for fact in conjuncts(match.group(1)):
                held[re.sub(r"\.(old|new|now)\b", "", fact)].add(place(path, text, match.start()))
    return sorted(((len(names), fact) for fact, names in held.items() if len(names) >= LEAST), reverse=True)


def groups(files):
    """Parameters, three or more, that so many functions have together; the exports for C aside."""
    functions = []
    for path, text in files:
        if path.split("/")[1] in ("door", "bench_door"):
            continue
        for match in re.finditer(r"fn (\w+)(?:<[^>(]*>)?\(([^)]*)\)", text):
            names = frozenset(part.split(":")[0].replace("mut ", "").strip() for part in re.split(r",(?![^\[]*\])", match.group(2)) if ":" in part)
            functions.append((f"{path}::{match.group(1)}", names))
    shared = {}
    for (_, left), (_, right) in itertools.combinations(functions, 2):
        both = left & right
        if len(both) >= 3 and both not in shared:
            shared[both] = frozenset(name for name, names in functions if both <= names)
    largest = [(len(users), sorted(both)) for both, users in shared.items() if len(users) >= LEAST
               and not any(both < other and users == shared[other] for other in shared)]
    return sorted(largest, reverse=True)


def main():
    files = list(sources(sys.argv[1] if len(sys.argv) > 1 else None))
    print("1 enums with a variant for nothing or for why not:", *enums_with_nothing(files), sep="\n    ")
    for number, what, pattern in (
        ("1", "numbers for nothing", r"// .*(, where (there is )?(none|neither)\b|, where none is free|no bytes where|nothing where).*$"),
        ("1", "constants for kinds", r"^pub const (TO_MOVE|CAN_TAKE)\b.*$"),
        ("1", "flags given to a function", r"\b\w+: bool\b"),
        ("3", "loops by hand", r"\b(while|loop)\b(?=[^\n]*\{$)"),
        ("4", "comparing, copying, filling, converting by hand", r"fn (same\w*|copy_cells|fill_cells|is_before|is_at_most|wide|of|number|digits|say_\w+|append|distance)\("),
        ("6", "a buffer with a length or a place beside it", r"\b(at|out|line|number|to|from|n|count): usize,?$|-> usize \{$"),
    ):
        found = lines(files, pattern)
        print(f"{number} {what}: {len(found)}", *(f"{path}:{line}: {text}" for path, line, text in found), sep="\n    ")
    found = facts(files)
    print(f"5 facts in {LEAST} or more contracts: {len(found)}", *(f"{count} {fact}" for count, fact in found), sep="\n    ")
    found = groups(files)
    print(f"5 groups of parameters in {LEAST} or more functions: {len(found)}", *(f"{count} {', '.join(names)}" for count, names in found), sep="\n    ")


if __name__ == "__main__":
    main()
