#!/usr/bin/env python3
"""Brings the repository's own names to the spelling of today's Rattle, once, after the kit's port.py.

usage: tools/respell.py     at the top of the repository

- definitions, fields and variables of .antt files, and their uses in clauses, edits and pages: firstBelow -> first_below
- facts that were spelled like values (FACTS): refusedBy -> RefusedBy
- the modules of laws: specs/laws/Below.antt -> specs/Laws/Below.antt
- lemmas that port.py spelled like a definition keep the dash that they had (LEMMAS): look-up is a lemma about look_up

A second run changes nothing. Names of src/, strings, inputs and outputs stay: they were in snake case.
"""
import glob
import re
import subprocess

TOKEN = re.compile(r"[^\s(){}.;,@\"«»\[\]\\:|`'?/<>&]+")
CAMEL = re.compile(r"(?:^|-)[a-z][a-z0-9]*[A-Z]")
LEMMAS = """look_up no_number no_record no_other not_at not_in one_number goes_on head_at in_opening is_open moved_down moved_up
opening_of record_of""".split()
FACTS = {
    "crates/gate/specs/Passed.antt": ["refusedBy"],
    "crates/call_ask/proofs/Asked.antt": ["asks"],
    "crates/call_ask/proofs/Laws.antt": ["toldBy"],
}


def read(path):
    with open(path, encoding="utf-8") as it:
        return it.read()


def write(path, text):
    with open(path, "w", encoding="utf-8") as it:
        it.write(text)


def snake_word(word):
    if not re.match(r"^[a-z]", word) or not re.search(r"[A-Z]", word) or re.match(r"^0x", word):
        return word
    word = re.sub(r"([a-z0-9])([A-Z])", r"\1_\2", word)
    return re.sub(r"([A-Z])([A-Z][a-z])", r"\1_\2", word).lower()


def snake(token):
    return "-".join(snake_word("get_or" if part == "getD" else part) for part in token.split("-"))


def own_names():
    names = {}
    for path in glob.glob("crates/*/specs/**/*.antt", recursive=True) + glob.glob("crates/*/proofs/**/*.antt", recursive=True):
        for token in TOKEN.findall(re.sub(r"--[^\n]*", "", read(path))):
            if CAMEL.search(token) and not token.startswith("0x"):
                names[token] = snake(token)
    return names


def respelled(text, names):
    return TOKEN.sub(lambda it: names.get(it.group(0), it.group(0)), text)


def with_dashes(text):
    return re.sub(r"(?<![\w.'-])(" + "|".join(LEMMAS) + r")(?![\w'-])", lambda it: it.group(1).replace("_", "-"), text)


def main():
    names = own_names()
    for path, facts in FACTS.items():
        text = read(path)
        for fact in facts:
            text = re.sub(r"(?<![\w.'-])" + fact + r"(?![\w'-])", fact[0].upper() + fact[1:], text)
        write(path, text)
    antt = glob.glob("crates/*/specs/**/*.antt", recursive=True) + glob.glob("crates/*/proofs/**/*.antt", recursive=True)
    others = glob.glob("crates/*/src/**/*.rt", recursive=True) + glob.glob("crates/*/must-fail/*.edit")
    pages = ["README.md", "docs/definitions"] + glob.glob("docs/*.md")
    laws = lambda text: re.sub(r"(specs[./])laws(?![\w'-])", r"\1Laws", re.sub(r"(?m)^(\s*pub mod )laws$", r"\1Laws", text))
    for path in antt:
        text = read(path)
        write(path, laws(respelled(with_dashes(text), names)))
    for path in others + pages:
        text = read(path)
        write(path, laws(respelled(text, names)))
    for old in glob.glob("crates/*/specs/laws") + glob.glob("crates/*/specs/laws.antt"):
        subprocess.run(["git", "mv", old, old.replace("specs/laws", "specs/Laws")], check=True)


main()
