#!/usr/bin/env python3
"""Respells this repository's own definitions and lemmas after the kit's port.py, once: snake case for each definition, lemma, field
and constructor that specs/ and proofs/ declare, in the .antt files, in the clauses of the .rt files and in the must-fail edits.

usage: python3 tools/respell.py            at the top of the repository

Functions of src/, exported names, strings, inputs and outputs keep their names. Names of generated goals (in proofs/F/) stay as they
are. It prints each pair of names, and the names that fall together.
"""
import collections
import glob
import os
import re

WORD = r"[A-Za-z_][\w'′]*(?:-[A-Za-z0-9_'′]+)*"
DECLARED = re.compile(r"^\s*(?:(?:(?:abbrev|unfoldable|pub|ruleset)\s+)*(" + WORD + r")(?=\s*:)|(?:(?:abbrev|unfoldable|pub)\s+)+(" + WORD + r")(?=\s*\())")
# a lemma that would have its definition's name, and a field
CHOSEN = {
    name: snake + "_lem"
    for name, snake in (
        (n, n.replace("-", "_"))
        for n in (
            "absorb-each",
            "block-length",
            "count-within",
            "export-salt",
            "full-salt",
            "high-first",
            "lead-length",
            "message-length",
            "mic-length",
            "opened-buffer",
            "short-form",
            "wrap-length",
        )
    )
}
CHOSEN["message-at"] = "message_at_is"


def snake(name):
    parts = [re.sub(r"(?<=[a-z0-9])([A-Z])", lambda m: "_" + m.group(1).lower(), p) for p in name.split("-")]
    return "_".join(parts).replace("′", "'")


def own_name(name):
    return name[0].islower() and (re.search(r"[a-z0-9][A-Z]", name) or "-" in name or "′" in name)


def goal_file(path):
    return os.path.basename(path) == "Proof.antt"


def declared(path):
    for line in open(path, encoding="utf-8"):
        m = DECLARED.match(line)
        if m:
            yield m.group(1) or m.group(2), line


def renamed(text, names):
    if not names:
        return text
    pattern = re.compile(r"(?<![\w'′-])(" + "|".join(re.escape(n) for n in sorted(names, key=len, reverse=True)) + r")(?![\w'′]|-[A-Za-z0-9])")
    return pattern.sub(lambda m: names[m.group(1)], text)


def main():
    antt = sorted(glob.glob("crates/*/specs/**/*.antt", recursive=True) + glob.glob("crates/*/proofs/**/*.antt", recursive=True))
    names, plain = {}, collections.defaultdict(set)
    for path in antt:
        if goal_file(path):
            continue
        for name, _ in declared(path):
            if own_name(name):
                names[name] = CHOSEN.get(name, snake(name))
            else:
                plain[name].add(path)
    back = collections.defaultdict(set)
    for old, new in names.items():
        back[new].add(old)
    for new, olds in sorted(back.items()):
        if len(olds) > 1 or new in plain:
            print("together:", new, sorted(olds), sorted(plain.get(new, [])))
    for path in antt:
        text = open(path, encoding="utf-8").read()
        here = dict(names)
        if goal_file(path):
            for name, line in declared(path):
                if own_name(name) and "tie." not in line and "goal." not in line and "statement M" not in line:
                    here[name] = snake(name)
        new = renamed(text, here)
        if new != text:
            open(path, "w", encoding="utf-8").write(new)
    camel = {o: n for o, n in names.items() if "-" not in o}
    for path in sorted(glob.glob("crates/*/src/**/*.rt", recursive=True) + glob.glob("crates/*/must-fail/**/*.edit", recursive=True)):
        lines = open(path, encoding="utf-8").read().split("\n")
        for i, line in enumerate(lines):
            clause = re.match(r"\s*(ghost use|requires|ensures)\b", line) or path.endswith(".edit")
            lines[i] = renamed(line, names if clause else camel)
        text = "\n".join(lines)
        if text != open(path, encoding="utf-8").read():
            open(path, "w", encoding="utf-8").write(text)
    for old, new in sorted(names.items()):
        print(old, new)


main()
