#!/usr/bin/env python3
"""Brings this repository's own names in antt to one spelling: words in snake case, types in camel case.

    python3 tools/respell.py            at the top of the repository, once, after port.py

A name that a file imports from a library of the kit stays in that file, and so do the names that Rattle makes (goals and steps of a proof)
and the names of functions of src/. It prints names that fall together.
"""
import collections
import glob
import os
import re
import sys

TOKEN = re.compile(r"(?<![A-Za-z0-9_'\-+◌])[A-Za-z][A-Za-z0-9_']*(?:-[A-Za-z0-9_']+)+(?![A-Za-z0-9_'\-+◌])")
NAME = re.compile(r"[A-Za-z][A-Za-z0-9_'\-]*")
DEFINED = re.compile(r"(?m)^\s*(?:(?:pub|abbrev|unfoldable|data|record)\s+)*([A-Za-z][A-Za-z0-9_'\-]*)\s*(?::|\(|\{[^}]*:)")
USED = re.compile(r"(?m)^\s*(?:pub )?(?:ghost )?use ([^\{;\n]*)(\{[^}]*\})?")
WORDS = {"as", "at", "in", "is", "data", "open", "record", "let", "elim", "use", "mod", "pub", "abbrev", "unfoldable", "rw", "simp", "module",
         "where", "result", "type", "Type", "else", "if", "match", "fn"}


def is_answer(path):
    return os.path.basename(path) in ("Answers.antt", "Invariants.antt", "Proof.antt")


def code_of(path, text):
    if path.endswith(".antt"):
        return re.sub(r"--.*", "", text)
    return re.sub(r"//.*", "", text)


def turned(name):
    parts = name.split("-")
    if name[0].isupper():
        return "".join(p[0].upper() + p[1:] for p in parts)
    return "_".join(parts)


def main():
    paths = sorted(p for p in glob.glob("crates/*/*/**/*", recursive=True) if p.endswith((".antt", ".rt")) and "/out/" not in p)
    texts = {p: open(p).read() for p in paths}
    kept = {}           # what a file imports from elsewhere
    made = collections.defaultdict(set)     # names of goals, by file
    own = set()         # what this repository defines
    local = collections.defaultdict(set)    # what an answer file defines for itself
    for path, text in texts.items():
        kept[path] = set()
        for m in USED.finditer(text):
            parts = m.group(1).strip().split(".")
            crate = parts[1] if parts[0] == "Rattle" and len(parts) > 1 else parts[0]
            if not os.path.isdir("crates/" + crate):
                for t in TOKEN.findall(m.group(0)):
                    kept[path].add(t)
        code = code_of(path, text)
        for m in re.finditer(r"\b(?:goal|given)\.(\S+)", code):
            made[path].add(m.group(1).rstrip(")"))
        if path.endswith(".antt"):
            for m in DEFINED.finditer(code):
                t = m.group(1)
                if "-" not in t or t in made[path] or t in kept[path]:
                    continue
                (local[path] if is_answer(path) else own).add(t)
            for m in re.finditer(r" as ([A-Z][A-Za-z0-9_']*(?:-[A-Za-z0-9_']+)+)", code):
                own.add(m.group(1))
    changed = collections.Counter()
    # names that would fall together with another of the same crate
    there = collections.defaultdict(set)
    for path, text in texts.items():
        there[path.split("/")[1]] |= set(NAME.findall(code_of(path, text)))
    for crate, names in sorted(there.items()):
        by = collections.defaultdict(set)
        for t in own:
            if t in names:
                by[turned(t)].add(t)
        for new, olds in sorted(by.items()):
            if new in names or len(olds) > 1:
                print("falls together: %s: %s with %s" % (crate, ", ".join(sorted(olds)), new))
    for path, text in texts.items():
        answers = is_answer(path)

        def put(m):
            t = m.group(0)
            before = text[max(0, m.start() - 2):m.start()]
            line = text[text.rfind("\n", 0, m.start()) + 1:m.start()]
            bound = path.endswith(".antt") and not answers and not before.endswith(".") and "--" not in line
            if t in kept[path] or t in made[path] or not (t in own or t in local[path] or bound):
                return t
            if answers and re.fullmatch(r"[clw]\.", before) and (m.start() < 3 or not re.match(r"[A-Za-z0-9_'.\-]", text[m.start() - 3])):
                return t
            changed[t] += 1
            return turned(t)

        new = TOKEN.sub(put, text)
        if path.endswith(".rt"):
            new = re.sub(r"«([A-Za-z][A-Za-z0-9_']*)»", lambda m: m.group(0) if m.group(1) in WORDS else m.group(1), new)
        if new != text:
            open(path, "w").write(new)
    print("%d names, %d places" % (len(changed), sum(changed.values())))


main()
