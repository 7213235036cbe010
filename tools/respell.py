#!/usr/bin/env python3
"""Brings the names of this repository's own definitions and lemmas to today's spelling: snake case in place of taskAt and and-both.

usage: tools/respell.py [--check]     at the top of the repository; --check only prints the table of names

A definition or lemma is what stands at the head of a line of crates/*/specs/**/*.antt and crates/*/proofs/*.antt, and the
helpers of proofs/F/ that state no goal. Types and modules keep their capital. A lemma that would then be called as a
definition is gets _lem behind it. The module Contracts of rules is called Promises: today's Rattle makes a module contracts of
its own. A second run writes nothing more.
"""
import collections
import glob
import os
import re
import sys

WORD = re.compile(r"[^\s(){}.;,@\"«»:\\[\]`|]+")
HEAD = re.compile(r"^(\s*)((?:(?:pub|abbrev|unfoldable|ruleset|record|data) )*)([^\s(){}.;,@\"«»:]+(?: [^\s(){}.;,@\"«»:]+)*)\s+:(?:\s|$)")

def snake(name):
    if not re.search(r"[a-z]", name) or name[0].isupper():
        return name
    return camel(name).replace("-", "_")


def camel(name):
    return re.sub(r"(?<=[a-z0-9])([A-Z])(?=[a-z])", lambda m: "_" + m[1].lower(), name)


def names():
    found = collections.defaultdict(list)
    for path in sorted(glob.glob("crates/*/specs/**/*.antt", recursive=True) + glob.glob("crates/*/proofs/**/*.antt", recursive=True)):
        inside = path.count("/") > 3 and "/proofs/" in path
        for line in open(path, encoding="utf-8"):
            m = HEAD.match(line.rstrip("\n"))
            if not m or line.lstrip().startswith("--"):
                continue
            if inside and re.search(r":\s*(?:tie|goal)\.", line):
                continue
            for name in m[3].split():
                if not (inside and "-" in name):
                    found[name].append(path)
    return found


def table():
    found = names()
    news = collections.defaultdict(set)
    for name in found:
        news[snake(name)].add(name)
    rows = {}
    for name in found:
        new = snake(name)
        defined = {n for n in news[new] if any("/specs/" in path for path in found[n])}
        if defined and defined != {name} and name not in defined:
            new += "_lem"
        if new != name:
            rows[name] = new
    return rows, found


def goals(path):
    """The goals that a function's proof answers: their names are Rattle's."""
    kept = set()
    for line in open(path, encoding="utf-8"):
        m = re.match(r"^(?:abbrev )?(?:pub )?(\S+)\s*:\s*(?:tie|goal)\.", line)
        if m:
            kept.add(m[1])
    return kept


def turned(text, rows, kept, dashes):
    def one(m):
        word = m[0]
        after_dot = text[m.start() - 1 : m.start()] == "."
        if word in kept and not after_dot:
            return word
        new = rows.get(word)
        if new is None:
            return word
        if "-" in word and (after_dot or not dashes):
            return word
        return new

    return WORD.sub(one, text)


def main():
    rows, found = table()
    if "--check" in sys.argv:
        for old, new in sorted(rows.items()):
            print(f"{old}\t{new}\t{len(found[old])}")
        both = collections.defaultdict(set)
        for name in found:
            both[rows.get(name, name)].add(name)
        for new, olds in both.items():
            if len(olds) > 1:
                print("TOGETHER", new, sorted(olds), sorted({p for o in olds for p in found[o]}))
        return
    if os.path.exists("crates/rules/specs/Contracts.antt"):
        os.rename("crates/rules/specs/Contracts.antt", "crates/rules/specs/Promises.antt")
    for path in sorted(
        glob.glob("crates/*/specs/**/*.antt", recursive=True)
        + glob.glob("crates/*/proofs/**/*.antt", recursive=True)
        + glob.glob("crates/*/src/**/*.rt", recursive=True)
        + glob.glob("crates/*/must-fail/*.edit")
        + glob.glob("docs/**/*.md", recursive=True)
        + ["README.md", "tests/rows"]
    ):
        text = open(path, encoding="utf-8").read()
        kept = goals(path) if path.endswith(".antt") else set()
        new = turned(text, rows, kept, path.endswith(".antt") or path.endswith(".edit"))
        new = re.sub(r"\bspecs([./])Contracts\b", r"specs\1Promises", new)
        if path == "crates/rules/specs/Lib.antt":
            new = new.replace("pub mod Contracts", "pub mod Promises")
        if new != text:
            open(path, "w", encoding="utf-8").write(new)


main()
