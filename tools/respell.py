#!/usr/bin/env python3
"""Brings the repository's own definitions and lemmas to today's spelling: a definition or a lemma in snake case.

usage: python3 tools/respell.py [-n]    at the top of the repository; -n: only says what it would do

A name is one that specs/ or a lemma file of proofs/ declares, with a dash or a capital after a small letter in it. Types, facts that are
types, and what the library or Rattle itself names keep their spelling. Where a definition and a lemma would fall together, the lemma gets _lem.
"""
import collections
import os
import re
import sys

SEP = re.compile(r"([\s(){}\[\],;.«»\"`:?]+)")
DEF = re.compile(r"^(\s*)(?:abbrev |unfoldable )?(?:pub )?([a-z][^\s(){}\[\],;.]*)(?: [({].*)? :(?: |$)")
# Names that would be a name of the library.
OWN = {"setOut": "set_all_out"}
LIBRARY = re.compile(r"use (?:Rattle\.(?:std|core|io|libc)|Prim|mathlib|native|lib|mir|types|denote|borrow|walk|logic|sep|own)[\w.◌'-]*\.\{([^}]*)\}")


def files(top, ends):
    for d, dirs, fs in os.walk(top):
        dirs[:] = sorted(x for x in dirs if x != "out")
        for f in sorted(fs):
            if f.endswith(ends):
                yield os.path.join(d, f)


def snake(name):
    return re.sub(r"([a-z0-9])([A-Z])", lambda m: m.group(1) + "_" + m.group(2).lower(), name).replace("-", "_")


def is_own(path):
    """A file of definitions or lemmas, and not the answers or the walk of one function."""
    return "/specs/" in path or re.search(r"/proofs/[^/]*\.antt$", path)


def main():
    texts = {p: open(p, encoding="utf-8").read() for p in files("crates", (".antt",))}
    declared = set()
    for p, t in texts.items():
        for line in t.splitlines():
            m = DEF.match(line)
            if m and not line.lstrip().startswith("--") and is_own(p):
                declared.add(m.group(2))
    turned = {n: snake(n) for n in declared if snake(n) != n}
    by_new = collections.defaultdict(list)
    for old, new in sorted(turned.items()):
        by_new[new].append(old)
    # Where a definition and a lemma fall together the lemma gets _lem, also one that has its new name already.
    again = {}
    for new, olds in by_new.items():
        for old in olds:
            if "-" in old and (len(olds) > 1 or new in declared):
                turned[old] = new + "_lem"
                print("falls together:", old, "->", turned[old])
        if new in declared and not all("-" in old for old in olds):
            again[new] = new + "_lem"
            print("falls together:", new, "->", again[new])
    turned.update(OWN)
    if "-n" in sys.argv:
        return
    for p in [*files("crates", (".antt", ".rt", ".edit")), *files("trials", (".edit",))]:
        t = open(p, encoding="utf-8").read()
        kept = {n.strip().split(" as ")[0] for m in LIBRARY.finditer(t) for n in m.group(1).split(",")}
        out = []
        for line in t.split("\n"):
            words = SEP.split(line)
            for k, w in enumerate(words):
                if w in kept:
                    continue
                if w in turned:
                    words[k] = turned[w]
                elif w in again and p.endswith(".antt") and not (k and words[k - 1].endswith(".")) and not (k + 1 < len(words) and words[k + 1].startswith(".")):
                    words[k] = again[w]
            out.append("".join(words))
        new = "\n".join(out)
        if new != t:
            open(p, "w", encoding="utf-8").write(new)


main()
