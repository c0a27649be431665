#!/usr/bin/env python3
"""Brings the names that this repository's antt files define to snake case, once, after the kit's port.py.

usage: tools/respell.py [--dry]        at the top of the repository

A name that a file of specs/ or proofs/ defines and that has a dash or a capital inside is respelled everywhere it is
meant: in those files, in the clauses of src/, in must-fail edits and in the pages. A name that a file imports from the
kit's library stays there, and so do the names that Rattle makes (goals and what they know). Names of Rust items, of
types, of modules and of files stay.
"""
import collections
import glob
import os
import re
import sys

DECLARED = re.compile(r"^\s*(?:(?:abbrev|unfoldable|pub|data|record|ruleset) )*([^\s(){}:;,.]+)(?: [({][^=]*| [^\s:=]+)? : ")
TOKEN = re.compile(r"[^\s(){}\[\].;,]+")
NOT_NAMES = {"let", "in", "where", "elim", "use", "module", "mod", "infixl", "infixr", "infix"}
# Words of English in comments and pages, which are also names.
ENGLISH = {"built-in", "hand-over", "at-most", "up-to"}
# Words of the library that some files import beside lemmas of ours.
OF_THE_LIBRARY = {"bit_and", "bit_or", "bit_xor"}
# Lemmas that port.py had turned already, whose names definitions have now.
LEMMAS_TURNED = {n: n + "_lem" for n in ("zero_row", "sum_over", "sum_below", "low_bit")}
OWN = {line.split(":")[0].split()[0] for line in open("crates.txt") if line.strip() and not line.startswith("#")}


def snake(name):
    name = name.replace("getD", "getOr").replace("-", "_")
    name = re.sub(r"(?<=[a-z])(?=[0-9]+$)(?<![_a-z]p)", "_", name) if re.search(r"To[0-9]+$", name) else name
    return re.sub(r"(?<=[a-z0-9])([A-Z])", lambda m: "_" + m.group(1), name).lower() if name[0].islower() else name


def lemma_files():
    for path in sorted(glob.glob("crates/*/specs/**/*.antt", recursive=True) + glob.glob("crates/*/proofs/**/*.antt", recursive=True)):
        if os.path.basename(path) not in ("Proof.antt", "Lib.antt"):
            yield path


def declared():
    found = collections.defaultdict(set)
    for path in lemma_files():
        for line in open(path, encoding="utf-8"):
            m = DECLARED.match(line)
            if m and m.group(1) not in NOT_NAMES and not line.lstrip().startswith("--"):
                found[m.group(1)].add(path)
    for path in sorted(glob.glob("crates/*/*/**/*.antt", recursive=True) + glob.glob("crates/*/src/**/*.rt", recursive=True)):
        for name in re.findall(r"\bas ([a-z]+[A-Z]\w*)(?=[,}\s;])", open(path, encoding="utf-8").read()):
            found[name].add(path)
    return found


def fields():
    """Names of parts of records and of `data`: they are cited after a dot."""
    found = set()
    for path in lemma_files():
        for line in open(path, encoding="utf-8"):
            m = DECLARED.match(line)
            if m and line.startswith("  ") and re.match(r"^\s+(pub )?[^\s(]+ : ", line):
                found.add(m.group(1))
    return found


def imported(text):
    """Names that a file takes from the kit's library."""
    names = set()
    for m in re.finditer(r"^(?:pub |ghost )?use ([^\s{;]+)\.\{([^}]*)\}", text, re.M):
        parts = m.group(1).split(".")
        if parts[0] == "Rattle" and parts[1] in OWN:
            continue
        for item in m.group(2).split(","):
            names |= set(item.split()[:1])
    return names


def turned(text, names, parts, keep, comment):
    """The text with each whole token respelled. Behind a dot only names of parts are; what follows a comment's mark keeps English words."""
    out = []
    for line in text.splitlines(keepends=True):
        head, mark, tail = line.partition(comment) if comment else (line, "", "")

        def one(m, english):
            t = m.group(0)
            if m.start() and m.string[m.start() - 1] == "." and t not in parts:
                return t
            if t in keep or (english and t in ENGLISH):
                return t
            bare = t.strip("`'\"!?")
            return t.replace(bare, names[bare]) if bare in names and bare not in keep and not (english and bare in ENGLISH) else t

        out.append(TOKEN.sub(lambda m: one(m, False), head) + mark + TOKEN.sub(lambda m: one(m, True), tail))
    return "".join(out)


def main():
    dry = "--dry" in sys.argv
    names = {n: snake(n) for n in declared()}
    for n, s in names.items():
        # A definition keeps the plain name, and a lemma that would have it too gets `_lem`.
        if "-" in n and (s in OF_THE_LIBRARY or any(m != n and "-" not in m and t == s for m, t in names.items())):
            names[n] = s + "_lem"
    names |= LEMMAS_TURNED
    names = {n: s for n, s in names.items() if n != s}
    parts = fields()
    taken = set(declared())
    clash = {n: s for n, s in names.items() if s in taken and s not in names}
    back = collections.defaultdict(list)
    for n, s in names.items():
        back[s].append(n)
    twice = {s: ns for s, ns in back.items() if len(ns) > 1}
    print(f"{len(names)} names; already there: {clash}; fall together: {twice}")
    paths = sorted(glob.glob("crates/*/specs/**/*.antt", recursive=True) + glob.glob("crates/*/proofs/**/*.antt", recursive=True))
    paths += sorted(glob.glob("crates/*/src/**/*.rt", recursive=True)) + sorted(glob.glob("crates/*/must-fail/*.edit"))
    paths += ["README.md"] + sorted(glob.glob("docs/*.md"))
    for path in paths:
        text = open(path, encoding="utf-8").read()
        keep = imported(text)
        here = set(TOKEN.findall(text))
        for n in sorted(here & set(names)):
            if n in keep:
                print(f"kept in {path}: {n}")
            elif names[n] in here:
                print(f"look: {path}: {n} becomes {names[n]}, which stands there already")
        comment = "--" if path.endswith(".antt") else "//" if path.endswith(".rt") else None
        if path.endswith(".md"):
            new = re.sub(r"`[^`\n]+`", lambda m: turned(m.group(0), names, parts, keep, None), text)
        else:
            new = turned(text, names, parts, keep, comment)
        if new != text and not dry:
            open(path, "w", encoding="utf-8").write(new)


main()
