#!/usr/bin/env python3
"""Brings the definitions and lemmas of this repository to the spelling of the kit's library: words in snake case.

usage: python3 tools/respell_names.py [--list]     at the top of the repository, once, right after the kit's port.py

A name is respelled if an .antt file of specs/ or proofs/ declares it: a definition, a lemma, a member of a record or a case of
data. Types, facts and modules keep their capitals, names of Rust and names of goals keep their spelling, and so do operators.
A dash stays where the name without it would fall together with another. Rust's own names have neither capitals nor dashes where
these have them, so .rt files and must-fail edits can be gone through word by word, as the proofs can. On the pages of docs/ and in
README.md only names with capitals are turned: a dash stands in plain words too. At the end `rt fmt` lays out each crate.
"""
import os
import re
import subprocess
import sys

WORD = re.compile(r"[^\s(){}\[\].,;|`\"/:]+")
NAME = r"[^\s(){}\[\].,;|]+"
HEAD = re.compile(r"(?:abbrev |unfoldable )?(?:pub )?(?:(?:record|data) )?(" + NAME + r")((?: .*)? :(?: |$).*)")
MEMBER = re.compile(r"\s+(?:abbrev )?(?:pub )?(" + NAME + r") :(?: |$)")
CASE = re.compile(r"\s+\| (" + NAME + r") :")
# Two names that would fall together with others: lemmas that keep their dash.
KEPT = {"in-turn", "bit-or", "bit-and", "over-past", "not-below"}
# A fact that is spelled as a type.
FACTS = {"Some-of": "SomeOf"}


def files(root, endings):
    for folder, dirs, names in os.walk(root):
        dirs[:] = sorted(d for d in dirs if d not in ("out", ".git"))
        for n in sorted(names):
            if n.endswith(endings):
                yield os.path.join(folder, n)


def text(path):
    with open(path, encoding="utf-8") as f:
        return f.read()


def declared():
    """The names that specs/ and proofs/ declare, less the answers to goals."""
    found = {}
    for p in files("crates", ".antt"):
        for line in text(p).splitlines():
            if line.startswith(("use ", "--", "infix", "mod ", "pub mod ")):
                continue
            m = HEAD.match(line)
            if m and not re.search(r": (?:goal|need|given)\.", line):
                found.setdefault(m.group(1), p)
                continue
            m = MEMBER.match(line) or CASE.match(line)
            if m:
                found.setdefault(m.group(1), p)
    return found


def snake(name):
    s = re.sub(r"(?<=[a-z])(?=[A-Z0-9])|(?<=[A-Z0-9])(?=[A-Z][a-z])", "_", name)
    return s.replace("-", "_").lower()


def table():
    names = declared()
    to, fell = {}, []
    for n in names:
        if re.fullmatch(r"[a-z0-9_']+|[A-Z][A-Za-z0-9']*", n) or not re.fullmatch(r"[A-Za-z][A-Za-z0-9_'-]*", n):
            continue
        if re.match(r"(invariant|decreases|returns|loop)-", n):
            continue
        if n in KEPT:
            continue
        new = FACTS.get(n) or snake(n)
        if new in names or new in to.values():
            fell.append((n, new))
        to[n] = new
    return to, fell


def turn(path, to):
    t = text(path)
    new = WORD.sub(lambda m: to.get(m.group(0), m.group(0)), t)
    if new != t:
        with open(path, "w", encoding="utf-8") as f:
            f.write(new)


def main():
    to, fell = table()
    if "--list" in sys.argv:
        for n, new in sorted(to.items()):
            print(n, new)
        for n, new in fell:
            print("falls together:", n, new)
        return
    for p in files("crates", (".antt", ".rt", ".edit")):
        turn(p, to)
    # port.py turned some of the names already: on pages a name with capitals is turned if its spelling is declared.
    declared_now = set(declared())
    for p in [*files("docs", ".md"), "README.md"]:
        with_capitals = {w for w in WORD.findall(text(p)) if re.fullmatch(r"[a-z]+[A-Z0-9]\w*", w)}
        turn(p, {w: snake(w) for w in with_capitals if snake(w) in declared_now})
    for c in sorted(os.listdir("crates")):
        subprocess.run(["rt", "fmt"], cwd=os.path.join("crates", c), stdout=subprocess.DEVNULL, check=False)


main()
