#!/usr/bin/env python3
"""Lists the places that a design pass looks at, by point, and counts them.

    python3 tools/count_places.py [FOLDER]        the places of each point, then the counts
    python3 tools/count_places.py --counts [FOLDER]

FOLDER is a checkout (this one if left out). The tests and the benchmark count apart. A place that is listed is one to
look at, and no verdict: what a place is and what became of it stands in docs/DESIGN-PASS.md.
"""
import collections
import glob
import itertools
import os
import re
import sys

TESTS = ("journal_tests", "keeper_tests", "script_tests", "find_bench")


def sources(root):
    for path in sorted(glob.glob(f"{root}/crates/*/src/**/*.rt", recursive=True)):
        name = os.path.relpath(path, f"{root}/crates").replace("/src/", "/")
        text = open(path, encoding="utf-8").read()
        yield name, re.sub(r"//[^\n]*", "", text)


def lines_with(files, pattern):
    for name, text in files:
        for number, line in enumerate(text.split("\n"), 1):
            if re.search(pattern, line) and not re.match(r"\s*(ghost|requires|ensures)", line):
                yield f"{name}:{number}", line.strip()


def behind_closing(text, start, opening, closing):
    """Behind the bracket that closes the one before `start`."""
    depth = 1
    while depth:
        depth += {opening: 1, closing: -1}.get(text[start], 0)
        start += 1
    return start


def functions(files):
    """Name, parameters, clauses and body of each function."""
    for name, text in files:
        for m in re.finditer(r"\bfn (\w+)(<[^(]*>)?\(", text):
            i = behind_closing(text, m.end(), "(", ")")
            params, start = text[m.end():i - 1], i
            # The body is the first block that begins a line of its own, or ends the line of the signature.
            b = re.compile(r"^[ ]*\{|\{$|^[ ]*\{\}|;$", re.M).search(text, start)
            if not b or text[b.end() - 1] == ";" and "{" not in b.group():
                continue
            j = text.index("{", b.start())
            end = behind_closing(text, j + 1, "{", "}")
            clauses = text[start:j]
            yield f"{name}:{text.count(chr(10), 0, m.start()) + 1} {m.group(1)}", params, clauses, text[j:end]


def shape(text):
    """The text with every name, number and string replaced by the order in which it first comes."""
    seen = {}
    keep = {"let", "mut", "if", "else", "match", "for", "in", "while", "return", "self", "Self", "Some", "None", "Ok", "Err", "as"}
    out = []
    for token in re.findall(r"b?\"[^\"]*\"|b?'[^']*'|[A-Za-z_]\w*|\d[\d_]*|\S", text):
        if token in keep or not re.match(r"[\w\"'b]", token):
            out.append(token)
        else:
            out.append(f"${seen.setdefault(token, len(seen))}")
    return " ".join(out), len(out)


def twins(files):
    groups = collections.defaultdict(list)
    for where, params, _, body in functions(files):
        form, size = shape(body)
        if size >= 9:
            groups[form].append(where)
    for group in groups.values():
        if len(group) > 1:
            yield " = ".join(group), ""


def enums(files):
    for name, text in files:
        for m in re.finditer(r"\benum (\w+)[^{]*\{", text):
            i = behind_closing(text, m.end(), "{", "}")
            body = re.sub(r"\{[^{}]*\}|\([^()]*\)", "()", text[m.end():i - 1])
            count = len([v for v in body.split(",") if v.strip()])
            if count <= 2:
                yield f"{name}:{text.count(chr(10), 0, m.start()) + 1}", f"enum {m.group(1)} ({count} variants)"


def facts(files):
    by_crate = collections.defaultdict(collections.Counter)
    for where, _, clauses, _ in functions(files):
        found = set()
        for m in re.finditer(r"requires\s+(?:\w+\s+)?\{(.*)\}\s*$|ensures\*?\s+(?:\w+\s+)?\{(.*)\}\s*$", clauses, re.M):
            found |= {part.strip(" ()") for part in re.split(r"\) × \(", m.group(1) or m.group(2))}
        for fact in found:
            by_crate[where.split("/")[0]][fact] += 1
    for crate, counter in sorted(by_crate.items()):
        for fact, count in counter.most_common():
            if count >= 3 and not re.search(r"\bresult\b", fact):
                yield crate, f"in {count} contracts: {fact}"


def companions(files):
    by_crate = collections.defaultdict(collections.Counter)
    for where, params, _, _ in functions(files):
        names = [re.sub(r"\s+", " ", p.strip()) for p in re.split(r",\s*(?![^<\[(]*[>\])])", params) if p.strip()]
        names = sorted(p for p in names if not re.search(r"\bself\b", p))
        for pair in itertools.combinations(names, 2):
            by_crate[where.split("/")[0]][pair] += 1
    for crate, counter in sorted(by_crate.items()):
        for pair, count in counter.most_common():
            if count >= 3:
                yield crate, f"in {count} signatures: {pair[0]}, {pair[1]}"


def constant_matches(files):
    """Functions that answer a constant for each variant."""
    for where, _, _, body in functions(files):
        arms = re.findall(r"=>\s*(.*?),?\s*$", body, re.M)
        if len(arms) > 1 and all(re.fullmatch(r"true|false|b?\"[^\"]*\"|\d+|Some\(\w+::\w+\)|None|\w+::\w+", a) for a in arms):
            yield where, ""


POINTS = [
    ("1", "enums of at most two variants", enums),
    ("1", "a flag with a value beside it", lambda f: lines_with(f, r"\(bool,|, bool\)")),
    ("1", "numbers for errors", lambda f: lines_with(f, r"Result<[^>]*, (u8|usize|u32|u64)>")),
    ("1", "numbers matched as kinds", lambda f: lines_with(f, r"^\s*\d+( \| \d+)* =>")),
    ("1", "arms for None", lambda f: lines_with(f, r"\bNone =>")),
    ("1", "arms for Err", lambda f: lines_with(f, r"\bErr\([^)]*\)* =>|Err\(\w+ \{.*=>")),
    ("1", "an index tested against a bound, with another value past it", lambda f: lines_with(f, r"if [a-z_]+ < .*(node_count|len\(\)|32)")),
    ("2", "functions of the same shape", twins),
    ("3", "while loops", lambda f: lines_with(f, r"\bwhile\b")),
    ("3", "for loops over numbers", lambda f: lines_with(f, r"\bfor .* in .*\.\.")),
    ("4", "functions that answer a constant for each case", constant_matches),
    ("4", "conversions by name", lambda f: lines_with(f, r"\bfn (of|from_\w+|read|to_\w+|into_\w+)\b")),
    ("4", "field by field in a test", lambda f: lines_with(f, r"assert.*(values\[|\.place, |\.number\(\)|\.values,|\.first,|\.last,|\.count ==)")),
    ("5", "facts in three contracts or more", facts),
    ("5", "parameters together in three signatures or more", companions),
    ("6", "arrays of a fixed length", lambda f: lines_with(f, r"^\s*(pub(\([a-z]+\))? )?(\w+: |type .*= |fn .*)&?\[[\w<>&]+; \w+\]|[(,] *\w+: &?\[[\w<>]+; \w+\]|-> \[[\w<>]+; \w+\]")),
    ("6", "a count beside them", lambda f: lines_with(f, r"^\s*pub(\([a-z]+\))? count: ")),
    ("7", "parameters that are flags", lambda f: lines_with(f, r"\b\w+: bool[,)]")),
    ("7", "a match on which step to run", lambda f: lines_with(f, r"match (verb|operator|mode|command)\b")),
]


def main():
    args = [a for a in sys.argv[1:] if a != "--counts"]
    root = args[0] if args else "."
    all_files = list(sources(root))
    product = [f for f in all_files if not f[0].startswith(TESTS)]
    tests = [f for f in all_files if f[0].startswith(TESTS)]
    for point, what, places in POINTS:
        found, beside = list(places(product)), list(places(tests))
        print(f"point {point}: {what}: {len(found)}, in tests {len(beside)}")
        if "--counts" not in sys.argv:
            for where, text in found + beside:
                print(f"    {where}  {text}".rstrip())
    total = collections.Counter()
    for path in glob.glob(f"{root}/crates/*/proofs/**/*.antt", recursive=True):
        crate = os.path.relpath(path, f"{root}/crates").split("/")[0]
        total[crate] += sum(1 for line in open(path, encoding="utf-8")
                            if line.strip() and not line.startswith(("use ", "--")))
    print("point 8: lines of proofs: " + ", ".join(f"{c} {n}" for c, n in sorted(total.items())) + f"; {sum(total.values())} in all")


main()
