#!/usr/bin/env python3
"""Spells the definitions and lemmas of this repository as the toolchain does: words in snake case. Run once at the top, right after port.py.

port.py turns the library's names and those of ours that are spelled like one of them; this turns the others, in specs/, proofs/, the clauses and comments of
src/, the wrong programs and the pages. Types, modules and constructors with a capital keep it, and so does everything that code names. A name that would meet
another is listed, and nothing is written then."""

import collections
import pathlib
import re
import sys

TOKEN = re.compile(r"[^\s(){};,.@\"«»\[\]λ∷⧺`“”:|]+")
CAMEL = re.compile(r"(^|[-_])[a-z][a-z0-9_']*[A-Z]")
UNREAD = re.compile(r'--[^\n]*|"[^"\n]*"')
# Type parameters that stand beside a lower case letter, and words of others.
KEPT = {"yLong"}


def snake(name):
    parts = []
    for part in name.split("-"):
        if re.match(r"[a-z]", part):
            part = re.sub(r"(?<=[a-z0-9])([A-Z])", lambda m: "_" + m.group(1).lower(), part)
        parts.append(part)
    return "-".join(parts)


# Constructors, a field and definitions: these are words, and a dash joins only the names in a lemma's.
DASHED = """a-container a-string function-head in-function in-object no-child object-head with-name rows-put named-from certified-query-parameters
certified-request-headers certified-response-headers default-certification no-certification no-request-certification request-certification
response-certification response-header-exclusions""".split()


def turned(word, known):
    """What port.py made of a word that a page or a wrong program names: it turns neither."""
    for new in (snake(word), snake(word).replace("-", "_")):
        if word not in known and new in known and (CAMEL.search(word) or "-" in word):
            return new
    return word


# Here the other name stands in paths alone.
ONLY_A_PATH = {pathlib.Path("crates/report/proofs/node/arrays_before/Proof.antt"), pathlib.Path("crates/unique/specs/Unique.antt")}
# What would fall together with a name that this makes: a lemma gets its dash back, a module of a function's proof another name.
BEFORE = {
    "crates/unique/specs/Unique.antt": [
        (r"\btree_over\b", "tree-over"),
        (r"proofs\.number_after$", "proofs.number_after as number_after_fn"),
        (r"\bnumber_after(?=\.(Kinds|Reads))", "number_after_fn"),
    ],
    "crates/lines/src/input.rt": [(r"Input·nothing", "no_line")],
}


def main():
    for path, turns in BEFORE.items():
        text = pathlib.Path(path).read_text()
        for old, new in turns:
            text = re.sub(old, new, text, flags=re.M)
        pathlib.Path(path).write_text(text)
    antt = sorted(pathlib.Path("crates").glob("*/specs/**/*.antt")) + sorted(pathlib.Path("crates").glob("*/proofs/**/*.antt"))
    words, where = collections.Counter(), collections.defaultdict(set)
    for path in antt:
        for word in TOKEN.findall(UNREAD.sub(" ", path.read_text())):
            words[word] += 1
            where[word].add(path)
    names = {word: snake(word) for word in words if CAMEL.search(word) and word not in KEPT}
    names = {old: new for old, new in names.items() if old != new} | {old: old.replace("-", "_") for old in DASHED}
    met = [(old, new) for old, new in names.items() if where[new] & where[old] - ONLY_A_PATH or list(names.values()).count(new) > 1]
    for old, new in met:
        print(f"{old}: {new} is there: {sorted(str(p) for p in where[new] & where[old])}", file=sys.stderr)
    if met:
        return 1
    known = {names.get(word, word) for word in words}
    others = [p for pattern in ("crates/*/src/**/*.rt", "crates/*/must-fail/*.edit", "tests/wrong/**/*.edit", "docs/*.md", "README.md", "CONTRIBUTING.md") for p in sorted(pathlib.Path(".").glob(pattern))]
    changed = 0
    for path in antt + others:
        text = path.read_text()
        new = TOKEN.sub(lambda m: names.get(m.group(0), m.group(0)), text)
        if path.suffix in (".md", ".edit"):
            new = TOKEN.sub(lambda m: turned(m.group(0), known), new)
        if new != text:
            path.write_text(new)
            changed += 1
    print(f"{len(names)} names, {changed} files")
    return 0


sys.exit(main())
