#!/usr/bin/env python3
"""Gives this repository's definitions and lemmas one spelling: words in snake case.

usage: python3 tools/respell.py [--list]      at the top of a checkout

The names are those that specs/ and proofs/ of each crate declare: definitions, lemmas, constructors, fields, local parts. A name that
holds a dash, or a capital after a small letter, becomes snake case; types and modules keep their capitals. Names of src/, strings and
the names that the check makes (of goals, and of what an answer sees) stay. --list prints the pairs and the names that fall together, and writes nothing.
"""

import collections
import glob
import re
import sys

# Lemmas that would fall together with the definition that they speak of, or with another name.
BY_HAND = {
    "adder-leaf": "adder_leaf_lem",
    "comparator-leaf": "comparator_leaf_lem",
    "family-stands": "family_stands_lem",
    "is-family": "is_family_lem",
    "not-closed": "not_closed_lem",
}

EDGE = r"[\w'\u2032\u00b7\u207f-]"


def declared(text):
    text = re.sub(r"--.*", "", text)
    for m in re.finditer(r"^ *(?:pub |abbrev |unfoldable )*([^\s:(){};,=\u03bb]+) :", text, re.M):
        yield m[1]


def snake(name):
    if name in BY_HAND:
        return BY_HAND[name]
    if name[0].isupper():
        return name
    return re.sub(r"(?<=[a-z0-9])([A-Z])", lambda m: "_" + m[1].lower(), name).replace("-", "_")


def sources():
    return sorted(glob.glob("crates/*/specs/**/*.antt", recursive=True) + glob.glob("crates/*/proofs/*.antt"))


def pairs():
    names = collections.defaultdict(set)
    for f in sources():
        with open(f, encoding="utf-8") as it:
            for n in declared(it.read()):
                names[n].add(f)
    return names, {n: snake(n) for n in names if snake(n) != n}


def turn(text, renamed):
    words = "|".join(re.escape(n) for n in sorted(renamed, key=len, reverse=True))
    return re.sub(rf"(?<!{EDGE})(?<!goal\.)({words})(?!{EDGE})", lambda m: renamed[m[1]], text)


def clauses(text, renamed):
    """Of a source or an edit: everything but strings and comments, since names with a dash or an inner capital stand in clauses alone."""
    part = re.compile(r'"(?:[^"\\]|\\.)*"|//[^\n]*|[^"/]+|.', re.S)
    return "".join(p if p[0] == '"' or p.startswith("//") else turn(p, renamed) for p in part.findall(text))


def main():
    names, renamed = pairs()
    if "--list" in sys.argv[1:]:
        whole = collections.defaultdict(set)
        for n in names:
            whole[snake(n)].add(n)
        for n, to in sorted(renamed.items()):
            print(n, to)
        for to, froms in sorted(whole.items()):
            if len(froms) > 1:
                print("together:", to, sorted(froms))
        return 0
    changed = 0
    for f in sorted(glob.glob("crates/**/*", recursive=True)):
        if "/out/" in f or not f.endswith((".antt", ".rt", ".edit")):
            continue
        with open(f, encoding="utf-8", newline="") as it:
            old = it.read()
        new = turn(old, renamed) if f.endswith(".antt") else clauses(old, renamed)
        if new != old:
            with open(f, "w", encoding="utf-8", newline="") as it:
                it.write(new)
            changed += 1
    print(f"{len(renamed)} names, {changed} files")
    return 0


if __name__ == "__main__":
    raise SystemExit(main())
