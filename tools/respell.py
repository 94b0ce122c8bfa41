#!/usr/bin/env python3
"""Respells this repository's own definitions and lemmas, once, after the kit's port.py: words in snake case, facts in camel case.

usage: python3 tools/respell.py [--dry]     at the top of the repository

A name of our own is one that a file of specs/ or proofs/ declares with a dash in it and that is no goal of a function's
proof (those names are made from the code, and keep their dashes). `mw-from` becomes `mw_from`, `Held-exactly` becomes
`HeldExactly`. Names that are made from the code stand behind a dot there (`c.if-x-b`), and those stay.
"""
import re
import sys
from pathlib import Path

DECLARES = re.compile(r"^\s*(?P<words>(?:(?:abbrev|unfoldable|data|record|ruleset|pub)\s+)*)(?P<name>[^\W\d][^\s(){}:,;.]*)\s*(?P<then>:|[({=]|where)")
LOCAL = re.compile(r"\blet ([a-z][\w']*(?:-[\w']+)+) [:=]")
PROOF = ("Answers.antt", "Invariants.antt", "Proof.antt")
# names of lambdas and premises, which no line declares
BOUND = {"late-one", "rights-now", "claims-now"}
# what may stand in a name
LETTER = r"[^\s(){}\[\]«»,;:|.∀λ]"
# names whose plain respelling would fall together with another, and two that the library spells so too
OTHERWISE = {"Credit-law": "CreditLawOf", "cond-true": "cond-true", "cond-false": "cond-false"}
# behind a dot a name that begins so is made from the code
MADE = re.compile(r"(if|loop|in|then|else|index|match|returns)-")


def respelled(name):
    if name in OTHERWISE:
        return OTHERWISE[name]
    parts = name.split("-")
    if name[0].isupper():
        return "".join(p[0].upper() + p[1:] for p in parts)
    return "_".join(parts)


def is_proof(path):
    return path.name in PROOF and "proofs" in path.parts


def declaring(line):
    m = DECLARES.match(line)
    if m and (m["then"] == ":" or re.search("data|record|ruleset", m["words"])):
        return m


def declared(path):
    """The names with a dash that a file declares as its own."""
    goals = is_proof(path)
    for line in path.read_text().splitlines():
        m = declaring(line)
        if m and "-" in m["name"] and not (goals and "pub" in m["words"]):
            yield m["name"]
        yield from LOCAL.findall(line)


def files():
    for top in ("specs", "proofs", "src"):
        for path in sorted(Path("crates").glob(f"*/{top}/**/*")):
            if path.suffix in (".antt", ".rt") and path.is_file():
                yield path


def goals_of(path):
    for line in path.read_text().splitlines():
        m = declaring(line)
        if m and "pub" in m["words"]:
            yield m["name"]


def main():
    every = list(files())
    made = {n for p in every if is_proof(p) for n in goals_of(p)}
    own = {n for p in every if p.suffix == ".antt" for n in declared(p)} - made | BOUND
    if "--dry" in sys.argv:
        print("\n".join(f"{n} {respelled(n)}" for n in sorted(own)))
        return
    word = re.compile(rf"(?<!{LETTER}){LETTER}*-{LETTER}*(?!{LETTER})")
    for path in every:
        old = path.read_text()

        def one(m):
            behind_a_dot = m.start() > 0 and old[m.start() - 1] == "."
            return m[0] if m[0] not in own or behind_a_dot and MADE.match(m[0]) else respelled(m[0])

        new = word.sub(one, old)
        if new != old:
            path.write_text(new)


if __name__ == "__main__":
    main()
