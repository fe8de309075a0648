#!/usr/bin/env python3
"""Spells this repository's own names as the kit does: a definition, a lemma, a field or a case in snake case, a fact or a type in camel case.

usage: python3 tools/spell_names.py        at the top of the repository, once, after port.py of the kit

A name is one of the repository's own where a file of specs/ or proofs/ declares it. The names that Rattle makes for a proof (goals, steps, loops) are
joined by dashes and stay. Names of src/ have no dash, and stay too. It stops, and changes nothing, where two names that it turns would fall together,
and tells of each that now is spelled as a word that was there.
"""

import collections
import os
import re
import sys

WORD = re.compile(r"[\w'′]+(?:-[\w'′*+]+)*")
HEAD = re.compile(r"^(\s*)((?:abbrev |unfoldable |pub |data |record |ruleset |let |and )*)([^\s:(){}«»,;=]+)(?=[\s:({=])(.*)$")
# names that the left side of an equation binds
BOUND = {"no-kinds", "no-operations"}
MADE = re.compile(
    r"^(returns|loop|overflow|bounds|offset|slice|invariant|decreases|nonzero|ghost|ghosts|prove)(-|_|$)|-requires(-|$)|-body$|^in-|^in_|^if-|^then-|^else-|^index-|^match-"
)


def files(ending):
    for folder, dirs, names in os.walk("crates"):
        dirs[:] = sorted(d for d in dirs if d != "out")
        for name in sorted(names):
            if name.endswith(ending):
                yield os.path.join(folder, name)


def is_goal_file(path):
    return re.search(r"/proofs/.+/(Answers|Invariants|Proof)\.antt$", path) is not None


def bare(line):
    return re.sub(r"(^|\s)--(\s.*)?$", "", line.rstrip("\n"))


def declared(path, text):
    """The names that a file declares: of a file of goals only what is private to it."""
    found = set()
    for line in text.splitlines():
        line = bare(line)
        m = HEAD.match(line)
        if not m or not re.search(r"(^|[\s)}]):(\s|$)", m.group(4)) and "where" not in m.group(4):
            continue
        words, name = m.group(2), m.group(3)
        if is_goal_file(path) and ("pub " in words or MADE.search(name)):
            continue
        if "-" in name and WORD.fullmatch(name):
            found.add(name)
    # what a name of its own binds: arguments, cases of `elim`, `let`
    for name in re.findall(r"[({]([^(){}:]*?) : ", text):
        found.update(n for n in name.split() if "-" in n and WORD.fullmatch(n))
    for name in re.findall(r"λ ([^.()]*?)\. ", text):
        found.update(n for n in name.split() if "-" in n and WORD.fullmatch(n))
    for name in re.findall(r"\blet ([^\s:=]+)", text):
        if "-" in name and WORD.fullmatch(name):
            found.add(name)
    return found


def spelled(name):
    if name[0].isupper():
        return "".join(part[0].upper() + part[1:] for part in name.split("-"))
    return name.replace("-", "_")


def main():
    texts = {}
    for path in list(files(".antt")) + list(files(".rt")):
        with open(path, encoding="utf-8") as f:
            texts[path] = f.read()
    own, theirs = set(BOUND), set()
    for path, text in texts.items():
        if path.endswith(".antt"):
            own |= declared(path, text)
        for names in re.findall(r"use (?:Rattle\.std|mathlib|Prim|borrow)\.[\w.]+\.\{([^}]*)\}", text):
            theirs.update(n.strip() for n in names.split(","))
    own -= theirs
    new = {n: spelled(n) for n in own}
    taken = collections.defaultdict(set)
    for path, text in texts.items():
        if path.endswith(".antt"):
            for line in text.splitlines():
                for w in WORD.findall(bare(line)):
                    taken[w].add(path)
    clash = [(n, m) for n, m in sorted(new.items()) if m in taken]
    twice = [m for m, k in collections.Counter(new.values()).items() if k > 1]
    if twice:
        sys.exit("two names fall together: " + ", ".join(twice))
    for n, m in clash:
        print("look:", n, "is", m, "now, a word that stands in", sorted(taken[m])[:3])
    for path, text in texts.items():
        turned = WORD.sub(lambda w: new.get(w.group(0), w.group(0)), text)
        if turned != text:
            with open(path, "w", encoding="utf-8") as f:
                f.write(turned)


if __name__ == "__main__":
    main()
