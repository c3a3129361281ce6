#!/usr/bin/env python3
"""Brings the repository's own definitions and lemmas to today's spelling, after port.py: words in snake case, a dash only beside a name of its own.

usage: python3 tools/respell.py            at the top of the repository, once

It renames what specs/ and proofs/*.antt declare, everywhere in crates/*/{src,specs,proofs}; the edits of must-fail/ are turned alike.
Functions of src/, exported names, strings, inputs and outputs keep their names. It prints each name that would fall together with another, and then writes nothing.
"""
import glob
import re
import sys

TOKEN = re.compile(r"[^\s(){}\[\],;.«»\"`]+")
DECLARED = re.compile(r"^\s*(?:(?:pub|abbrev|unfoldable|data|record) )*([^\s:(){}]+) :(?: |$)")
# names that say another's old spelling
BY_HAND = {
    "get_d_any": "get_or-any",
    "getD-behind": "get_or-behind",
    "front-getD-behind": "front-get_or-behind",
    # a field, a parameter or a local has the plain name
    "hasScores": "has_scores_at",
    "lastAt": "last_place",
    "pastAt": "past_place",
    "pickedRows": "rows_picked",
    "pickedCols": "cols_picked",
    "globalId": "global_id_of",
    # a lemma that says something of a definition of that name
    "numbers_of": "numbers-numbers_of",
    "after_first": "stands_after_first",
    "after-second": "stands_after_second",
    "counts_whole": "counts_whole_lem",
    "too_many": "too_many_lem",
}
# variables, and one that has a definition's old name
VARIABLES = {"reidMax": "reid_max", "initializingId": "initializing_id", "initialPeriod": "initial_period"}
GLOBAL_ID = {"globalId": "global_id"}
# beside these a dash stays: they are words of std
STD = {"append", "length", "map", "take", "drop", "set", "get_or", "replicate", "cond", "not", "reverse", "lt", "paste", "iter"}
# what Rattle makes begins so
MADE = re.compile(r"(loop|if|in|then|else|returns|invariant|decreases|overflow|bounds|offset|index|match)[-_]")


def text(path):
    with open(path, encoding="utf-8") as f:
        return f.read()


def snake(word):
    return re.sub(r"([a-z0-9])([A-Z])", lambda m: m.group(1) + "_" + m.group(2).lower(), word)


def lower(word):
    return word[:1].islower()


def main():
    specs = sorted(glob.glob("crates/*/specs/*.antt"))
    lemmas = sorted(glob.glob("crates/*/proofs/*.antt"))
    walked = sorted(set(glob.glob("crates/*/proofs/**/*.antt", recursive=True)) - set(lemmas))
    source = sorted(glob.glob("crates/*/src/**/*.rt", recursive=True))
    edits = sorted(glob.glob("crates/*/must-fail/*.edit"))
    declared = {}
    for p in specs + lemmas + walked:
        for line in text(p).splitlines():
            m = DECLARED.match(line)
            if m:
                declared.setdefault(m.group(1), set()).add(p)
    defined = {n for n in declared if any("/specs/" in p for p in declared[n])}
    words = {snake(n) for n in defined if "-" not in n} | STD
    new = {}
    for n in declared:
        if n in BY_HAND:
            new[n] = BY_HAND[n]
            continue
        if not lower(n) or not re.fullmatch(r"[A-Za-z0-9_'-]+", n):
            continue
        t = snake(n)
        if "-" in t and not all("/proofs/" in p and p.count("/") > 3 for p in declared[n]) and not MADE.match(t):
            parts = t.split("-")
            t = parts[0]
            for a, b in zip(parts, parts[1:]):
                t += ("-" if a in words and b in words else "_") + b
        if t != n:
            new[n] = t
    # a lemma that would have its definition's name
    for n, t in list(new.items()):
        if "-" in n and any(m != n and u == t and m in defined for m, u in new.items()):
            new[n] = t + "_lem"
    # names that fall together: the new spelling stands already, or two get one
    seen = {}
    for p in specs + lemmas + walked:
        for t in TOKEN.findall(re.sub(r"--.*", "", text(p))):
            seen.setdefault(t, set()).add(p)
    for p in source:
        for line in re.findall(r"(?:ghost use|requires|ensures|let )[^\n]*", text(p)):
            for t in TOKEN.findall(line):
                seen.setdefault(t, set()).add(p)
    functions = {f for p in source for f in re.findall(r"fn (\w+)", text(p))}
    made = {}
    bad = 0
    for n, t in sorted(new.items()):
        if t in made and made[t] != n:
            print(f"together: {n} and {made[t]} would both be {t}")
            bad += 1
        made[t] = n
        # a function of src/ may have the name of the definition that its contract cites
        if t in seen and t not in functions and t not in new:
            print(f"taken: {n} would be {t}, which stands in {sorted(seen[t])[:4]}")
            bad += 1
    if bad:
        print(f"{bad} names fall together: nothing is written")
        return 1

    new |= VARIABLES

    for p in specs + lemmas + walked + source + edits:
        old = text(p)
        here = new | GLOBAL_ID if p.startswith(("crates/tracked_object/specs/", "crates/ledger/proofs/SoundChanges")) else new
        out = []
        for line in old.splitlines(keepends=True):
            out.append(TOKEN.sub(lambda m: here.get(m.group(0), m.group(0)), line))
        now = "".join(out)
        if now != old:
            with open(p, "w", encoding="utf-8") as f:
                f.write(now)
    print(f"{len(new)} names respelt")
    return 0


if __name__ == "__main__":
    sys.exit(main())
