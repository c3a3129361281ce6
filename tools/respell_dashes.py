#!/usr/bin/env python3
"""Second pass of the respelling: a dash stands in a name of the repository's own only behind the outer call of a lemma's left side, as in `length-filled`; elsewhere words are joined by _.

usage: python3 tools/respell_dashes.py            at the top of the repository, once

It renames in crates/*/{specs,proofs,src,must-fail} and in the pages' backticks. Names that Rattle makes (goals, places, steps) stay.
A lemma that would have a definition's name gets _lem. Where names would fall together otherwise it prints them and writes nothing.
"""
import glob
import re
import sys

sys.dont_write_bytecode = True
from respell import TOKEN, text

DECLARED = re.compile(r"^(\s*)(?:(?:pub|abbrev|unfoldable|data|record|open) )*([^\s:(){}]+) :(?: (.*)|)$")
# two lemmas whose names differed by a dash alone, and fields that have a definition's suffix
BY_HAND = {"in-frames": "in_frames_joined"}
STD = {"length", "get_or", "take", "drop", "set", "map", "replicate", "paste", "cond", "not", "reverse"}
FIELDS = {
    "global_id_of": ("global_id", ("crates/matching_step/", "crates/ledger/", "crates/tracker/")),
    "has_scores_at": ("has_scores", ("crates/tracked_object/", "crates/passes/", "crates/matching_step/", "crates/ledger/", "crates/tracker/")),
}


def head(signature):
    """The first word of what a signature concludes."""
    last = re.split(r"→", signature)[-1].strip().lstrip("(")
    m = re.match(r"[\w'-]+", last)
    return m.group(0) if m else ""


def main():
    specs = sorted(glob.glob("crates/*/specs/*.antt"))
    lemmas = sorted(glob.glob("crates/*/proofs/*.antt"))
    walked = sorted(set(glob.glob("crates/*/proofs/**/*.antt", recursive=True)) - set(lemmas))
    others = sorted(glob.glob("crates/*/src/**/*.rt", recursive=True)) + sorted(glob.glob("crates/*/must-fail/*.edit"))
    pages = ["README.md"] + sorted(glob.glob("docs/*.md"))
    declared, all_names = {}, set()
    for p in specs + lemmas + walked:
        lines = text(p).splitlines()
        for i, line in enumerate(lines):
            m = DECLARED.match(line)
            if not m:
                continue
            n, sig = m.group(2), m.group(3) or ""
            all_names.add(n)
            if re.match(r"(tie|goal)\.", sig.strip()) and "→" not in sig:
                continue
            if p in walked and re.search(r"^\s*(tie|goal)\.(Need|invariant|decreases)", "\n".join(lines[i + 1 : i + 2])):
                continue
            j = i + 1
            while j < len(lines) and re.match(r"\s+→|\s{4,}", lines[j]) and not re.match(r"\s*\S+ .*=", lines[j].split("→")[0] if "→" in lines[j] else "x="):
                sig += " " + lines[j].strip()
                j += 1
            declared.setdefault(n, []).append((p, sig))
    definitions = {n for n in declared if any("/specs/" in p for p, _ in declared[n])}
    new = {}
    for n, where in declared.items():
        if "-" not in n or not re.fullmatch(r"[a-z0-9][A-Za-z0-9_'-]*", n):
            continue
        if n in BY_HAND:
            new[n] = BY_HAND[n]
            continue
        parts = n.split("-")
        t = "_".join(parts)
        for k in range(1, len(parts)):
            first = "_".join(parts[:k])
            if (first in definitions or first in STD) and all(head(sig) == first for _, sig in where):
                t = first + "-" + "_".join(parts[k:])
        if t != n:
            new[n] = t
    for n, t in list(new.items()):
        if t in definitions:
            new[n] = t + "_lem"
    made, bad = {}, 0
    for n, t in sorted(new.items()):
        if t in made:
            print(f"together: {n} and {made[t]} would both be {t}")
            bad += 1
        made[t] = n
        if t in all_names:
            print(f"taken: {n} would be {t}, in {declared.get(t, [('?', '')])[0][0]}; itself in {declared[n][0][0]}")
            bad += 1
    if bad:
        print(f"{bad} names fall together: nothing is written")
        return 1
    for p in specs + lemmas + walked + others + pages:
        here = new | {n: t for n, (t, where) in FIELDS.items() if p.startswith(where)}
        turned = lambda part: TOKEN.sub(lambda m: here.get(m.group(0), m.group(0)), part)
        page = p.endswith(".md")
        if page and p.endswith("PORT.md"):
            continue
        now = re.sub(r"`[^`\n]+`", lambda m: turned(m.group(0)), text(p)) if page else turned(text(p))
        open(p, "w", encoding="utf-8").write(now)
    print(len(new), "names")


sys.exit(main())
