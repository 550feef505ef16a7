#!/usr/bin/env python3
"""Brings the repository's own definitions, lemmas, fields and constructors of specs/ and proofs/ to one spelling.

usage: python3 tools/snake_names.py [--list]     at the top of the repository

A word is in snake case (in-range: in_range), a type, fact or module in camel case (Area-under: AreaUnder). Names that
Rattle makes (goals, steps of a function, parts of a loop) and names of the library keep their dashes, and so do functions
of src/, strings and comments of src/. It rewrites crates/*/specs, crates/*/proofs and the ghost parts of crates/*/src, and
stops where two names would fall together. --list prints what it would rename, and changes nothing.
"""

import os
import re
import sys

WORD = r"[^\W\d][\w'\u2032]*(?:-[\w'\u2032\u2080-\u2089\u2115\u2124]+)*"
NAME = re.compile(WORD)
DEFINED = re.compile(r"^\s*(?:(?:pub|abbrev|unfoldable|axiom|record|data)\s+)*(" + WORD + r")\s*(?:\{[^}]*\}\s*|\([^)]*\)\s*)*:\s+(\S*)")
TYPE = re.compile(r"^\s*(?:(?:pub|abbrev|unfoldable)\s+)*(?:record|data)\s+(" + WORD + ")")
RENAMED = re.compile(r"\bas (" + WORD + ")")
# a definition of specs/ may not have the name of a type or a field of src/
OTHERWISE = {
    "By-name": "RankedByName",
    "By-rule": "RankedByRule",
    "Exit-ranking": "RanksExits",
    "capacity-in": "capacity_inside",
    "is-maker": "is_a_maker",
}
# steps of a function that have the name of a definition: they keep their dashes behind the facts of a proof file
STEPS = {"new-unit", "begun-for", "gone-on", "years-line", "is-over", "award-line", "dearer-by", "capacity-in", "at-margin", "hex-digit", "exit-up-to"}
# new names that stand beside the old one as parts of a path only
PATHS = {"AreaUnder", "enrol_questions", "one_ranking"}
CHAIN = re.compile(r"\b[cwl](?:\." + WORD + ")+")


def files(root):
    for top in sorted(os.listdir(os.path.join(root, "crates"))):
        for part in ("specs", "proofs", "src"):
            for folder, dirs, names in os.walk(os.path.join(root, "crates", top, part)):
                dirs.sort()
                for n in sorted(names):
                    if n.endswith((".antt", ".rt")):
                        yield os.path.join(folder, n)


def respelled(name):
    if name in OTHERWISE:
        return OTHERWISE[name]
    if name[0].isupper():
        return "".join(p[0].upper() + p[1:] for p in name.split("-"))
    return name.replace("-", "_")


def defined(texts):
    """The own names with a dash, and where each is defined."""
    found = {}
    for path, text in texts.items():
        if not path.endswith(".antt"):
            continue
        for line in text.split("\n"):
            if line.lstrip().startswith("--"):
                continue
            m = TYPE.match(line) or DEFINED.match(line)
            if not m or "-" not in m.group(1):
                continue
            if m.lastindex == 2 and m.group(2).startswith(("goal.", "need.")):
                continue
            found.setdefault(m.group(1), []).append(path)
    for path, text in texts.items():
        for m in RENAMED.finditer(text):
            if "-" in m.group(1):
                found.setdefault(m.group(1), []).append(path)
    return found


def pieces(text, ghost):
    """(is_code, piece): of a source file, strings and comments are not code; of antt, comments are code too, for the names in them."""
    if not ghost:
        return [(True, text)]
    out, last = [], 0
    for m in re.finditer(r'//[^\n]*|b?"(?:\\.|[^"\\])*"|b?\'(?:\\.|[^\'\\])\'', text):
        out += [(True, text[last:m.start()]), (False, m.group())]
        last = m.end()
    return out + [(True, text[last:])]


def turn(path, text, names):
    def one(m):
        return names.get(m.group(), m.group())

    def antt(text):
        if not path.endswith(("/Answers.antt", "/Invariants.antt")):
            return NAME.sub(one, text)
        out, last = [], 0
        for m in CHAIN.finditer(text):
            head, *rest = m.group().split(".")
            out += [NAME.sub(one, text[last:m.start()]), ".".join([head] + [r if r in STEPS else names.get(r, r) for r in rest])]
            last = m.end()
        return "".join(out) + NAME.sub(one, text[last:])

    return "".join(antt(p) if code else p for code, p in pieces(text, path.endswith(".rt")))


def main(argv):
    root = "."
    texts = {p: open(p, encoding="utf-8").read() for p in files(root)}
    found = defined(texts)
    names = {n: respelled(n) for n in found}
    used = {}
    for path, text in texts.items():
        for m in NAME.finditer(text):
            used.setdefault(m.group(), set()).add(path)
    bad = 0
    target = {}
    for n, s in sorted(names.items()):
        if s in target:
            print(f"fall together: {n} and {target[s]} as {s}")
            bad += 1
        target[s] = n
        both = {p for p in used.get(s, set()) & used.get(n, set()) if p.endswith(".antt") and s not in PATHS}
        if both:
            print(f"look: {n} becomes {s}, which stands already in {sorted(both)[:3]}")
            bad += 1
    if "--list" in argv:
        for n, s in sorted(names.items()):
            print(f"{n} {s} {len(used[n])}")
        return 0
    if bad:
        print("nothing was changed")
        return 1
    for path, text in texts.items():
        new = turn(path, text, names)
        if new != text:
            with open(path, "w", encoding="utf-8") as f:
                f.write(new)
    print(f"{len(names)} names")
    return 0


if __name__ == "__main__":
    raise SystemExit(main(sys.argv[1:]))
