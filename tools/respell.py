#!/usr/bin/env python3
"""Respells the repository's own definitions and lemmas: snake case for words, with no dash and no capital inside.

usage: python3 tools/respell.py        at the top of the repository, once, after /opt/rattle/port/port.py and before any edit by hand

    mostBits, bit-is-put, firstOf-none  ->  most_bits, bit_is_put, first_of_none

Types, modules, constants of Rust and functions of src/ keep their names, and so do the names that Rattle makes for a proof (behind c., l.,
tie. and goal. in a function's folder). Where two of our names would fall together, the lemma gets the name that MEETS has for it.
"""
import glob
import re

# a lemma whose plain spelling is that of a definition
MEETS = {
    "both-placed": "both_placed_holds",
    "budget-of": "budget_of_is",
    "built-bytes": "built_bytes_is",
    "built-from": "built_from_is",
    "chain-at": "chain_at_is",
    "exclusion-at": "exclusion_at_is",
    "first-from": "first_from_is",
    "first-of-none": "first_of_none_on",
    "head-zero": "head_zero_holds",
    "no-plan": "no_plan_is_left",
    "plan-length": "plan_length_is",
    "slot-zero": "slot_zero_holds",
}
# the plain spelling of these stands already: for a lemma, in one file
TAKEN = {"crates/sound/proofs/Passed.antt": {"all_placed": "all_placed_holds"}}

DECLARED = re.compile(
    r"^(\s{0,8})((?:abbrev|unfoldable|opaque|pub|data|record|module)\s+)*([^\s:(){}.;,@\"«»λ]+)(\s+[^:=]*)?\s*:(\s|$)"
)
PATH = re.compile(r"[^\s(){};,@\"«»\[\]`]+")
OF_A_FUNCTION = re.compile(r"/proofs/.+/(Proof|Answers|Invariants)\.antt$")
MADE = ("c", "l", "w", "a", "tie", "goal")


def snake(name):
    name = re.sub(r"([a-z0-9])([A-Z])", lambda m: m.group(1) + "_" + m.group(2).lower(), name.replace("-", "_"))
    return name[0].lower() + name[1:]


def declared(files):
    names = set()
    for path in files:
        if OF_A_FUNCTION.search(path):
            continue
        for line in open(path, encoding="utf-8"):
            m = DECLARED.match(line)
            if not m or line.startswith("--"):
                continue
            if m.group(4) and not re.match(r"\s*(\(|\{|$)", m.group(4)):
                continue
            name = m.group(3)
            if "-" in name and "-" not in (name[0], name[-1]) or re.search(r"^[a-z]\w*?[a-z0-9][A-Z]", name):
                names.add(name)
    return names


def turned(text, names, of_a_function):
    def path(m):
        parts = m.group(0).split(".")
        made = of_a_function and parts[0] in MADE
        return ".".join(p if made and i and "-" in p else names.get(p, p) for i, p in enumerate(parts))

    return PATH.sub(path, text)


def main():
    antt = sorted(glob.glob("crates/*/specs/**/*.antt", recursive=True) + glob.glob("crates/*/proofs/**/*.antt", recursive=True))
    names = {n: MEETS.get(n, snake(n)) for n in declared(antt)}
    texts = antt + sorted(glob.glob("crates/*/src/**/*.rt", recursive=True) + glob.glob("crates/*/must-fail/*.edit"))
    changed = 0
    for file in texts + sorted(glob.glob("docs/*.md") + glob.glob("tests/*.md") + ["README.md"]):
        with open(file, encoding="utf-8") as f:
            old = f.read()
        new = old
        for a, b in TAKEN.get(file, {}).items():
            new = re.sub(rf"(?<![\w-]){a}(?![\w-])", b, new)
        if file.endswith(".md"):
            new = re.sub(r"`[^`\n]+`", lambda m: turned(m.group(0), names, False), new)
        else:
            new = turned(new, names, bool(OF_A_FUNCTION.search(file)))
        if new != old:
            with open(file, "w", encoding="utf-8") as f:
                f.write(new)
            changed += 1
    print(f"{len(names)} names, {changed} files")


main()
