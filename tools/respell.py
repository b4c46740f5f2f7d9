#!/usr/bin/env python3
"""Brings the repository's own words and lemmas to today's spelling: snake case, once, right after port.py.

usage: python3 tools/respell.py [ROOT]     at the top of the repository, or of the folder ROOT

What is renamed is what specs/ and the lemma files of proofs/ define (words, lemmas, record fields, names of `where`), never a function of src/,
a goal or a step that Rattle names, or a string. It prints names that fall together and stops there.
"""
import os
import re
import sys

ROOT = sys.argv[1] if len(sys.argv) > 1 else "."
BARE = re.compile(r"(?<![.\w'-])[^\s(){}\[\],;.`\"⌜⌝]+")
TOKEN = re.compile(r"[^\s(){}\[\],;.`\"⌜⌝]+")
DEFINES = re.compile(r"^\s*(?:unfoldable |abbrev |mutual |ruleset )*(?:pub )?(?:unfoldable |abbrev |data |ruleset )*(?:pub )?([^\s(){}\[\],;.:`\"]+(?: [^\s(){}\[\],;.:`\"]+)*)(?: \([^=]*\))? :(?: |$)")
# the fields of a generated record, of which some words of ours were named alike
KEEP = set()


def files(*endings):
    for folder, dirs, names in os.walk(os.path.join(ROOT, "crates")):
        dirs[:] = sorted(d for d in dirs if d not in ("out", "target"))
        for n in sorted(names):
            if n.endswith(endings):
                yield os.path.join(folder, n)


def read(p):
    with open(p, encoding="utf-8") as f:
        return f.read()


def is_answer(line):
    return re.search(r": (?:tie|goal|loops?)\.", line) is not None


def snake(name):
    s = re.sub(r"(?<=[a-z0-9])([A-Z])", lambda m: "_" + m.group(1).lower(), name)
    s = s.replace("-", "_")
    return s


def wants(name):
    if name in KEEP or not re.match(r"[a-z]", name):
        return False
    return bool(re.search(r"[a-z0-9][A-Z]|[\w']-[\w']", name)) and re.fullmatch(r"[A-Za-z0-9_'₀-₉-]+", name) is not None


def defined():
    """Every name that our antt text defines outside the answers."""
    found = {}
    for p in files(".antt"):
        for line in read(p).splitlines():
            if line.lstrip().startswith(("--", "use ", "mod ", "pub mod ", "unfolding ")) or is_answer(line):
                continue
            for n in re.findall(r"[({]([a-z][^\s(){}:]*[A-Z][^\s(){}:]*(?: [^\s(){}:]+)*) : ", line):
                for x in n.split():
                    found.setdefault(x, set()).add(p)
            m = DEFINES.match(line)
            if m:
                for n in m.group(1).split():
                    found.setdefault(n, set()).add(p)
    return found


def aliases():
    """The names that a `use` line gives."""
    return {n for p in files(".antt") for line in read(p).splitlines() if line.startswith("use ") for n in re.findall(r" as ([^\s(){}\[\],;.]+)", line)}


def functions():
    return {n for p in files(".rt") for n in re.findall(r"\bfn (\w+)", read(p))}


def main():
    names = defined()
    for n in aliases():
        names.setdefault(n, set()).add("a use line")
    code = functions()
    table = {n: snake(n) for n in names if wants(n) and snake(n) != n}
    # the names that proofs of functions are exported by are Rattle's
    table = {a: b for a, b in table.items() if not a.endswith(("-spec", "_spec"))}
    # where a word and a lemma fall together the word keeps the plain name and the lemma gets `_lem`; a name that port.py had turned already
    # counts as what it was in the older spelling
    by_new = {}
    for a, b in table.items():
        by_new.setdefault(b, []).append(a)
    for b, olds in sorted(by_new.items()):
        olds = olds + ([b] if b in names else [])
        if len(olds) < 2:
            continue
        lemmas = [a for a in olds if "-" in a or (a == b and a in WAS_LEMMA)]
        for a in lemmas:
            table[a] = b + "_lem"
        print(f"fall together: {', '.join(olds)} -> {b}" + "".join(f"; {a} -> {table[a]}" for a in lemmas))
        if len(olds) - len(lemmas) > 1:
            print(f"still together: {b}")
            return 1
    changed = 0
    for p in files(".antt", ".rt", ".edit"):
        text = read(p)
        # no clause and no second simulator names a lemma of ours, and a function may have the same name
        own = {a: b for a, b in table.items() if a not in WAS_LEMMA} if p.endswith((".rt", ".edit")) or "/second" in p else table
        if p.endswith(".edit"):
            own = own | {a: snake(a) for a in TOKEN.findall(text) if re.fullmatch(r"[a-z]+[a-z0-9]*(?:[A-Z][a-z0-9]*)+", a) and snake(a) in names}
        out = []
        for line in text.splitlines(keepends=True):
            # a step that Rattle names after a function of src/ is read by the script that turns proofs
            if p.endswith("Proof.antt"):
                own_here = {a: b for a, b in own.items() if snake(a) not in code}
                line = re.sub(r"(?<=\.)[^\s(){}\[\],;.]+", lambda m: own_here.get(m.group(0), m.group(0)), line)
                line = BARE.sub(lambda m: own.get(m.group(0), m.group(0)), line)
                out.append(line)
                continue
            parts = re.split(r'(b?"(?:[^"\\]|\\.)*")', line) if not p.endswith(".antt") else [line]
            out.append("".join(x if i % 2 else TOKEN.sub(lambda m: own.get(m.group(0), m.group(0)), x) for i, x in enumerate(parts)))
        new = "".join(out)
        if new != text:
            changed += 1
            with open(p, "w", encoding="utf-8") as f:
                f.write(new)
    print(f"{len(table)} names, {changed} files")
    return 0


# names that port.py turned from `a-b`, a lemma's spelling, and that a word of ours, `aB`, has too
WAS_LEMMA = {"all_in", "both_ways", "cut_short", "laid_out", "limits_of", "no_room", "out_of_order", "out_of_range", "over_below", "too_long", "too_many"}

if __name__ == "__main__":
    sys.exit(main())
