#!/usr/bin/env python3
"""Gives the repository's own definitions, fields and lemmas today's spelling: words in snake case, a dash only between two names of definitions, none in
a field.

usage: python3 tools/respell.py [--dry]      at the top, once, after port.py

A name counts as the repository's own where a file of specs/ or a law file of proofs/ declares it. It is respelled in every .antt file, in the clauses and
`ghost use` lines of every .rt file, and in the must-fail edits; a name that a file imports from the library stays there. What the source of Rust code
names, strings and types stay. It prints each file in which two names fall together, to be read: a function of the source that bears its definition's name,
or a field beside a field of another type, is no harm.
"""
import collections
import glob
import re
import sys

WORD = r"[A-Za-z][A-Za-z0-9_'₀₁₂₃₄]*(?:-[A-Za-z0-9_'₀₁₂₃₄]+)*"
TOKEN = re.compile(r"(?<![\w'₀₁₂₃₄◌≤≡∙ℤℕ+*-])" + WORD + r"(?![\w'₀₁₂₃₄◌≤≡∙ℤℕ+*-])")
RECORD = re.compile(r"^([ \t]*)(?:pub )?record [^\n]* where\n(?:\1[ \t]+[^\n]*\n)*", re.M)
DECLARED = re.compile(r"^[ \t]*(?:abbrev |unfoldable |pub )*(" + WORD + r") +:(?!:)", re.M)
LIBRARY = {"length", "append", "take", "drop", "get_or", "set", "map", "replicate", "reverse", "bit_and", "bit_or", "nat_abs"}
# Names that a rule would spell badly, or that would fall together with another name of a file.
BY_HAND = {
    "bit-or": "bit_of-bit_or",
    "left-one": "left_one",
    "row-Below": "row_below",
    "with-list": "with_list_lem",
    "rowOf": "costs_of_row",
    "rowPrices": "prices_of_rows",
    "columnPrices": "prices_of_columns",
}
# Lemmas that port.py spelled as a definition that they speak of, in the proofs of these crates (\w+: of all): where they stand alone, neither a field nor
# part of a path.
LEMMAS = {(r"\w+", "rows_fit"), (r"\w+", "rows_named"), ("repair", "row_inside")}


def files(*ends):
    return sorted(p for e in ends for p in glob.glob("crates/*/" + e, recursive=True) if "/out/" not in p)


def read(p):
    with open(p, encoding="utf-8") as f:
        return f.read()


def snake(word):
    word = re.sub(r"([a-z0-9])([A-Z])", r"\1_\2", word)
    return word if word[:1].isupper() and "_" not in word else word[:1] + word[1:].lower() if word[:1].isupper() else word.lower()


def field_at(text, m, name, aliases, records):
    """Whether the word at m is a field: behind a dot that follows no module's name, set in braces, or in the record that has it."""
    if text[m.start() - 1 : m.start()] == ".":
        before = re.search(r"[\w'₀₁₂₃₄]+$", text[: m.start() - 1])
        return not (before and before.group(0) in aliases)
    if re.match(r"\s*=(?!=)", text[m.end() :]):
        head = text[: m.start()]
        if head.count("{") > head.count("}"):
            return True
    return any(a <= m.start() < b and name in fields for a, b, fields in records)


def main(dry):
    laws = [p for p in files("specs/**/*.antt", "proofs/*.antt")]
    own = collections.defaultdict(set)
    defined = set()
    fields = set()
    definitions = set(LIBRARY)
    for p in laws:
        for m in RECORD.finditer(read(p)):
            fields |= set(DECLARED.findall(m.group(0)))
        for m in DECLARED.finditer(read(p)):
            name = m.group(1)
            own[name].add(p)
            if "/specs/" in p and "-" not in name and m.group(0)[0] not in " \t":
                definitions.add(snake(name) if name[0].islower() else name)
                defined.add(BY_HAND.get(name, snake(name)))
            if name[0].islower() and "-" not in name and snake(name) != name:
                defined.add(BY_HAND.get(name, snake(name)))
    renamed = {}
    as_field = {}
    for name in [*own, *BY_HAND]:
        if name[0].isupper() and "-" not in name:
            continue
        parts = name.split("-")
        spelled = [snake(w) if w[:1].islower() else w for w in parts]
        new = spelled[0]
        for left, right in zip(spelled, spelled[1:]):
            joined = len(spelled) == 2 and name not in fields and (left in definitions or left[:1].isupper()) and right in definitions
            new += ("-" if joined else "_") + right
        # A lemma that would have its definition's name; a field may.
        if "-" in name and new in defined:
            if name in fields:
                as_field[name] = new
            new += "_lem"
        new = BY_HAND.get(name, new)
        if new != name:
            renamed[name] = new
    clashes = []
    changed = 0
    for p in files("specs/**/*.antt", "proofs/**/*.antt", "src/*.rt", "must-fail/*.edit"):
        text = read(p)
        rt = p.endswith(".rt")
        kept = set()
        for m in re.finditer(r"\buse ((?:Rattle\.(?:std|core)|mathlib|lib|native|borrow|Prim|denote|types|logic)\.[^{}\s;]*)\.\{([^}]*)\}", text):
            kept |= {w.strip().split(" as ")[-1] for w in m.group(2).split(",")}
        tokens = set(TOKEN.findall(text))
        to = collections.defaultdict(set)
        for t in tokens:
            to[renamed[t] if t in renamed and t not in kept else t].add(t)
        clashes += [f"{p}: {new}: {sorted(olds)}" for new, olds in to.items() if len(olds) > 1]

        aliases = set(re.findall(r"^use \S+ as (\w+)", text, re.M))
        records = [(m.start(), m.end(), set(DECLARED.findall(m.group(0)))) for m in RECORD.finditer(text)]

        def one(m):
            t = m.group(0)
            if t in as_field and field_at(m.string, m, t, aliases, records):
                return as_field[t]
            return renamed[t] if t in renamed and t not in kept else t

        new = text
        for crate, name in sorted(LEMMAS):
            if re.match(rf"crates/{crate}/proofs/", p):
                new = re.sub(r"(?<![\w.'-])" + name + r"(?![\w.'-])", name + "_lem", new)
        new = TOKEN.sub(one, new)
        if new != text:
            changed += 1
            if not dry:
                with open(p, "w", encoding="utf-8") as f:
                    f.write(new)
    print("\n".join(clashes))
    print(f"respell: {len(renamed)} names, {changed} files, {len(clashes)} names that would fall together")


main("--dry" in sys.argv)
