#!/usr/bin/env python3
"""Spells the repository's own definitions and lemmas as today's Rattle does: words in snake case, and a dash only between two names.

usage: tools/spell_names.py [--check]      at the top of the repository, once, behind port.py

    halfAt, wordsTo           ->  half_at, words_to          (definitions, fields and lemmas of .antt files, and the clauses of .rt files)
    one-is, all-in-turn       ->  one_is, all_in_turn        (lemmas: words joined by a dash)
    length-savedAt            ->  length-saved_at            (the dash stays between two names)

It turns whole words and goes by spelling alone. Functions, types and constants of src/ have their spelling already. The names of
goals (at a type `tie.Need-x` or `goal.x`) stay, and so does a name that would fall together with another; these are printed.
The must-fail edits get the same spelling.
"""
import collections
import os
import re
import sys

WORD = re.compile(r"(?<![0-9A-Za-z_])[A-Za-z_◌][\w'′\-]*")
DECLARED = re.compile(r"^[ ]*(?:(?:abbrev|unfoldable|pub)[ ]+)*([A-Za-z_][\w'\-]*)[ ]*(?:\{[^{}\n]*\}[ ]*|\([^()\n]*\)[ ]*)*:[ ]+(\S+)", re.M)
# words of the library and of Rattle's logic that lemmas are named after
NAMES = set("length take drop get_or set sets map append cons sum replicate reverse filter".split())


def camel_to_snake(w):
    w = re.sub(r"([a-z0-9])([A-Z])", r"\1_\2", w)
    return w.lower()


def is_camel(w):
    return bool(re.match(r"^[a-z][\w'-]*$", w) and re.search(r"[a-z0-9][A-Z]", w)) and not re.search(r"_[A-Z]|[A-Z]_", w)


def files(root, ends):
    for folder, dirs, names in os.walk(root):
        dirs[:] = sorted(d for d in dirs if d not in ("out", ".git", "target"))
        for n in sorted(names):
            if n.endswith(ends):
                yield os.path.join(folder, n)


def main():
    write = "--check" not in sys.argv
    texts = {p: open(p, encoding="utf-8").read() for p in files("crates", (".antt", ".rt"))}
    declared, goals, imported = set(), set(), set()
    for p, t in texts.items():
        if p.endswith(".antt"):
            for m in DECLARED.finditer(t):
                (goals if re.match(r"(tie|goal)\.", m[2]) else declared).add(m[1])
        # what comes from the kit keeps its spelling
        for m in re.finditer(r"use (\S+?)\.\{([^}]*)\}", t):
            own = re.match(r"Rattle\.(\w+)\.(specs|proofs)", m[1])
            if not (own and os.path.isdir(os.path.join("crates", own[1]))):
                imported |= {w.split(" as ")[0].strip() for w in m[2].split(",")}
    words = {p: set(WORD.findall(t)) for p, t in texts.items()}
    everywhere = collections.Counter(w for s in words.values() for w in s)

    table = {}
    for w in everywhere:
        base = w.rstrip("'")
        if is_camel(base) and "-" not in base and base not in imported:
            table[w] = camel_to_snake(base) + w[len(base):]
    for w in declared:
        if "-" in w and w not in imported and w not in goals and not w[0].isupper():
            parts = w.split("-")
            new = camel_to_snake(parts[0]) if is_camel(parts[0]) else parts[0]
            for a, b in zip(parts, parts[1:]):
                both = (is_camel(a) or a in NAMES) and (is_camel(b) or b in NAMES)
                new += ("-" if both else "_") + (camel_to_snake(b) if is_camel(b) else b)
            if new != w:
                table[w] = new
    back = collections.defaultdict(set)
    for a, b in table.items():
        back[b].add(a)
    stay = set()
    for b, olds in back.items():
        for p, s in words.items():
            here = (olds & s) | ({b} & s if b in s else set())
            if len(here) > 1:
                if p.endswith(".rt"):
                    # a function or a parameter of that name: it hides the word only where both stand in one clause
                    continue
                for o in olds:
                    if "-" in o:
                        stay.add(o)
                    elif b in s and b not in olds:
                        print(f"together: {o} and {b} in {p}")
    for o in stay:
        table.pop(o, None)
    # a parameter would hide a word of its name in the clauses of its function
    for p, t in texts.items():
        if p.endswith(".rt"):
            params = set(re.findall(r"(\w+): ", t))
            for a in words[p]:
                if table.get(a) in params:
                    print(f"hidden: {a} and {table[a]} in {p}")
    print(f"{len(table)} names get another spelling, {len(stay)} stay: {' '.join(sorted(stay))}")

    def turn(t):
        return WORD.sub(lambda m: table.get(m[0], m[0]), t)

    n = 0
    for p in list(texts) + list(files("crates", ".edit")):
        old = open(p, encoding="utf-8").read()
        new = old
        # two lemmas would have their function's name
        for lemma in ("laid_out", "after_first"):
            if re.search(r"(?m)^(pub )?%s : |[{ ]%s[,}]" % (lemma, lemma), old) and p.endswith(".antt"):
                new = re.sub(r"(?<![\w.\-])%s(?![\w'\-])" % lemma, lemma + "_lem", new)
        new = turn(new)
        if new != old:
            n += 1
            if write:
                open(p, "w", encoding="utf-8").write(new)
    print(f"{n} files {'written' if write else 'would change'}")
    if write and "--table" in sys.argv:
        for a in sorted(table):
            print(a, table[a])


main()
