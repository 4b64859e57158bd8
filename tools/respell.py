#!/usr/bin/env python3
"""Turns the names of definitions and lemmas to snake case, once, after port.py: words in snake case, types and modules in camel case.

usage: python3 tools/respell.py        at the top of the repository

What turns, in .antt and .rt files, must-fail edits, and code spans of README.md and docs/:
  1. each camel-case word that begins with a small letter: littleEndianAt to little_endian_at. Where that spelling is taken in one of the files that have
     the word (TAKEN), the name that had it gets _lem, as a lemma beside its function does;
  2. a dash in the name of an `abbrev` or `unfoldable` definition: four-pieces to four_pieces. Dashes in names of lemmas stay;
  3. a dash in a local name of a module: `as plan-group` to `as PlanGroup`.
Function names, file names, exported names, strings and outputs keep their spelling.
"""
import os
import re
import sys

WORD = re.compile(r"(?<![\w'\u25cc-])[A-Za-z_][\w'-]*")
CAMEL = re.compile(r"(?<=[a-z0-9])([A-Z])")


def snake(word):
    """littleEndian-turned to little_endian-turned; a part that begins with a capital is a type, and stays."""
    return "-".join(p if p[:1].isupper() else CAMEL.sub(lambda m: "_" + m.group(1).lower(), p) for p in word.split("-"))


def files(*ends):
    for top in ("crates", "docs", "README.md"):
        if os.path.isfile(top):
            yield from [top] if top.endswith(ends) else []
        for folder, dirs, names in os.walk(top):
            dirs[:] = sorted(d for d in dirs if d not in ("out", "target"))
            for n in sorted(names):
                if n.endswith(ends):
                    yield os.path.join(folder, n)


def read(path):
    with open(path, encoding="utf-8") as f:
        return f.read()


def code_of(text):
    return re.sub(r"--[^\n]*", "", text)


def table():
    words, marked, aliases = {}, set(), set()
    for p in files(".antt", ".rt"):
        text = code_of(read(p)) if p.endswith(".antt") else "\n".join(l for l in read(p).split("\n"))
        words[p] = set(WORD.findall(text))
        marked |= set(re.findall(r"^\s*(?:pub )?(?:abbrev|unfoldable)(?: pub)? ([^\s:.]+)", text, re.M))
        aliases |= set(re.findall(r"\bas ([a-z]\w*-[\w-]+)\s*;?$", text, re.M))
    every = set().union(*words.values())
    turned = {}
    for w in every:
        if CAMEL.search(w) and snake(w) != w:
            turned[w] = snake(w)
    for w in marked:
        if "-" in w and not w.startswith(("invariant-", "decreases-")):
            turned[w] = snake(w).replace("-", "_")
    for w in aliases:
        turned[w] = "".join(p[:1].upper() + p[1:] for p in w.split("-"))
    # names that fall together in one file, or where one file has both
    clash = {}
    for p, ws in words.items():
        seen = {}
        for w in sorted(ws):
            seen.setdefault(turned.get(w, w), []).append(w)
        for new, olds in seen.items():
            if len(olds) > 1:
                clash.setdefault((new, tuple(olds)), []).append(p)
    return turned, clash


# names that would fall together with another one in the same file: by the beginning of the path, the old name and the new one
TAKEN = [
    ("crates/flood_fill/specs/Answer/Injective.antt", "answer_back", "answer_back_lem"),
    ("crates/aplx_check/specs/Code/Injective.antt", "end_back", "end_back_lem"),
    ("crates/memory_map/specs/Lookup/Injective.antt", "found_back", "found_back_lem"),
    ("crates/flood_fill_series/specs/Proof/", "is_open", "is_open_lem"),
    ("crates/srom/specs/Code/Injective.antt", "item_back", "item_back_lem"),
    ("crates/compare/specs/Compare/Examples.antt", "last_byte", "last_byte_lem"),
    ("crates/plan/specs/Code/Injective.antt", "read_back", "read_back_lem"),
    ("crates/plan/specs/Code/Injective.antt", "row_back", "row_back_lem"),
    ("crates/aplx_read/specs/Code/Injective.antt", "row_back", "row_back_lem"),
    ("crates/checked_series/specs/Refuted/Checkers.antt", "to_end", "to_end_lem"),
    ("crates/series/specs/Refuted/", "fill-and-put", "fill_and_put_pieces"),
    ("crates/worked_examples/", "put-plan", "put-plan"),
]

LOCAL = [
    ("crates/conversion/specs/Examples.antt", "specs.Open as read_back", "specs.Open as ReadBack"),
    ("crates/conversion/specs/Examples.antt", "read_back.reader", "ReadBack.reader"),
]


def main():
    turned, clash = table()
    if "--show" in sys.argv:
        for (new, olds), ps in sorted(clash.items()):
            print(new, olds, len(ps), ps[:6])
        print(len(turned), "names")
        return
    n = 0
    for p in files(".antt", ".rt", ".edit", ".md"):
        before = old = read(p)

        taken = {was: now for beginning, was, now in TAKEN if p.startswith(beginning)}

        def word(m):
            return taken.get(m.group(0), turned.get(m.group(0), m.group(0)))

        for beginning, was, now in LOCAL:
            if p.startswith(beginning):
                old = old.replace(was, now)
        if p.endswith(".md"):
            new = re.sub(r"`[^`\n]*`|```.*?```", lambda m: WORD.sub(word, m.group(0)), old, flags=re.S)
        else:
            new = WORD.sub(word, old)
        if new != before:
            n += 1
            with open(p, "w", encoding="utf-8") as f:
                f.write(new)
    print(f"respell: {len(turned)} names, {n} files")


if __name__ == "__main__":
    main()
