#!/usr/bin/env python3
"""Spells the definitions and lemmas of this repository as today's Rattle spells its own: words in snake case.

usage: tools/respell.py [--list]     at the top, once, after /opt/rattle/port/port.py (--list: prints old and new names, writes nothing)

A name of two words, as in bitAt, becomes bit_at. A dash stays only where it joins two names (bit-word_of, length-list_of) or a fact to a
name (Packing-append), and where the name without it stands for something else already. Names of src/, of files and of facts stay.
"""
import collections
import glob
import os
import re
import subprocess
import sys

W = r"[^\s(){}.;,@\"«»\[\]\\`|/]+"
HEAD = re.compile(r"(?:(?:abbrev|unfoldable|pub|data|record)\s+)*(" + W + r")(?:\s|$)")
KEYWORDS = {"use", "mod", "module", "unfolding", "where", "infixl", "infixr", "infix", "ruleset", "import", "open", "rattle"}
# lemmas that port.py gave the names of definitions
LEMMAS = {"is_digit": "is_digit_lem", "ended_by": "ended_by_lem", "top_below": "top_below_lem"}
# the same, in one file
IN_FILE = {
    "crates/plan_blocks/proofs/OnePartMoreLaws.antt": "block_in",
    "crates/script_assembly/proofs/ScriptStartLaws.antt": "block_start",
}
WORDS_OF_LISTS = {"length", "take", "drop", "get_or", "set", "map", "sum", "append", "replicate", "reverse", "sets"}


def antt():
    for kind in ("specs", "proofs"):
        yield from sorted(glob.glob(f"crates/*/{kind}/**/*.antt", recursive=True))


def names():
    """The definitions and lemmas of specs/ and of the law files, with the fields and constructors of their types."""
    found = set()
    for path in antt():
        # what stands in a function's own folder is renamed with its proof
        own = re.match(r"crates/[^/]+/proofs/.+/", path)
        inside = False
        for line in open(path, encoding="utf-8"):
            if re.match(r"\S", line):
                inside = bool(re.match(r"(?:(?:abbrev|unfoldable|pub)\s+)*(?:data|record)\s", line))
                if own or line.startswith("--"):
                    continue
                m = HEAD.match(line)
                if m and m.group(1) not in KEYWORDS:
                    found.add(m.group(1))
            elif inside or not own:
                # fields and constructors; what a section of lemmas hands out
                m = re.match(r"\s+(?:constructor\s+)?(" + W + r")\s+:" if inside else r"\s+pub (" + W + r")\s+:", line)
                if m:
                    found.add(m.group(1))
    return found


def snake(word):
    return re.sub(r"(?<=[a-z0-9′'])([A-Z])", lambda m: "_" + m.group(1).lower(), word)


def respelled(name, definitions):
    if not re.search(r"[a-z]", name) or "◌" in name:
        return name
    if name[0].isupper():
        return name
    parts = name.split("-")
    if len(parts) == 1:
        return snake(name)
    out = snake(parts[0])
    for before, part in zip(parts, parts[1:]):
        joins = part[:1].isupper() or re.search(r"[a-z0-9][A-Z]", before + " " + part) and part in definitions
        joins = joins or before in WORDS_OF_LISTS and part in definitions
        joins = joins or re.search(r"[a-z0-9][A-Z]", before) and before in definitions
        out += ("-" if joins else "_") + snake(part)
    return out


def tokens_of(paths):
    seen = collections.Counter()
    for path in paths:
        with open(path, encoding="utf-8") as it:
            for line in it:
                seen.update(re.findall(W, line.split("--")[0] if path.endswith(".antt") else line.split("//")[0]))
    return seen


def table():
    """The new name of each name that changes. A lemma whose new name stands for something else gets _lem."""
    found = names()
    words = {p: set(tokens_of([p])) for p in list(antt()) + sorted(glob.glob("crates/*/src/*.rt"))}
    std = set()
    for path in ("/opt/rattle/rattle/std/specs/Prelude.antt", "/opt/rattle/rattle/std/proofs/Common.antt"):
        with open(path, encoding="utf-8") as it:
            std |= set(re.findall(W, it.read()))
    new = {}
    taken = collections.defaultdict(set)
    for n in sorted(found):
        taken[respelled(n, found)].add(n)

    def meets(n, to):
        """Whether n and another name that is spelled so, now or after this, stand in one file."""
        others = taken[to] - {n}
        return any(n in ws and (to in ws and to not in functions() or others & ws) for ws in words.values())

    for n in sorted(found):
        to = respelled(n, found)
        if to == n:
            continue
        rivals = taken[to] - {n}
        if "-" in n and (to in std or any("-" not in r for r in rivals) or meets(n, to)):
            to += "_lem"
        new[n] = to
    return new, {n: t for n, t in new.items() if "-" not in n and (t in std or meets(n, t) and any("-" not in r for r in taken[t] - {n}))}


FUNCTIONS = set()


def functions():
    """The names of functions of src/: a definition may have the name of the function that computes it."""
    if not FUNCTIONS:
        for path in glob.glob("crates/*/src/*.rt"):
            with open(path, encoding="utf-8") as it:
                FUNCTIONS.update(re.findall(r"\bfn (\w+)", it.read()))
    return FUNCTIONS


def turn(text, new, comments):
    def one(m):
        return new.get(m.group(0), m.group(0))

    out = []
    for line in text.split("\n"):
        cut = line.find(comments) if comments else -1
        if cut >= 0 and not (comments == "--" and cut > 0 and line[cut - 1] not in " \t"):
            code, rest = line[:cut], line[cut:]
        else:
            code, rest = line, ""
        code = re.sub(W, one, code)
        # in a sentence a dash may be English: only words in camel case are names for certain
        rest = re.sub(r"[A-Za-z0-9]*[a-z0-9][A-Z]\w*(?:-\w+)*", one, rest)
        out.append(code + rest)
    return "\n".join(out)


def turn_page(text, new):
    """In a page only what stands between backticks is a name."""
    return re.sub(r"`[^`\n]*`", lambda m: re.sub(W, lambda w: new.get(w.group(0), w.group(0)), m.group(0)), text)


def main():
    new, kept = table()
    if "--list" in sys.argv:
        for n in sorted(new):
            print(n, new[n])
        for n in sorted(kept):
            print("look:", n, "becomes", kept[n], "beside another")
        return
    for path in list(antt()) + sorted(glob.glob("crates/*/src/*.rt")) + sorted(glob.glob("crates/*/must-fail/*.edit")):
        with open(path, encoding="utf-8") as it:
            text = was = it.read()
        if path.endswith(".antt"):
            text = re.sub(r"(?<![\w.-])(" + "|".join(LEMMAS) + r")(?![\w-])", lambda m: LEMMAS[m.group(1)], text)
        if path in IN_FILE:
            text = re.sub(r"(?<![\w.-])" + IN_FILE[path] + r"(?![\w-])", IN_FILE[path] + "_lem", text)
        to = turn(text, new, "//" if path.endswith(".rt") else "--" if path.endswith(".antt") else "")
        if to != was:
            with open(path, "w", encoding="utf-8") as it:
                it.write(to)
    for path in sorted(glob.glob("docs/*.md") + glob.glob("docs/landings/*.md") + glob.glob("*.md") + glob.glob("host/README.md")):
        with open(path, encoding="utf-8") as it:
            text = it.read()
        to = turn_page(text, new)
        if to != text:
            with open(path, "w", encoding="utf-8") as it:
                it.write(to)


if __name__ == "__main__":
    main()
