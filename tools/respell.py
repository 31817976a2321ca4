#!/usr/bin/env python3
"""Brings the names of this repository's definitions, lemmas and theorems to today's spelling. Run once, after port.py.

    tools/respell.py           rewrite the sources and edits, and the names that pages have between backticks
    tools/respell.py --list     print the renamings

A word is in snake case. A dash joins two names (`length-tabulate`: the length of a tabulated list), and `_` adds a plain word
(`laid_first`). A definition whose value is a fact is in upper camel case. A name that would fall together with another ends in `_lem`.
Names of Rattle sources, exported C names, strings, inputs and outputs keep their spelling.
"""
import glob
import os
import re
import sys

ROOT = os.path.join(os.path.dirname(os.path.abspath(__file__)), "..")

# Names that the rule alone would spell badly, or that would fall together.
BY_HAND = {
    "get_d_tabulate": "get_or-tabulate",
    "at-getD": "get_or-at",
    "getD-mapAt": "get_or-map_at",
    "getD-mapFrom": "get_or-map_from",
    "gic-v3": "gic_v3",
    "from-to": "from_to",
    "to-from": "to_from",
    "heldSettings": "HeldSettings",
    "namedHere": "named_here",
    "onCall": "on_call",
    "read-over": "read_over_lem",
    "readOver": "read_over",
    "write-over": "write_over_lem",
    "writeOver": "write_over",
    "byte-of-number": "byte_of_number",
    "element-of-tabulate": "element_of_tabulate",
    "header-of-words": "header_of_words",
    "id-bits-spis": "id_bits_spis",
    "slot-of-word": "slot_of_word",
    "word-of-slot": "word_of_slot",
    "words-of-header": "words_of_header",
    "shown-at-fits": "shown_at_fits",
    "seen-good-record": "seen_good_record",
}
# In one crate alone: a definition of another crate has the same name and another kind.
BY_CRATE = {
    "examples": {"lists": "Lists"},
    "model": {"typed": "IsTyped"},
}
# The library's names that lemmas here are about.
LIBRARY = {"length", "append", "get_or", "drop", "take", "set", "cons", "reverse", "map", "replicate", "min", "max", "pow"}

HEAD = re.compile(r"(?m)^([ ]*)((?:abbrev |unfoldable )*)(?:pub )?(?:(record|data|module) )?([^\s:({.]+)(?: [^:\n=]*)? :(?=\s)")
TOKEN = re.compile(r"[A-Za-z_][A-Za-z0-9_]*(?:[-'?][A-Za-z0-9_*<≡≢≤]+)*[?']*")


def declared():
    """Each name declared in specs/ or in a file of lemmas: whether some declaration of it is a definition."""
    names = {}
    for path in sorted(glob.glob(os.path.join(ROOT, "crates/*/specs/*.antt")) + glob.glob(os.path.join(ROOT, "crates/*/proofs/*.antt"))):
        text = open(path, encoding="utf-8").read()
        for _, marks, kind, name in HEAD.findall(text):
            if kind in ("record", "data", "module") or name in ("use", "where", "let", "in", "pub", "_"):
                continue
            names[name] = names.get(name, False) or bool(marks)
    return names


def snake(name):
    return re.sub(r"(?<=[a-z0-9])([A-Z])", lambda m: "_" + m.group(1).lower(), name)


def renamings(names):
    definitions = {snake(n) for n, is_definition in names.items() if is_definition and "-" not in n} | LIBRARY
    definitions -= set().union(*BY_CRATE.values())
    to = {}
    for name in names:
        if name in BY_HAND:
            to[name] = BY_HAND[name]
            continue
        if not re.match(r"^[a-z]", name):
            continue
        parts = [snake(p) if re.match("[a-z]", p) else p.lower() if len(p) == 1 else p for p in name.split("-")]
        new = parts[0]
        for before, part in zip(parts, parts[1:]):
            new += ("-" if before in definitions and part in definitions else "_") + part
        if new != name:
            to[name] = new
    # Where a lemma falls together with another name, it is the lemma that moves.
    taken = {n for n in names if n not in to} | {BY_HAND[n] for n in to if n in BY_HAND}
    for name in sorted(to, key=lambda n: (not names[n], n)):
        while name not in BY_HAND and to[name] in taken:
            to[name] += "_lem"
        taken.add(to[name])
    return to


def rewrite(text, to):
    return TOKEN.sub(lambda m: to.get(m.group(0), m.group(0)), text)


QUOTED = re.compile(r"`[^`\n]+`")


def rewrite_page(text, to):
    """Prose: the names between backticks alone."""
    return QUOTED.sub(lambda m: rewrite(m.group(0), to), text)


def rewrite_line(line, to, comment, strings):
    at = re.search(comment, line)
    code, rest = (line[: at.start()], line[at.start() :]) if at else (line, "")
    if strings:
        code = "".join(part if k % 2 else rewrite(part, to) for k, part in enumerate(re.split(r'(b?"(?:[^"\\\n]|\\.)*")', code)))
    else:
        code = rewrite(code, to)
    return code + rewrite_page(rest, to)


# What begins a comment, and whether strings are kept.
KINDS = {".rt": (r"//", True), ".antt": (r"(?:^|(?<=\s))-- ", False), ".edit": (r"^#|//|(?:^|(?<=\s))-- ", True)}


def main():
    names = declared()
    to = renamings(names)
    if "--list" in sys.argv:
        for name in sorted(to):
            print(name, to[name])
        return
    for path in sorted(glob.glob(os.path.join(ROOT, "crates/**/*"), recursive=True)):
        kind = os.path.splitext(path)[1]
        if kind not in KINDS or "/out/" in path:
            continue
        crate = os.path.relpath(path, ROOT).split(os.sep)[1]
        mine = to | BY_CRATE.get(crate, {})
        text = open(path, encoding="utf-8").read()
        new = "".join(rewrite_line(line, mine, *KINDS[kind]) for line in text.splitlines(keepends=True))
        if new != text:
            open(path, "w", encoding="utf-8").write(new)
    pages = ["README.md", "CONTRIBUTING.md"] + glob.glob(os.path.join(ROOT, "docs/**/*.md"), recursive=True)
    for page in pages:
        path = os.path.join(ROOT, page)
        if os.path.basename(path) == "PORT.md":
            continue
        text = open(path, encoding="utf-8").read()
        new = rewrite_page(text, to)
        if new != text:
            open(path, "w", encoding="utf-8").write(new)


main()
