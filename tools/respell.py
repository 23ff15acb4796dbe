#!/usr/bin/env python3
"""Spells this repository's own definitions and lemmas as today's library does: types in upper camel case, all else in snake case.

    tools/respell.py            run once, at the top, right after the toolchain's port.py

It collects what specs/ and proofs/ declare (and the names that a 'use .. as ..' gives), and turns whole words: in .antt files, in the
clauses of .rt files, and in the code spans of README.md and docs/. Names of src/ (functions, types, fields, ghost fields, labels), strings,
inputs, outputs and edits stay as they are. Where two names would fall together, the lemma gets '_lem' behind it.
"""

import glob
import re

# names that would fall together, and types in small letters: old spelling, new spelling, the folder it holds below
APART = [
    ("outOfRange", "out_of_range_at", "crates/"),
    ("joins", "JoinsAxes", "crates/chains/"),
    ("joins", "JoinsAxes", "crates/frames/"),
    ("left_by", "left_by_lem", "crates/chains/"),
    ("go_on", "go_on_lem", "crates/machine/"),
    ("tail_of", "tail_of_lem", "crates/script/"),
] + [(name, name.replace("-", "_") + "_lem", "crates/") for name in (
    "told-by", "on-axis", "taken-axis", "frame-number", "no-offset", "new-value", "on-longer", "standing-at", "put-said", "at-axis")]

WORD = re.compile(r'[^\s(){}.;,@"«»\[\]|`]+')
ANSWERS = re.compile(r"/proofs/.+/(Answers|Invariants|Choices|Proof)\.antt$")
DECLARED = re.compile(
    r"^(?:abbrev |unfoldable )?(?:pub )?(?:abbrev |unfoldable )?(record |data )?([^\s:(){}]+)"
    r"(?: *(?:\{[^{}]*\}|\([^()]*(?:\([^()]*\)[^()]*)*\)))* *: (.*)$")
INNER = re.compile(r"^ +(?:pub |abbrev |unfoldable )*([^\s:(){}]+)(?: *\{[^{}]*\})* : ")


def sources():
    return sorted(glob.glob("crates/*/specs/**/*.antt", recursive=True) + glob.glob("crates/*/proofs/**/*.antt", recursive=True))


def declared():
    """Each name that is declared, and whether it is a type."""
    found = {}
    for path in sources():
        for line in open(path, encoding="utf-8").read().split("\n"):
            if line.lstrip().startswith("--"):
                continue
            top, inner = DECLARED.match(line), INNER.match(line)
            if top and not top[3].strip().startswith("goal."):
                is_type = bool(top[1]) or re.search(r"(^|→ )Type 0( where)?$", top[3].strip()) is not None
                found[top[2]] = found.get(top[2], False) or is_type
            elif inner:
                found.setdefault(inner[1], False)
    for path in sources() + glob.glob("crates/*/src/**/*.rt", recursive=True):
        for uses in re.findall(r"use [^;{]*\{[^}]*\}", open(path, encoding="utf-8").read()):
            for _, alias in re.findall(r"([^\s,{}]+) as ([^\s,{}]+)", uses):
                found.setdefault(alias, False)
    return found


def respelled(name, is_type):
    if is_type:
        return re.sub(r"-(\w)", lambda m: m[1].upper(), name)
    if name[0].isupper():
        return name
    return re.sub(r"(?<=[a-z0-9])[A-Z]", lambda m: "_" + m[0].lower(), name).replace("-", "_")


def turned(text, table, keep_behind=None):
    def one(m):
        if keep_behind and text[: m.start()].endswith(keep_behind):
            return m[0]
        return table.get(m[0], m[0])

    return WORD.sub(one, text)


def prose(text, table):
    """A comment: code spans, and words that are no plain words."""
    spans = re.sub(r"`[^`\n]*`", lambda m: turned(m[0], table), text)
    return WORD.sub(lambda m: table.get(m[0], m[0]) if re.search(r"[a-z][A-Z]", m[0]) else m[0], spans)


def by_lines(text, table, mark, keep_behind=None):
    out = []
    for line in text.split("\n"):
        at = re.search(rf"(^|\s){mark}", line)
        cut = at.start() if at else len(line)
        out.append(turned(line[:cut], table, keep_behind) + prose(line[cut:], table))
    return "\n".join(out)


def main():
    table = {name: respelled(name, is_type) for name, is_type in declared().items()}
    table = {old: new for old, new in table.items() if old != new}
    for path in sources() + sorted(glob.glob("crates/*/src/**/*.rt", recursive=True)) + ["README.md"] + sorted(glob.glob("docs/*.md")):
        text = open(path, encoding="utf-8").read()
        here = {**table, **{old: new for old, new, below in APART if path.startswith(below)}}
        if path.endswith(".md"):
            here = {**table, **{old: new for old, new, _ in APART if re.search("[a-z][A-Z]|-", old)}}
            new = re.sub(r"`[^`\n]*`", lambda m: turned(m[0], here), text)
        elif path.endswith(".rt"):
            new = by_lines(text, here, "//")
        else:
            # in an answer a word behind 'w.' is a label that the checker made
            new = by_lines(text, here, "--", "w." if ANSWERS.search(path) else None)
        if new != text:
            open(path, "w", encoding="utf-8").write(new)


main()
