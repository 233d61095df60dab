#!/usr/bin/env python3
"""Spells the definitions and lemmas of this repository in snake case, once, by the table respell.tsv beside this file.

usage: tools/respell.py [--table]     at the top of the repository

A row of the table is: old, a tab, new, and perhaps a tab and the crates, joined by commas, where alone it holds.
Whole words turn, in specs/ and proofs/, and in src/ in clauses and `ghost use` items; in a comment only a name in camel
case does. Names that the prover makes of the source stay: those that a function's own proof files answer, and what stands
behind a dot there, but for the fields of records. --table prints the table anew from the files, for reading.
"""

import collections
import glob
import os
import re
import sys

NAME = r'[^\s(){}.;,@"«»]+'
DECLARED = re.compile(
    r"(?m)^( *)(?:(?:pub|abbrev|unfoldable|opaque) )*(" + NAME + r")(?: [({][^\n]*?[)}])* :(?= |$)"
)
OF_A_FUNCTION = re.compile(r"/proofs/.*/(Answers|Invariants|Choices)\.antt$")
COMMENT = re.compile(r"(?<![^\s(){}.;,@\"«»])--[^\n]*|(?<=\n)--[^\n]*|^--[^\n]*|\{-.*?-\}", re.S)
HERE = os.path.dirname(os.path.realpath(__file__))


def snake(name):
    words = re.sub(r"(?<=[a-z0-9])[A-Z]", lambda m: "_" + m[0].lower(), name)
    return words.replace("-", "_")


def files():
    for kind in ("specs", "proofs"):
        yield from sorted(glob.glob(f"crates/*/{kind}/**/*.antt", recursive=True))
    yield from sorted(glob.glob("crates/*/src/**/*.rt", recursive=True))


def declared():
    """Names that lemma files and specs declare, each with the files, and those that are fields of a record."""
    names, fields = collections.defaultdict(set), set()
    for path in files():
        if not path.endswith(".antt") or OF_A_FUNCTION.search("/" + path):
            continue
        with open(path, encoding="utf-8") as f:
            text = COMMENT.sub("", f.read())
        inside = False
        for line in text.split("\n"):
            if re.match(r"(pub )?record\b", line):
                inside = True
            elif line and not line.startswith(" "):
                inside = False
            found = DECLARED.match(line)
            if found:
                names[found[2]].add(path)
                if inside and found[1]:
                    fields.add(found[2])
    return names, fields


def fresh_table():
    names, _ = declared()
    turned = {n for n in names if re.match(r"[a-z]", n) and snake(n) != n}
    met = collections.defaultdict(list)
    for name in names:
        met[snake(name)].append(name)
    for name in sorted(turned):
        new = snake(name)
        if len(met[new]) > 1 and "-" in name:
            new += "_lem"
        print(f"{name}\t{new}")


def table():
    rows = []
    with open(os.path.join(HERE, "respell.tsv"), encoding="utf-8") as f:
        for line in f:
            if line.strip() and not line.startswith("#"):
                old, new, *where = line.rstrip("\n").split("\t")
                rows.append((old, new, where[0].split(",") if where else None))
    return rows


def turn_words(text, words, fields, keep_behind_dots):
    def turned(m):
        name = m[2]
        if name not in words or (keep_behind_dots and m[1] == "." and name not in fields):
            return m[0]
        return m[1] + words[name]

    return re.sub(r"(^|.)(?<![^\s(){}.;,@\"«»])(" + NAME + ")", turned, text, flags=re.S)


def turn_antt(text, words, fields, own):
    camel = {a: b for a, b in words.items() if "-" not in a}
    out, at = [], 0
    for m in COMMENT.finditer(text):
        out.append(turn_words(text[at : m.start()], words, fields, own))
        out.append(re.sub(r"[\w'-]+", lambda w: camel.get(w[0], w[0]), m[0]))
        at = m.end()
    out.append(turn_words(text[at:], words, fields, own))
    return "".join(out)


def turn_rt(text, words):
    camel = {a: b for a, b in words.items() if "-" not in a}
    lines = []
    for line in text.split("\n"):
        if re.match(r"\s*//", line):
            lines.append(re.sub(r"[\w'-]+", lambda w: camel.get(w[0], w[0]), line))
        elif re.search(r"\b(ghost|requires|ensures)\b", line) or re.search(r"[λ≡∷→×≤]", line):
            lines.append(turn_words(line, words, set(), False))
        else:
            lines.append(line)
    return "\n".join(lines)


def main():
    if sys.argv[1:] == ["--table"]:
        fresh_table()
        return
    rows = table()
    _, fields = declared()
    for path in files():
        crate = path.split("/")[1]
        words = {old: new for old, new, where in rows if where is None or crate in where}
        own = bool(OF_A_FUNCTION.search("/" + path))
        with open(path, encoding="utf-8") as f:
            text = f.read()
        if own:
            # what the file answers is named by the prover
            answers = {m[2] for m in DECLARED.finditer(text) if re.search(r":\s*goal\.", text[m.end() - 1 : m.end() + 12])}
            words = {old: new for old, new in words.items() if old not in answers}
        if path.endswith(".rt"):
            # a row from one name in snake case to another is of a lemma, and src/ may have a function of that name
            words = {old: new for old, new in words.items() if snake(old) != old}
        new_text = turn_rt(text, words) if path.endswith(".rt") else turn_antt(text, words, fields, own)
        if new_text != text:
            with open(path, "w", encoding="utf-8") as f:
                f.write(new_text)


if __name__ == "__main__":
    main()
