#!/usr/bin/env python3
"""Brings the names of definitions and lemmas to snake case.

Usage: python3 tools/respell.py        at the top of the repository, once, right after the toolchain's port.py

A name is respelled where specs/ or proofs/ of a crate define it: valueFrom and value-from become value_from. A type keeps its
capitals and loses a hyphen: Part-of becomes PartOf. Names that the toolchain makes (those of goals and of what is known at a goal)
stay. Of a source file only the clauses and the imports of ghost names are touched; names of functions, strings, inputs and
outputs stay. Documents are respelled where they have a name alone between backticks.

A name with a hyphen whose new form is a word of specs/ or proofs/ already gets _lem after it. The script stops before it writes
anything if two other names would fall together, or if the new form of one is there already.
"""

import collections
import pathlib
import re
import sys

NAME = r"[^\s:(){}\[\];,|λ=.`]+"
SIGNATURE = re.compile(r"^(\s*)(?:(?:abbrev|unfoldable|pub) )*(" + NAME + r") : (.*)$")
TOKEN = re.compile(r"(?<![\w.'-])[A-Za-z][\w'-]*")
ALIAS = re.compile(r"\bas ([a-z][a-z0-9]*[A-Z]\w*)")


def snake(name):
    if name[0].isupper():
        return "".join(part[0].upper() + part[1:] for part in name.split("-"))
    return re.sub(r"(?<=[a-z0-9])([A-Z])", r"_\1", name).replace("-", "_").lower()


def is_old(name):
    return name[0].isalpha() and ("-" in name or (name[0].islower() and name != snake(name)))


def text_of(path):
    return path.read_text(encoding="utf-8")


def own_names(antt):
    names = set()
    for path in antt:
        for line in text_of(path).splitlines():
            found = SIGNATURE.match(line)
            if found and is_old(found[2]) and not found[3].startswith("goal."):
                names.add(found[2])
    return names


def code_of(line):
    """The part of a line before its comment."""
    return line.split("-- ")[0] if not line.lstrip().startswith("--") else ""


def in_antt(text, turn):
    lines = []
    for line in text.split("\n"):
        code = code_of(line)
        if re.match(r"use Rattle\.(std|core)\b", code):
            lines.append(line)
        else:
            lines.append(TOKEN.sub(lambda m: turn.get(m[0], m[0]), code) + line[len(code):])
    return "\n".join(lines)


def in_source(text, turn):
    """Clauses and ghost imports. A clause goes on until its braces are closed."""
    turn = dict(turn)
    for alias in ALIAS.findall("\n".join(l for l in text.split("\n") if l.startswith("ghost use"))):
        turn[alias] = snake(alias)
    lines, depth = [], 0
    for line in text.split("\n"):
        begins = re.match(r"\s*(requires|ensures|ghost)\b", line)
        if depth > 0 or begins:
            line = TOKEN.sub(lambda m: turn.get(m[0], m[0]), line)
            depth = max(depth + line.count("{") - line.count("}"), 0)
        lines.append(line)
    return "\n".join(lines)


def in_document(text, turn):
    return re.sub(r"`([^`\n]+)`", lambda m: "`" + turn.get(m[1], m[1]) + "`", text)


def main():
    crates = pathlib.Path("crates")
    antt = sorted(p for p in crates.rglob("*.antt") if "out" not in p.parts)
    source = sorted(p for p in crates.rglob("*.rt") if "out" not in p.parts)
    documents = [pathlib.Path("README.md")] + sorted(p for p in pathlib.Path("docs").glob("*.md") if p.name != "PORT.md")
    there = set()
    for path in antt:
        there |= {t for line in text_of(path).split("\n") for t in TOKEN.findall(code_of(line))}
    olds = own_names(antt)
    functions = {snake(name) for name in olds if "-" not in name} | there
    turn = {}
    for name in sorted(olds):
        lemma = "-" in name and snake(name) in functions
        turn[name] = snake(name) + ("_lem" if lemma else "")
    together = collections.Counter(turn.values())
    bad = [f"{old} would be {new}, which is there" for old, new in turn.items() if together[new] > 1 or new in there]
    if bad:
        print("\n".join(bad))
        return 1
    changed = 0
    for paths, respell in ((antt, in_antt), (source, in_source), (documents, in_document)):
        for path in paths:
            old = text_of(path)
            new = respell(old, turn)
            if new != old:
                path.write_text(new, encoding="utf-8")
                changed += 1
    print(f"{len(turn)} names, {changed} files")
    return 0


if __name__ == "__main__":
    sys.exit(main())
