#!/usr/bin/env python3
"""Brings the repository's own definitions and lemmas to the library's spelling, and the crate `log` to a name of its own.

usage: tools/respell.py     once, at the top of the repository, right after the kit's port.py

Types and facts are in upper camel case, other names in snake case; a dash stays where a lemma's name joins two names. respell.names has
each old name and the new one. Names in antt files, in clauses and ghost lines of sources, in edits, and between backticks in documents
are turned; strings, comments and code are left as they are, but for paths of the crate.
"""

import os
import re
import subprocess
import sys

HERE = os.path.dirname(os.path.realpath(__file__))
ROOT = os.path.dirname(HERE)
CRATE = ("log", "raft_log")  # the library has a crate `log`
WORD = re.compile(r"[^\s(){}\[\],;\"`]+")
GHOST = re.compile(r"^\s*(ghost|requires|ensures|also_|decreases|invariant)\b")


def read_names():
    with open(os.path.join(HERE, "respell.names"), encoding="utf-8") as f:
        return dict(line.rstrip("\n").split("\t") for line in f)


NAMES = read_names()


def fields():
    """The names that stand after a dot: fields of the repository's records."""
    found = set()
    for path in files((".antt",)):
        inside = False
        for line in read(path).split("\n"):
            if re.match(r"(pub )?record ", line):
                inside = True
            elif line and not line.startswith(" "):
                inside = False
            if inside:
                m = re.match(r"\s+(?:pub )?([^\s:]+) :", line)
                if m:
                    found.add(m.group(1))
    return found


def files(endings, folder="crates"):
    for here, dirs, names in os.walk(os.path.join(ROOT, folder)):
        dirs[:] = sorted(d for d in dirs if d not in ("out", ".git", "target"))
        for n in sorted(names):
            if n.endswith(endings):
                yield os.path.join(here, n)


def read(path):
    with open(path, encoding="utf-8") as f:
        return f.read()


def turn_word(word, members, modules=()):
    """A token, which may be a path: its head, what stands after a module, and members that are fields of the repository's records."""
    if word in NAMES:
        return NAMES[word]
    parts = re.split(r"(\.)", word)
    for i, p in enumerate(parts):
        if p in NAMES and (i == 0 or p in members or (i == 2 and parts[0] in modules)):
            parts[i] = NAMES[p]
    return "".join(parts)


def turn(text, members, modules=()):
    return WORD.sub(lambda m: turn_word(m.group(), members, modules), text)


def turn_antt(text, members):
    modules = set(re.findall(r"(?m)^use [^{\n]* as (\w+)", text)) - {"goal", "given"}
    out = []
    for line in text.split("\n"):
        code, dashes, comment = line.partition("--")
        out.append(turn(code, members, modules) + dashes + turn_quoted(comment, members))
    return "\n".join(out)


def turn_quoted(text, members):
    return re.sub(r"`[^`\n]*`", lambda m: "`" + turn(m.group()[1:-1], members) + "`", text)


def turn_source(text, members):
    """Clauses and ghost lines; a clause goes on to the brace that closes it."""
    out, depth = [], 0
    for line in text.split("\n"):
        if depth > 0 or GHOST.match(line):
            depth += line.count("{") - line.count("}")
            out.append(turn(line, members))
        else:
            depth = 0
            code, slashes, comment = line.partition("//")
            out.append(code + slashes + turn_quoted(comment, members))
    return "\n".join(out)


def rename_crate(text):
    old, new = CRATE
    text = re.sub(rf"\bRattle\.{old}\.", f"Rattle.{new}.", text)
    text = re.sub(rf"\buse {old}::", f"use {new}::", text)
    return re.sub(rf"(?<![\w:.]){old}::", f"{new}::", text)


def write(path, text):
    with open(path, "w", encoding="utf-8") as f:
        f.write(text)


def main():
    members = fields()
    for path in files((".antt",)):
        write(path, rename_crate(turn_antt(read(path), members)))
    for path in files((".rt",)):
        write(path, rename_crate(turn_source(read(path), members)))
    for path in files((".edit",)):
        write(path, rename_crate(turn(read(path), members)))
    old, new = CRATE
    lines = []
    for line in read(os.path.join(ROOT, "crates.txt")).split("\n"):
        lines.append(re.sub(rf"(?<![\w]){old}(?![\w])", new, line))
    write(os.path.join(ROOT, "crates.txt"), "\n".join(lines))
    if os.path.isdir(os.path.join(ROOT, "crates", old)):
        os.rename(os.path.join(ROOT, "crates", old), os.path.join(ROOT, "crates", new))
    for path in [os.path.join(ROOT, "README.md"), *files((".md",), "docs")]:
        write(path, turn_quoted(read(path), members))


if __name__ == "__main__":
    sys.exit(main())
