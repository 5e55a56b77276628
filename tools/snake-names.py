#!/usr/bin/env python3
"""Spells this repository's own definitions and lemmas in snake case, by the table snake-names.tsv beside this file.

usage: tools/snake-names.py [FOLDER]     turns every .antt and .rt file below FOLDER/crates (default: .), once, right after the toolchain's port.py

A row of the table: the old name, a tab, the new one, and `field` where a record's field or a constructor may be meant, which is written behind a dot.
Turned are whole words of the code of .antt files and of the clauses and imports of .rt files, and of the code spans of comments. A name that a file imports from
the toolchain's library stays in that file; a name that is spelled as a Rust identifier stays in .rt files and in paths; in the folder of a function's proof a word
behind a dot turns only where it is a field.
"""
import os
import re
import sys

HERE = os.path.dirname(os.path.abspath(__file__))
WORD = re.compile(r"[^\s(){}.;,@\"«»]+")
RUST_WORD = re.compile(r"[^\s(){}.;,@\"«»:&<>\[\]*!?=|]+")
QUIET = re.compile(r'"(?:[^"\\\n]|\\.)*"|(?<![^\s(){}.;,@"«»])--[^\n]*|\{-.*?-\}', re.S)
RUST_QUIET = re.compile(r'//[^\n]*|"(?:[^"\\\n]|\\.)*"')
SPAN = re.compile(r"`[^`\n]*`")
USE = re.compile(r"\buse ([^\s;{]+?)(?:\.?\{([^;}]*)\})?(?: as ([^\s;]+))?(?=;|\s*$)", re.M)
PATH = re.compile(r"\buse [^\s;{]*")
CHAIN = re.compile(r"(?<![^\s(){};,@\"«»])([^\s(){};,@\"«»]*)\.$")
LIBRARIES = ("native", "mathlib", "lib", "Prim", "borrow", "seplogic")
IDENTIFIER = re.compile(r"[a-z_0-9]+")

table, fields = {}, set()
with open(os.path.join(HERE, "snake-names.tsv"), encoding="utf-8") as rows:
    for row in rows:
        words = row.rstrip("\n").split("\t")
        table[words[0]] = words[1]
        if len(words) > 2:
            fields.add(words[0])


def imported(text, own):
    """What a file takes from the library: names, and modules, which stand in a set of their own."""
    found, modules = set(), set()
    for use in USE.finditer(text):
        path = use[1].split(".")
        if path[0] == "Rattle" and len(path) > 1 and path[1] in own:
            continue
        if use[2] is None:
            modules.add(use[3] or path[-1])
        for item in (use[2] or "").split(","):
            for name in item.split(" as "):
                found.add(name.strip())
    return found, modules


def turn_words(text, word, own, stays, modules, walk, rust):
    paths = [m.span() for m in PATH.finditer(text)]

    def turn(m):
        name = m[0]
        if m.start() and text[m.start() - 1] == "." and not any(a <= m.start() < b for a, b in paths):
            line = text[text.rfind("\n", 0, m.start()) + 1 : m.start()]
            head = CHAIN.search(line)[1]
            root = head.split(".")[0]
            if root in modules or root in LIBRARIES or head.startswith("Rattle.") and head.split(".")[1] not in own:
                return name
            dotted = name.replace("-", "·")
            if name not in fields and dotted in fields:
                return table[dotted]
            if name not in table or walk and name not in fields:
                return name
        elif name not in table or name in stays:
            return name
        if IDENTIFIER.fullmatch(name) and (rust or any(a <= m.start() < b for a, b in paths)):
            return name
        return table[name]

    return word.sub(turn, text)


def turned(path, text, own):
    rust = path.endswith(".rt")
    quiet, word = (RUST_QUIET, RUST_WORD) if rust else (QUIET, WORD)
    walk = bool(re.search(r"/proofs/[^/]+/", path))
    stays, modules = imported(text, own)
    out, at = [], 0
    for m in quiet.finditer(text):
        out.append(turn_words(text[at : m.start()], word, own, stays, modules, walk, rust))
        still = m[0]
        if not still.startswith('"'):
            still = SPAN.sub(lambda s: turn_words(s[0], re.compile(r"[^\s(){}.;,@\"«»`]+"), own, stays, modules, walk, rust), still)
        out.append(still)
        at = m.end()
    out.append(turn_words(text[at:], word, own, stays, modules, walk, rust))
    return "".join(out)


def main(argv):
    root = os.path.join(argv[0] if argv else ".", "crates")
    own = set(os.listdir(root))
    count = 0
    for folder, folders, files in os.walk(root):
        folders[:] = sorted(f for f in folders if f not in ("out", ".git"))
        for file in sorted(files):
            if not file.endswith((".antt", ".rt")):
                continue
            path = os.path.join(folder, file)
            with open(path, encoding="utf-8") as it:
                text = it.read()
            new = turned(path, text, own)
            if new != text:
                with open(path, "w", encoding="utf-8") as it:
                    it.write(new)
                count += 1
    print(f"{count} files turned")


main(sys.argv[1:])
