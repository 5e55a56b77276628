#!/usr/bin/env python3
"""Moves files of theorems from a crate's specs/ to its proofs/, with the files of its specs/ that rest on them.

usage: tools/move-theorems.py [--tell] CRATE FILE..     FILE without .antt; --tell names the files that would go, and moves none

Paths in all crates, the crate's Lib.antt files and the `file:` lines of its must-fail edits follow. A file that has a definition which a contract cites has to be
split first, so that the definition stays: the ones that .rt files import are told.
"""
import os
import re
import sys

TOP = os.path.dirname(os.path.dirname(os.path.abspath(__file__)))


def read(path):
    with open(path, encoding="utf-8") as it:
        return it.read()


def write(path, text):
    with open(path, "w", encoding="utf-8") as it:
        it.write(text)


def with_users(folder, crate, wanted):
    """The files wanted and those of the same specs/ that import one of them, one after another."""
    imports = {f[:-5]: set(re.findall(rf"Rattle\.{crate}\.specs\.(\w+)", read(f"{folder}/specs/{f}"))) for f in os.listdir(f"{folder}/specs") if f != "Lib.antt"}
    found, size = set(wanted), 0
    while size != len(found):
        size = len(found)
        found |= {name for name, used in imports.items() if used & found}
    return sorted(found)


def main(argv):
    tell = argv[:1] == ["--tell"]
    crate, *wanted = argv[tell:]
    folder = f"{TOP}/crates/{crate}"
    moving = with_users(folder, crate, wanted)
    path = re.compile(rf"Rattle\.{crate}\.specs\.({'|'.join(moving)})(?!\w)")
    print(" ".join(moving))
    for here, folders, files in os.walk(f"{TOP}/crates"):
        folders[:] = [f for f in folders if f != "out"]
        for file in files:
            if not file.endswith((".antt", ".rt", ".edit")):
                continue
            text = read(f"{here}/{file}")
            if file.endswith(".rt") and path.search(text):
                print(f"cited by a contract: {', '.join(m[0] for m in path.finditer(text))} in {os.path.relpath(here, TOP)}/{file}")
            new = path.sub(rf"Rattle.{crate}.proofs.\1", text)
            if file.endswith(".edit") and here.startswith(folder + "/"):
                new = re.sub(rf"(?m)^file: specs/({'|'.join(moving)})\.antt$", r"file: proofs/\1.antt", new)
            if new != text and not tell:
                write(f"{here}/{file}", new)
    if tell:
        return
    os.makedirs(f"{folder}/proofs", exist_ok=True)
    for name in moving:
        os.rename(f"{folder}/specs/{name}.antt", f"{folder}/proofs/{name}.antt")
    lines = read(f"{folder}/specs/Lib.antt").split("\n")
    write(f"{folder}/specs/Lib.antt", "\n".join(line for line in lines if line.removeprefix("pub mod ") not in moving))
    node = f"{folder}/proofs/Lib.antt"
    write(node, (read(node) if os.path.exists(node) else "") + "".join(f"pub mod {name}\n" for name in moving))


main(sys.argv[1:])
