#!/usr/bin/env python3
"""The theorems that stood in specs/ at a commit and stand in proofs/ today, whole, by crate and file; and what is not as it was.

usage: tools/theorems-since.py COMMIT CRATE..

A public theorem is printed with its statement, below the heads of the modules whose parameters hold for it; of a private one the name. It fails where a declaration
of the commit is gone, or is private that was public, and tells on the other output each whose words differ (of a theorem its statement, of a definition its clauses
too), or whose modules' heads do, and each that is new.
"""
import re
import subprocess
import sys
from collections import defaultdict
from pathlib import Path

from declarations import declarations, squeezed, unmarked

TOP = Path(__file__).resolve().parents[1]


def git(*words):
    return subprocess.run(["git", *words], cwd=TOP, capture_output=True, text=True, check=True).stdout


def statement(declaration):
    return unmarked(" ".join(line.strip() for line in declaration.head))


def words(declaration):
    return squeezed(statement(declaration) + ("" if theorem(declaration) else " ".join(declaration.clauses)))


def heads(declaration):
    return [squeezed(head) for head in declaration.modules]


def theorem(declaration):
    return declaration.kind == "signature" and not re.search("abbrev|unfoldable", declaration.marks)


def of(text):
    return declarations(text.split("\n"), ".antt")[0]


def before(commit, crate):
    """The files of specs/ at the commit, each with its declarations."""
    for path in git("ls-tree", "-r", "--name-only", commit, f"crates/{crate}/specs").split():
        if path.endswith(".antt") and not path.endswith("Lib.antt"):
            yield path.split("/", 2)[2], of(git("show", f"{commit}:{path}"))


def today(crate):
    """Where the declarations of each name stand today."""
    found = defaultdict(list)
    for folder in ("specs", "proofs"):
        for path in sorted((TOP / "crates" / crate / folder).glob("*.antt")):
            for declaration in of(path.read_text()) if path.name != "Lib.antt" else ():
                found[declaration.name].append((f"{folder}/{path.name}", declaration))
    return found


def main(commit, *crates):
    gone = 0
    for crate in crates:
        there, used, moved, hidden = today(crate), set(), defaultdict(list), defaultdict(list)
        for file, declared in before(commit, crate):
            for one in declared:
                near = sorted(there[one.name], key=lambda other: (words(other[1]) != words(one), heads(other[1]) != heads(one), (other[0], other[1].line) in used, other[0].split("/")[1] != file.split("/")[1]))
                if not near:
                    print(f"{crate}/{file}: {one.name} is gone", file=sys.stderr)
                    gone += 1
                    continue
                place, other = near[0]
                used.add((place, other.line))
                if "pub" in one.marks and "pub" not in other.marks:
                    print(f"{crate}/{file}: {one.name} is private", file=sys.stderr)
                    gone += 1
                if words(other) != words(one) or heads(other) != heads(one):
                    print(f"{crate}/{file}: {one.name} differs: {' '.join(one.modules)} {statement(one)} / {' '.join(other.modules)} {statement(other)}", file=sys.stderr)
                if place.startswith("proofs/") and theorem(one):
                    (moved if "pub" in other.marks else hidden)[file, place].append(other)
        for name, places in there.items():
            for place, other in places:
                if (place, other.line) not in used:
                    print(f"{crate}/{place}: {name} is new: {statement(other)}", file=sys.stderr)
        print(f"\n### `{crate}`")
        for file, place in sorted({*moved, *hidden}):
            print(f"\n{file}, now {place}:\n")
            above = ()
            for one in moved[file, place]:
                shared = 0
                while shared < min(len(above), len(one.modules)) and above[shared] == one.modules[shared]:
                    shared += 1
                for depth, head in enumerate(one.modules[shared:], shared):
                    print("    " + "  " * depth + head)
                above = one.modules
                print("    " + "  " * len(above) + statement(one))
            if hidden[file, place]:
                names = ", ".join(f"`{name}`" for name in dict.fromkeys(one.name for one in hidden[file, place]))
                print(("\n" if moved[file, place] else "") + f"and, private, {names}.")
    sys.exit(gone > 0)


main(*sys.argv[1:])
