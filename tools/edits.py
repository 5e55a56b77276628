"""The wrong answers that stand in crates/NAME/must-fail/*.edit, and what each of them changes.

A file whose changes are one wrong answer is named for it. A file may hold several, of different functions or definitions, which are then checked in one go: each of
them begins with a comment line that is its name in small letters, or its name, a colon and what is wrong.
"""
import re
from pathlib import Path
from typing import NamedTuple

from declarations import declarations

TOP = Path(__file__).resolve().parent.parent


def stand_on(folder):
    """The tree that is looked at, where it is not this one."""
    global TOP
    TOP = folder


class Change(NamedTuple):
    file: str
    old: str
    new: str


class Touched(NamedTuple):
    """A function that a change touches: its name, its text from the name on, and whether its contract is touched."""
    name: str
    text: str
    contract: bool


class WrongAnswer(NamedTuple):
    name: str
    changes: list


def wrong_answers(edit):
    """The wrong answers of one file, in order."""
    answers, file, old = [WrongAnswer(edit.stem, [])], "", ""
    for line in edit.read_text().split("\n"):
        if named := re.fullmatch(r"-- ([a-z0-9_]+)(: .*)?", line):
            answers.append(WrongAnswer(named[1], []))
        elif line.startswith("file: "):
            file = line.removeprefix("file: ")
        elif line.startswith("old: "):
            old = line.removeprefix("old: ")
        elif line.startswith("new:"):
            answers[-1].changes.append(Change(file, old, line.removeprefix("new:").removeprefix(" ")))
    return [answer for answer in answers if answer.changes]


def edits(crate):
    return sorted((TOP / "crates" / crate / "must-fail").glob("*.edit"))


def crates():
    return sorted(path.parent.name for path in (TOP / "crates").glob("*/must-fail"))


def count(crate):
    return sum(len(wrong_answers(edit)) for edit in edits(crate))


def line_of(crate, change):
    """The number of the line in which a change begins, or 0 where its text is not there."""
    path = TOP / "crates" / crate / change.file
    text = path.read_text() if path.is_file() else ""
    return 1 + text[: text.index(change.old)].count("\n") if change.old in text else 0


def declared(crate, file):
    return declarations((TOP / "crates" / crate / file).read_text().split("\n"), Path(file).suffix)[0]


def in_code(crate, answer):
    """What a wrong answer changes of the code: declarations, each with its file and the number of the line. Imports and comments are none."""
    found = []
    for change in answer.changes:
        line = line_of(crate, change)
        if change.file.startswith("src/") and line:
            found += [(change.file, there, line) for there in declared(crate, change.file) if there.line <= line <= there.last]
    return found


def touched(crate, answer):
    """The functions that a wrong answer changes."""
    found = []
    for file, there, line in in_code(crate, answer):
        if there.kind == "function":
            text = "\n".join((TOP / "crates" / crate / file).read_text().split("\n")[there.line - 1 : there.last])
            found.append(Touched(there.name, text[text.index(there.name) + len(there.name) :], line < there.line + len(there.head)))
    return found


def apart(crate, answers):
    """Whether no refusal of one of these wrong answers could be another's: each is of one function, no two are of the same, and none is of a function that calls
    one whose contract another changes."""
    each = [touched(crate, answer) for answer in answers]
    names = [{function.name for function in functions} for functions in each]
    return all(len(one) == 1 for one in names) and len(set.union(*names)) == len(answers) and not any(
        function.contract and function.name != other.name and re.search(rf"(?<![\w:]){function.name}\(", other.text)
        for functions in each for function in functions for others in each for other in others
    )
