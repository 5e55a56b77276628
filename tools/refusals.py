"""What the prover said of a must-fail edit: its errors and open goals, and which of them are refusals at a fact.

At a fact: a goal of the code is not proved, two types, sides or values differ, `omega` has numbers at which a goal fails, `search`, `grind` or `cc` finds no proof, `rw` finds
nothing to rewrite, or it or `simp` leaves something open. Of shape is whatever else the prover says of a text that it cannot read or that does not fit: no expression
where one is expected, a name that is not in scope, a tuple or a part of one where the type has none. So is an equation where an order is wanted, or an order for an
equation. Neither is an error that only says that something else was not admitted or was rejected, which passes another one on, nor one of a name that a proof has of
the code as it was, since Rattle makes such names from the code's text, so that `x < 3` and `x < 4` have others: it shows nothing of a wrong answer.

Refusals reads the whole of what a check said; Told reads what rt ci and rt must-fail say of each edit: one line, with the first of these alone.
"""
import re
from typing import NamedTuple

AT = r"(?:\./)?(\S+?):(\d+):\d+: "
ERROR = re.compile(rf"^{AT}error(?:\[[\w-]+\])?: (?:`([^`]*)`: )?(.*(?:\n  .*)*)", re.M)
GOAL = re.compile(rf"^note: {AT}(it is not proved that .*)", re.M)
TREE = re.compile(r"(?:^|.*/)((?:src|specs|proofs)/.*)")
FACT = re.compile(
    r"as printed, the two (?:types|sides|values) "
    r"|computed as far as they go, the two (?:types|sides|values) "
    r"|expected type `"
    r"|`omega`: the (?:goal|part `[^`]*` of the goal) does not follow "
    r"|`(?:search|grind|cc)`: no proof of "
    r"|`(?:search|grind|cc|omega)`? gave up "
    r"|`rw`: no occurrence of "
    r"|give a proof of that as the last argument, `(?:rw|simp)"
)
GONE = re.compile(r"`[^`]*`(?:: module `[^`]*`)? (?:has no field|has no `|is not in scope)|(?:record|module) `[^`]*` has no ")
WHOLE = re.compile(
    r"the two types are `([^`]*)` \(expected\) and `([^`]*)` \(found\)"
    r"|one has `([^`]*)` \(expected\), at the start, and the other has `([^`]*)` \(found\)"
)
EQUATION, ORDER = re.compile(r"(?:\S*\.)?(?:Path|◌≡◌)(?=\s|$)"), re.compile(r"(?:\S*\.)?(?:◌≤◌|◌<◌)(?=\s|$)")
UNCLOSED = re.compile(r"^fn (\w+)::(?:\w+::)*(\w+): .*`search` did not prove ", re.M)
TOLD = re.compile(r"^(?:rt: )?must-fail (\w+)/([\w.-]+)\.edit: (.*)", re.M)
PLACE = re.compile(rf"refused, as it must be[^:]*: (?:note: )?{AT}")


class Error(NamedTuple):
    path: str  # below the crate's folder
    line: int
    said: str
    kind: str  # fact, shape, name or passed on

    @property
    def function(self):
        """The function whose own proof it is in."""
        found = re.fullmatch(r"proofs/(?:\w+/)*\+?(\w+)/\w+\.antt", self.path)
        return found and found[1]


def below(path):
    found = TREE.match(path)
    return found[1] if found else path


def other_relation(said):
    """Whether one of two types is an equation, or that there is none, and the other an order."""
    text = " ".join(said[max(0, said.find("computed as far as they go, the two types")) :].split())
    if not (found := WHOLE.search(text)):
        return False
    sides = [side for side in found.groups() if side]
    return any(EQUATION.match(one) and ORDER.match(other) for one, other in (sides, sides[::-1]))


def kind(path, said, code):
    first = said.split("\n")[0]
    if "was not admitted" in first or "which was rejected" in first:
        return "passed on"
    if code and path.startswith("proofs/") and GONE.search(first):
        return "name"
    return "fact" if FACT.match(said) and not other_relation(said) else "shape"


class Refusals:
    """By the log of a check; a crate of theory alone has no code that a proof could have names of."""

    def __init__(self, log, code=True):
        self.proved = not re.search(r"^logic=not-proved", log, re.M)
        self.errors = [Error(below(path), int(line), said.split("\n")[0], kind(below(path), said, code)) for path, line, _, said in ERROR.findall(log)]
        # what is left to prove of the code, at the line that asks for it
        self.errors += [Error(below(path), int(line), said, "fact") for path, line, said in GOAL.findall(log)]
        # A function that has no answers for some goals is proved by `search`.
        self.unclosed = {function for _, function in UNCLOSED.findall(log)}

    def facts(self):
        return [error for error in self.errors if error.kind == "fact"]

    def shapes(self):
        return [error for error in self.errors if error.kind == "shape"]


class Told:
    """What one line says of an edit: whether it was refused, what is wrong with that, and the place of the first refusal."""

    def __init__(self, said):
        self.fault, self.place = "", None
        if not said.startswith("refused, as it must be"):
            self.fault = f"rt says {said[:120]}"
        elif "only because a proof file names" in said:
            self.fault = "it is refused for a name alone that a proof file has"
        elif "which was rejected" in said or "was not admitted" in said:
            self.fault = "rt says of it only that something rests on what was refused elsewhere"
        elif at := PLACE.match(said):
            self.place = Error(below(at[1]), int(at[2]), "", "fact")
        self.by_limit = "only by a limit" in said


def told(log):
    """What a run of rt says of the edits, by crate and name."""
    return {(crate, name): Told(said) for crate, name, said in TOLD.findall(log)}
