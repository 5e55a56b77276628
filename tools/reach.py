"""What a line of a crate's theory, or a proof of its code, rests on, by names: it tells which wrong definition a refused line is due to.

Blank lines part the declarations. A declaration rests on each one of its file, or of those that its file takes from the crate's other files, that its words or the
heads of the modules that it stands in name, or name a part of where that is an operator, and on what those rest on; declarations of one name count together, so that
none is left out. A case, which is a field of a record of cases, rests on what its own statement names. A function rests on what its contract and its own proof name.
"""
import re
from collections import defaultdict

WORD = re.compile(r"[^\s(){}\[\],;.λ\"|]+")
NAMED = re.compile(r"\s*(?:(?:pub|unfoldable|abbrev)\s+)*(?:([^\s(){}:=]+) :|(?:record|data) ([^\s(){}:=]+)) ")
RECORD = re.compile(r"\s*(?:pub )?record ")
CASE, PROVED = re.compile(r"  pub ([^\s:]+) : (.*)"), re.compile(r"  ([^\s:=]+) = ")


def parts(name):
    """A name and, where it is an operator's, the words between its places."""
    return {name, *name.split("◌")} - {""}


class Reach:
    """Of the files of a crate's specs/, and of its proofs/ where `all`; each by its path in the crate."""

    def __init__(self, crate, all=False):
        self.texts, self.files, self.heads, self.number, self.lines, self.case, self.cases = [], [], [], {}, {}, {}, {}
        taken = defaultdict(list)
        own = re.compile(rf"(?:pub )?use Rattle\.{crate.name}\.(specs|proofs)\.(\w+)(?:\.\{{(.*)\}})?")
        for path in [*sorted(crate.glob("specs/*.antt")), *(sorted(crate.glob("proofs/*.antt")) if all else ())]:
            start, case, file, modules, head, record = True, None, str(path.relative_to(crate)), [], False, None
            for line, text in enumerate(path.read_text().split("\n"), 1):
                depth = len(text) - len(text.lstrip())
                if not text.strip():
                    start = True
                elif found := own.match(text):
                    taken[file].append((f"{found[1]}/{found[2]}.antt", found[3]))
                elif not re.match(r"(?:pub )?use |\s*--", text):
                    if start:
                        self.texts.append("")
                        self.files.append(file)
                        modules = [(indent, above) for indent, above in modules if indent < depth]
                        self.heads.append("\n".join(above for _, above in modules))
                    if text.lstrip().startswith("module "):
                        modules, head = [(indent, above) for indent, above in modules if indent < depth] + [(depth, "")], True
                    if head:
                        modules[-1] = modules[-1][0], modules[-1][1] + text + "\n"
                        self.heads[-1] += "\n" + text
                        head = not text.rstrip().endswith(" where")
                    start = False
                    self.texts[-1] += text + "\n"
                    self.number[file, line] = len(self.texts) - 1
                    self.lines[file, line] = text
                    if RECORD.match(text):
                        record = depth
                    elif record is not None and depth <= record:
                        record = None
                    if record is not None and (found := CASE.match(text)):
                        case = file, found[1]
                        self.cases[case] = found[2]
                    elif case and text.startswith("   "):
                        self.cases[case] += "\n" + text
                    else:
                        case = None
                    self.case[file, line] = case
        declared = defaultdict(lambda: defaultdict(set))
        for number, declaration in enumerate(self.texts):
            for found in filter(None, map(NAMED.match, declaration.split("\n"))):
                for part in parts(found[1] or found[2]):
                    declared[self.files[number]][part].add(number)
        self.known = {file: {word: set(numbers) for word, numbers in declared[file].items()} for file in {*self.files}}
        for file, uses in taken.items():
            for other, names in uses:
                words = declared[other] if names is None else set().union(*(parts(name.split(" as ")[0].strip()) for name in names.split(",")))
                for word in words:
                    self.known[file].setdefault(word, set()).update(declared[other].get(word, set()))
        self.named = [self.names(file, f"{head}\n{declaration}") for file, head, declaration in zip(self.files, self.heads, self.texts)]

    def names(self, file, text):
        return set().union(*(self.known[file].get(word, set()) for word in WORD.findall(text)))

    def changed(self, file, line):
        """What changes with a line: the number of the declaration that it is part of, and the case if it is part of one; nothing where it is part of neither."""
        return {self.number.get((file, line)), self.case.get((file, line))} - {None}

    def reached(self, file, line):
        """What a line rests on: the numbers of declarations, and the case that it proves if it proves one."""
        proved = PROVED.match(self.lines.get((file, line), ""))
        if proved and (file, proved[1]) in self.cases:
            seen, todo = {(file, proved[1])}, self.names(file, self.cases[file, proved[1]])
        else:
            seen, todo = set(), {self.number.get((file, line))} - {None}
        return self.closed(seen, todo)

    def reached_by(self, text):
        """What a text outside the specs rests on: whatever its words name in any of their files."""
        return self.closed(set(), set().union(*(self.names(file, text) for file in self.known)))

    def closed(self, seen, todo):
        while todo:
            number = todo.pop()
            seen.add(number)
            todo |= self.named[number] - seen
        return seen
