"""The declarations of a file of antt or of Rattle, each whole, with the modules that it stands in.

A declaration of antt is a signature and its clauses, or a record or a data type with all that is indented below it; one of Rattle is a function's head with its
contract, or a type or a constant. Module heads whose parameters hold for what stands in them are kept with it.
"""
import re
from typing import NamedTuple

MARKS = re.compile(r"(?:(?:pub|abbrev|unfoldable|axiom)\s+)*")
SIGNATURE = re.compile(r"((?:(?:pub|abbrev|unfoldable|axiom)\s+)*)([^\s(){}:=;,\"]+)(?:\s+\{[^}:]*\})? :(?:\s|$)")
TYPE = re.compile(r"((?:(?:pub|abbrev|unfoldable)\s+)*)(?:record|data) ([^\s(){}:=;,\"]+)")
OTHER = re.compile(r"(?:use|open|infix|infixl|infixr|ruleset|mutual|pub mod|pub use)(?:\s|$)")
RATTLE = re.compile(r"(?:pub )?(?:extern \"C\" )?(fn|struct|enum|const|type|mod|impl|trait)\b(?:<[^>]*>)? ?(\w+)?")
WORD = re.compile(r"[^\s(){}\[\],;.λ\"|]+")


class Declaration(NamedTuple):
    name: str
    kind: str  # signature, type, function or item
    marks: str
    head: list  # its lines: a signature, a contract, or all of a type
    clauses: list
    modules: tuple  # the heads, from the outermost on, of the modules with parameters that it stands in
    line: int  # the number of its first line
    last: int


def indent(line):
    return len(line) - len(line.lstrip())


def squeezed(text):
    return re.sub(r"\s", "", text)


def unmarked(text):
    return text[MARKS.match(text).end() :]


def extent(lines, first):
    """The number of the line after an item: the lines that are indented deeper than its first belong to it, and one that closes its brackets."""
    end = at = first + 1
    while at < len(lines) and (not lines[at].strip() or indent(lines[at]) > indent(lines[first]) or re.match(r"\s*[)}]", lines[at])):
        at += 1
        if lines[at - 1].strip():
            end = at
    return end


def of_antt(lines):
    """The declarations, and the numbers of lines that are clauses of none."""
    found, strays, modules, at, last = [], [], [], 0, None
    while at < len(lines):
        text, depth = lines[at].strip(), indent(lines[at])
        if not text or text.startswith("--"):
            at += 1
            continue
        while modules and depth <= modules[-1][0]:
            modules.pop()
            last = None
        if re.match(r"module\b", text):
            end = at + 1
            while not lines[end - 1].rstrip().endswith(" where") and end < len(lines):
                end += 1
            modules.append((depth, " ".join(" ".join(lines[at:end]).split())))
            last = None
        elif OTHER.match(text):
            end = at + 1 if text.startswith("mutual") else extent(lines, at)
            last = None
        else:
            end = extent(lines, at)
            heads = tuple(head for _, head in modules if "(" in head or "{" in head)
            if signature := SIGNATURE.match(text) or TYPE.match(text):
                kind = "type" if TYPE.match(text) else "signature"
                found.append(Declaration(signature[2], kind, signature[1], lines[at:end], [], heads, at + 1, end))
                last = depth if kind == "signature" else None
            elif last == depth:
                found[-1].clauses.extend(lines[at:end])
                found[-1] = found[-1]._replace(last=end)
            else:
                strays.append(at + 1)
        at = end
    return found, strays


def of_rattle(lines):
    found, strays, at = [], [], 0
    while at < len(lines):
        text = lines[at].strip()
        item = RATTLE.match(text)
        if not item:
            if text and not re.match(r"//|ghost|use|pub use|#|\}|\{", text):
                strays.append(at + 1)
            at += 1
            continue
        end = at + 1
        if item[1] in ("mod", "impl", "trait") and text.endswith("{"):
            at = end
            continue
        if item[1] == "fn":
            while end < len(lines) and lines[end - 1].strip() and not lines[end].startswith(" " * indent(lines[at]) + "{") and not lines[end - 1].endswith(("{", ";")):
                end += 1
            head, body = lines[at:end], end
            if head[-1].endswith("{"):
                head = head[:-1] + [head[-1][:-1].rstrip()]
            if body < len(lines) and lines[body].strip() == "{" or lines[body - 1].endswith("{"):
                while body < len(lines) and lines[body].rstrip() != " " * indent(lines[at]) + "}":
                    body += 1
                body += 1
            while not head[-1].strip():
                head = head[:-1]
            # a method that a trait declares ends with its contract
            head = head[:-1] + [head[-1].rstrip().removesuffix(";")]
            found.append(Declaration(item[2], "function", "", head, [], (), at + 1, body))
            at = body
        else:
            while end < len(lines) and not re.search(r"[;}]$", lines[end - 1].strip()) or end < len(lines) and indent(lines[end - 1]) > indent(lines[at]):
                end += 1
            found.append(Declaration(item[2], "item", "", lines[at:end], [], (), at + 1, end))
            at = end
    return found, strays


def declarations(lines, suffix):
    return of_rattle(lines) if suffix == ".rt" else of_antt(lines)
