"""Whether two lines of code, or of formal text, say the same in other words: operands exchanged where the order does not count, numbers worked out, a fact said twice.

It sees no more than that: a line that it takes for another may still mean the same, and whoever writes a wrong answer has to see that it is wrong.
"""
import re

CODE = re.compile(r"\d\w*|\w+(?:::\w+)*|<<|>>|<=|>=|==|!=|&&|\|\||=>|->|[-+*/%^|&]=|\S")
FORMAL = re.compile(r"[(){}\[\],;]|[^\s(){}\[\],;]+")
OPEN, CLOSE = "([{", ")]}"
PARTS = set("if else while let mut return match loop for in break continue => = += -= *= /= ; , : λ → ↔ ensures requires where".split())
# From the loosest on; in a class of which only the first is used, the order of operands does not count.
LEVELS = [["||"], ["&&"], ["×"], ["≡"], ["=="], ["!="], ["<", "<=", ">", ">=", "≤", "≥"], ["|"], ["^"], ["&"], ["<<", ">>"], ["++"], ["∷"], ["+", "-"], ["*", "/", "%"]]
ORDERED = ("++", "∷", "<", "<<")


def nested(tokens):
    """Tokens as a tree by their brackets; what is not closed ends with the line."""
    stack = [[]]
    for token in tokens:
        if token in OPEN:
            stack.append([token])
        elif token in CLOSE and len(stack) > 1:
            group = stack.pop()
            stack[-1].append(group)
        else:
            stack[-1].append(token)
    while len(stack) > 1:
        group = stack.pop()
        stack[-1].append(group)
    return stack[0]


def split(sequence, at):
    """The parts of a sequence between the tokens given, or between groups in braces where these are asked for."""
    parts, found = [[]], []
    for token in sequence:
        if token[0] == "{" if at == "{" else isinstance(token, str) and token in at:
            found.append(token)
            parts.append([])
        else:
            parts[-1].append(token)
    return parts, found


def flat(operator, forms):
    return [part for form in forms for part in (form[1:] if form[0] == operator else [form])]


def total(operator, forms):
    """A sum or a product with its numbers worked out, in an order of its own."""
    forms = flat(operator, forms)
    value = 0 if operator == "+" else 1
    for form in forms:
        if form[0] == "number":
            value = value + form[1] if operator == "+" else value * form[1]
    others = sorted((form for form in forms if form[0] != "number"), key=repr)
    if not others:
        return ("number", value)
    if value != (0 if operator == "+" else 1):
        others.append(("number", value))
    return others[0] if len(others) == 1 else (operator, *others)


def compared(operator, left, right):
    """An order relation as `at most`, with a number on one side at most."""
    if operator in (">", ">=", "≥"):
        left, right = right, left
    if operator in ("<", ">"):
        left = total("+", [left, ("number", 1)])
    numbers = [next((part[1] for part in flat("+", [side]) if part[0] == "number"), 0) for side in (left, right)]
    return ("≤", *(total("+", [side, ("number", -min(numbers))]) for side in (left, right)))


def form(sequence):
    parts, between = split(sequence, PARTS)
    if between:
        return ("parts", tuple(between), *(form(part) for part in parts))
    parts, between = split(sequence, "{")
    if between and len(sequence) > 1:
        return ("blocks", *(form(part) for part in parts), *(form([block]) for block in between))
    for level in LEVELS:
        parts, between = split(sequence, level)
        if not between or not all(parts):
            continue
        forms, first = [form(part) for part in parts], level[0]
        if first == "<" and len(forms) == 2:
            return compared(between[0], *forms)
        if set(between) != {first} or first in ORDERED:
            return ("mixed", tuple(between), *forms)
        if first in "+*":
            return total(first, forms)
        once = sorted(set(flat(first, forms)), key=repr)
        return once[0] if len(once) == 1 and first in ("×", "&&", "||", "&", "|") else (first, *once)
    if len(sequence) == 2 and sequence[0] == "suc":
        return total("+", [form(sequence[1:]), ("number", 1)])
    if len(sequence) == 1:
        only = sequence[0]
        if isinstance(only, list):
            inner = form(only[1:])
            return inner if only[0] == "(" else ("group", only[0], inner)
        return ("number", int(only)) if only.isdigit() else ("name", only)
    return ("all", *(form([part]) for part in sequence))


def same(old, new, formal):
    tokens = FORMAL if formal else CODE
    return form(nested(tokens.findall(old))) == form(nested(tokens.findall(new)))
