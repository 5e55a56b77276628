"""The figures of docs/STATEMENTS.md, and what holds each of them.

A figure that counts something of the tree is held to it (HELD); one that was measured once, or is held by another tool, is listed with where (MEASURED). Others are
numbers that count nothing here: of refusals, words, documents and editions, sizes in words or blocks, and parts of formulas. A figure that is none of these is a fault,
so that none is left that nothing holds. What stands in back quotes is formal text, and the middle columns of the table of wrong answers say what edits write.
"""
import re

import edits

NUMBER = r"(?<![\d,.])\d[\d,]*(?<!,)"
LIST = rf"{NUMBER}(?:(?:,|,? to|,? and|,? or) {NUMBER})*"
# Numbers that count nothing, by the word in front of them or the unit behind them, or as a part of a formula.
NAMED = [
    rf"{NUMBER}\.\d+|\(July {NUMBER}, {NUMBER}\)|(?<![\d,])0\d+",  # places in the papers, a date, and the documents
    rf"\bP{NUMBER}(?: to P{NUMBER})?",
    rf"\b(?:CR|demands?|editions?|item|refusals?|fault|words?|seed|table|domains?|field|the numbers|order)(?: of the tests,| number)?(?: below| above| from)? {LIST}",
    rf"\bmultiple of {NUMBER}|\bfrom {NUMBER} to {NUMBER}",
    rf"{NUMBER}(?:-bit| words?| reads?)\b",
    r"[\w)]*[_^/·+-]\d{1,2}(?![\d,])|\b[a-z]\d\b|[-+<=] ?\d(?![\d,])|\(\d{1,2}\)",
]
WORDS = "no one two three four five six seven eight nine ten".split()
# Words behind a number that it does not count.
PASSED_OVER = "and at comes for from in is of on or then there to was where with".split()


def read(path):
    return (edits.TOP / path).read_text()


def number(path, pattern):
    """The number that stands in a file, or a negative one where the file has it no longer."""
    found = re.search(pattern, read(path))
    return int(found[1]) if found else -1_000_000


def lines_of_definition():
    """Its lines without blank ones, imports and the list of modules, to the next 50; its cases are no part of it."""
    files = [path for path in (edits.TOP / "crates/definition/specs").glob("*.antt") if not re.search(r"Cases|Worked", path.name)]
    lines = [line for path in files for line in path.read_text().split("\n") if line.strip() and not re.match(r"use |pub mod ", line)]
    return 50 * round(len(lines) / 50)


def cases(files):
    return sum(len(re.findall(r"^  pub ", path.read_text(), re.M)) for path in (edits.TOP / "crates/definition/specs").glob(files))


def other_loads():
    """The inputs to the load that are no seeds of four bytes: those drawn of a length, and those written out."""
    text = read("model/src/bin/load-against.rs")
    return sum(len(found.split(",")) for found in re.findall(r"for length in \[([^\]]*)\]", text)) + len(re.findall(r"^    inputs\.push\(vec!", text, re.M))


def seeds(*files):
    """The seeds that the loops of tests of the archive go over."""
    text = "".join(read(f"rust/tests/{file}") for file in files).replace("_", "")
    loops = [int(last) - int(first) for first, last in re.findall(r"\b(\d+)\.\.(\d+)\b", text)]
    return sum(loops) + sum(map(int, re.findall(r"\((?:One|Two), (\d{4,}),", text)))


def drawn_by_gate(place):
    return number(".ci/run", r"definition-against-model" + r" \d+" * place + r" (\d+)")


HELD = [
    (r"some (\d+) lines", lines_of_definition),
    (r"(\d+) marked cases", lambda: cases("MarkedCases.antt")),
    (r"(\d+) further cases", lambda: cases("*Cases.antt") - cases("MarkedCases.antt")),
    (r"(\d+) small files of each edition", lambda: drawn_by_gate(1)),
    (r"(\d+) small conversions", lambda: drawn_by_gate(2)),
    (r"(\d+) short runs", lambda: drawn_by_gate(3)),
    (r"(\d+) small files in one step", lambda: drawn_by_gate(4)),
    (r"(\d+) small batches verified", lambda: drawn_by_gate(5)),
    (r"(\d+) small tables searched", lambda: drawn_by_gate(6)),
    (r"batches verified and (\d+)", lambda: drawn_by_gate(5)),
    (r"at most (\d+) coefficients and coins", lambda: number("model/src/bin/definition-cases.rs", r"words <= (\d+)")),
    (r"n0 up to (\d+) where there are rounds", lambda: number("model/src/bin/definition-cases.rs", r"sheet\[1\] <= (\d+)")),
    (r"(\d+) seeds", lambda: number(".ci/run", r"load-against-model (\d+)")),
    (r"(\d+) inputs that are short, long or 0", other_loads),
    (r"([\d,]+) inputs with a fixed seed", lambda: number("tools/fuzz", r"runs=(\d+)")),
    (r"(\w+) loads stored", lambda: 1 + len(list((edits.TOP / "examples").glob("load-*")))),  # the program's own output is the other
    (r"`check` on (\d+) files", lambda: len(list((edits.TOP / "crates/check_files/data").iterdir()))),
    (r"ω of n0 = ([\d,]+)", lambda: number("crates/powers/specs/Table.antt", r"root 2 (\d+)")),
    (r"every (\d+)th of it", lambda: number("crates/powers/src/lib.rt", r"every_nth (\d+)")),
    (r"every \((\d+)/n0\)-th", lambda: number("crates/domain/specs/Powers.antt", r"every_nth \((\d+) /")),
    (r"the first ([\d,]+) bytes", lambda: number("crates/word_input/specs/Input.antt", r"take (\d+) bytes")),
    (r"take ([\d,]+) bytes at most", lambda: number("crates/program_output/specs/Output.antt", r"check_text .* \(take (\d+) bytes")),
    (r"every number of blocks up\s+to (\d+)", lambda: number("tools/try-scripts", r"for blocks in \$\(seq (\d+)\)")),
    (r"an output of (\d+) blocks", lambda: number("crates/program_output/specs/Output.antt", r"room = room_of (\d+)") // 512),
    (r"[Oo]f a batch on one of (\d+) blocks", lambda: number("crates/program_output/specs/Output.antt", r"\(room_of (\d+)\)") // 512),
    (r"the front of ([\d,]+) bytes", lambda: number("crates/batch_bytes/specs/BatchInput.antt", r"take (\d+) bytes")),
    (r"done has at most ([\d,]+) bytes", lambda: number("crates/nearest_bytes/specs/NearestLength.antt", r"done_short .* length bytes ≤ (\d+)")),
    (r"more than ([\d,]+) bytes", lambda: number("crates/batch_bytes/specs/BatchLength.antt", r"done_short .* length bytes ≤ (\d+)")),
    (r"has at most ([\d,]+) bytes", lambda: number("crates/nearest_bytes/specs/NearestLength.antt", r"done_short .* length bytes ≤ (\d+)")),
    (r"an output of ([\d,]+) words", lambda: number("crates/nearest_bytes/specs/NearestInput.antt", r"\(room_of (\d+)\)")),
    (r"longer than ([\d,]+) bytes", lambda: 4 * 12 + number("crates/prove_bytes/specs/Length.antt", r"done_short .* 4 \* sheet_length ed \+ (\d+)")),
    (r"bytes, or ([\d,]+) in edition 2", lambda: 4 * 18 + number("crates/prove_bytes/specs/Length.antt", r"done_short .* 4 \* sheet_length ed \+ (\d+)")),
    (r"n0 ends at (\d+)", lambda: number("crates/definition/specs/Sheet.antt", r"largest_size four = (\d+)")),
    (r"so long as ([\d,]+) bytes", lambda: number("crates/completeness/proofs/Statements.antt", r"accepted_short .* length bytes < (\d+)")),
    (r"(\d+) where the number names no\s+field", lambda: number("include/tevrolig.h", r"TEVROLIG_NO_FIELD = (\d+)")),
    (r"(\d+) where there is no inverse", lambda: number("include/tevrolig.h", r"TEVROLIG_NO_INVERSE = (\d+)")),
    (r"answers (\d+) where there is none", lambda: number("include/tevrolig.h", r"TEVROLIG_NO_WORD = (\d+)")),
    (r"([\d,]+) wrong answers in all", lambda: sum(map(edits.count, edits.crates()))),
    (r"in ([\d,]+) edits", lambda: sum(len(edits.edits(crate)) for crate in edits.crates())),
]
# Each with where it was measured, and what must still be so.
MEASURED = [
    ("sanitizers on \\d+ files", "tools/c-example, which counts the files and compares", lambda: "sanitizers on $count files" in read("tools/c-example")),
    ("on \\d+ as batches", "tools/c-example, likewise", lambda: "on $batches as batches" in read("tools/c-example")),
    (
        "more than 400,000 files of each edition|more than 800,000 files to verify",
        "the loops of verify.rs, whose seeds have up to 36 files each: 430,000 files of edition 1 at least, 478,000 of edition 2",
        lambda: seeds("verify.rs") >= 204_040,
    ),
    ("400,000 inputs to prove and encode", "the loops of prove.rs and refused_inputs.rs, twice where both are asked", lambda: seeds("prove.rs", "refused_inputs.rs") >= 440_000),
    ("300,000 files to convert", "the loops of convert.rs and equal_outs.rs, each file once, there and back", lambda: seeds("convert.rs", "equal_outs.rs") >= 195_100),
    (
        "more than 200,000 files to verify and 75,000 inputs to prove as batches",
        "the loops of batch.rs, batch_coin.rs and batch_inputs.rs, counted in what they call: 212,246 files and 79,301 inputs",
        lambda: seeds("batch.rs", "batch_coin.rs", "batch_inputs.rs") >= 90_324,
    ),
    ("1,196,382 inputs in one run of 90 seconds and 537,340 in one of 420 seconds", "tools/fuzz 90 and tools/fuzz 420, before the changes of document 02", lambda: True),
]


class Figures:
    def __init__(self, page):
        self.page, self.held, self.measured = page, 0, 0

    def paragraphs(self):
        """Each paragraph, and each cell of a table, as one line of text, with the number of its first line. Blocks have formal text alone."""
        start, text, middle = 0, [], []
        for at, line in enumerate(self.page.read_text().split("\n") + [""], 1):
            if line.startswith("|") or not line.strip() or line.startswith("    "):
                if text:
                    yield start, " ".join(text)
                text = []
            if line.startswith("|"):
                cells = line.strip().strip("|").split("|")
                if not middle:
                    middle = [cell.strip() in ("a wrong answer", "another") for cell in cells]
                yield from ((at, cell) for cell, skipped in zip(cells, middle) if not skipped)
            else:
                middle = []
                if line.strip() and not line.startswith("    "):
                    start, text = (at if not text else start), text + [line.strip()]

    def hold(self, fault):
        for line, text in self.paragraphs():
            covered = set()
            for found in re.finditer(r"`[^`]*`|\]\([^)]*\)|^(?:\d+\. |#.*)", text):
                covered.update(range(*found.span()))
            for found in re.finditer(r"\[([\d,]+)\]\(([^)]*)\)", text):
                self.held += 1
                crate = re.fullmatch(r"\.\./crates/(\w+)/must-fail", found[2])
                if not crate:
                    fault(line, f"a number is a link to what it does not count: {found[0]}")
                elif int(found[1]) != edits.count(crate[1]):
                    fault(line, f"{found[1]} wrong answers of {crate[1]} are stated, and there are {edits.count(crate[1])}")
                covered.update(range(*found.span()))
            for pattern, value in HELD:
                for found in re.finditer(pattern, text):
                    self.held += 1
                    stated = WORDS.index(found[1]) if found[1] in WORDS else int(found[1].replace(",", ""))
                    if stated != value():
                        fault(line, f"{found[0]}: it is {value()}")
                    covered.update(range(*found.span(1)))
            for pattern, where, still in MEASURED:
                for found in re.finditer(pattern, text):
                    self.measured += 1
                    if not still():
                        fault(line, f"{found[0]}: it was measured otherwise, by {where}")
                    covered.update(range(*found.span()))
            for pattern in NAMED:
                for found in re.finditer(pattern, text, re.I):
                    covered.update(range(*found.span()))
            for found in re.finditer(NUMBER, text):
                after = re.match(r" ([a-z]+)", text[found.end() :])
                counts = after and after[1] not in PASSED_OVER
                if found.start() not in covered and (counts or int(found[0].replace(",", "")) >= 20):
                    fault(line, f"nothing holds the figure {found[0]}{after[0] if after else ''} (tools/figures.py)")
