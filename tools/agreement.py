#!/usr/bin/env python3
"""Writes theorems that hold by computation, from what the model says. Files of either edition: for each line `HEX outcome number place reads` the definition's
verdict of these bytes. Steps: for each line `EDITION STEP HEX outcome number place reads` what the definition's reading or deciding says of these bytes.
Conversions: for each line `EDITION HEX LENGTH answer number place HEX` what the definition's converter makes of these bytes and an output of so many bytes 165.
Inputs of the prover: for each line `v | next | sheet | coefficients | coins` what the definition draws in one run of the load from the state v. Batches: for each
line as of files the verdict on a batch; and for each line `sheet | bounds | coefficients | coins | LENGTH answer number place HEX` what the prover of batches makes
of these words and an output of so many bytes 165. The nearest polynomial: for each line `sheet | table | LENGTH answer number place | output` what the definition
finds, with an output of so many words 165. Opening files: for each line as of files the verdict on an opening file; and for each line `HEX LENGTH answer number place
HEX` what the builder makes of these bytes and an output of so many bytes 165. Arguments: the folder with the lines, in the files one, two, steps, convert, inputs,
batches, orders, nearest, openings and builder, and the folder to write to."""
import sys

HEAD = """use Rattle.std.specs.Prelude.{ℕ, ◌≡◌, refl, List, [], ◌∷◌, replicate}
"""
WORKED = "use Rattle.definition.specs.WorkedTranscript.{definitions}\n"
VERDICTS = """use Rattle.definition.specs.Sheet.{edition1, edition2}
use Rattle.definition.specs.Verdict.{accepted, refused}
use Rattle.definition.specs.Verify.{verify_in}
"""
STEPS = """use Rattle.definition.specs.Reading.{reading}
use Rattle.definition.specs.Sheet.{edition1, edition2}
use Rattle.definition.specs.Verdict.{accepted, refused}
use Rattle.definition.specs.Verify.{decide_file}
"""
CONVERSIONS = """use Rattle.definition.specs.Prove.{done, refusal}
use Rattle.definition.specs.Convert.{to_edition1, to_edition2}
"""
BATCHES = """use Rattle.definition.specs.Verdict.{accepted, refused}
use Rattle.batch_definition.specs.Batch.{verify_batch}
use Rattle.batch_definition.specs.BatchCases.{batch_definitions}
"""
ORDERS = """use Rattle.definition.specs.Prove.{done, refusal}
use Rattle.batch_definition.specs.Batch.{prove_batch}
use Rattle.batch_definition.specs.BatchCases.{batch_definitions}
"""
NEAREST = """use Rattle.definition.specs.Prove.{done, refusal}
use Rattle.nearest_definition.specs.Nearest.{nearest}
use Rattle.nearest_definition.specs.NearestCases.{nearest_definitions}
"""
OPENINGS = """use Rattle.definition.specs.Verdict.{accepted, refused}
use Rattle.openings.specs.Openings.{verify_openings}
use Rattle.openings.specs.OpeningCases.{definitions}
"""
BUILDER = """use Rattle.definition.specs.Prove.{done, refusal}
use Rattle.openings.specs.Openings.{build_openings}
use Rattle.openings.specs.OpeningCases.{definitions}
"""
DRAWS = """use Rattle.definition.specs.Load.{draw_input}
use Rattle.definition.specs.LoadCases.{load_definitions}
"""


def listed(numbers):
    return " ∷ ".join([str(n) for n in numbers] + ["[]"])


def numbers(text):
    return b"" if text == "-" else bytes.fromhex(text)


def data(text):
    return listed(numbers(text))


def said(outcome, fault, place):
    return "accepted" if outcome == "accepted" else f"refused {fault} {place}"


def verdict(verify):
    def theorem(line):
        file, *outcome, reads = line.split()
        return f"{verify} ({data(file)})", f"record {{ outcome = {said(*outcome)}; reads = {reads} }}"

    return theorem


def step(line):
    edition, name, file, *outcome, reads = line.split()
    if name == "read":
        return f"reading edition{edition} ({data(file)})", said(*outcome)
    return f"decide_file edition{edition} ({data(file)})", f"record {{ outcome = {said(*outcome)}; reads = {reads} }}"


def written(length, answer, number, place, output):
    """An output before, and what is answered and written."""
    before = f"replicate {length} 165"
    after = before if set(output) <= {165} else listed(output)
    answered = f"done {place}" if answer == "done" else f"refusal {number} {place}"
    return before, f"record {{ answer = {answered}; output = {after} }}"


def conversion(line):
    edition, file, *answer, output = line.split()
    before, result = written(*answer, numbers(output))
    return f"to_edition{edition} ({data(file)}) ({before})", result


def order(line):
    *lists, rest = line.split("|")
    *answer, output = rest.split()
    before, result = written(*answer, numbers(output))
    return f"prove_batch {arguments(lists)} ({before})", result


def search(line):
    *lists, answer, output = line.split("|")
    before, result = written(*answer.split(), [int(word) for word in output.split()])
    return f"nearest {arguments(lists)} ({before})", result


def arguments(lists):
    return " ".join(f"({listed(words.split())})" for words in lists)


def built(line):
    file, *answer, output = line.split()
    before, result = written(*answer, numbers(output))
    return f"build_openings ({data(file)}) ({before})", result


def drawn_input(line):
    v, after, *parts = line.split("|")
    sheet, coefficients, coins = (listed(part.split()) for part in parts)
    drawn = f"record {{ sheet = {sheet}; coefficients = {coefficients}; coins = {coins} }}"
    return f"draw_input {v.strip()}", f"record {{ value = {drawn}; next = {after.strip()} }}"


def main():
    lines, folder = sys.argv[1:]
    modules = [
        ("one", "One", VERDICTS + WORKED, "definitions", verdict("verify_in edition1")),
        ("two", "Two", VERDICTS + WORKED, "definitions", verdict("verify_in edition2")),
        ("steps", "Steps", STEPS + WORKED, "definitions decide_file", step),
        ("convert", "Conversions", CONVERSIONS + WORKED, "definitions", conversion),
        ("inputs", "Inputs", DRAWS, "load_definitions", drawn_input),
        ("batches", "Batches", BATCHES + WORKED, "definitions batch_definitions", verdict("verify_batch")),
        ("orders", "Orders", ORDERS + WORKED, "definitions batch_definitions", order),
        ("nearest", "Nearest", NEAREST + WORKED, "definitions nearest_definitions", search),
        ("openings", "Openings", OPENINGS, "definitions", verdict("verify_openings")),
        ("builder", "Builder", BUILDER, "definitions", built),
    ]
    for name, module, head, unfolded, theorem in modules:
        with open(f"{lines}/{name}") as f, open(f"{folder}/{module}.antt", "w") as out:
            out.write(HEAD + head)
            for number, line in enumerate(f):
                left, right = theorem(line)
                out.write(f"\ncase{number} : {left} ≡ {right}\nunfolding {unfolded}\ncase{number} = refl\n")
    with open(f"{folder}/Lib.antt", "w") as out:
        out.write("".join(f"pub mod {module}\n" for _, module, *_ in modules))


main()
