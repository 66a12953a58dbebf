#!/usr/bin/env python3
"""Sweeps the row sides of real models with the built program, and holds each value against the edited model that is solved on its own.

    tools/sweeps.py PROGRAM FOLDER [STEPS]

For each model of the list below that FOLDER has, a sweep of STEPS steps (20 without it) moves up to six sides outwards, its proof is saved
and checked by `recheck`, which must print `proved`. The model of each step is written out by this script, which shares no code with the
program, and solved by the program: its optimum, or that it is empty, must be what the piece of the step says. The pieces must cover the
steps in turn, with values that fall, and the proof must not prove the sweep that is one step longer. A direction is that of ten from a fixed
sequence with the most different values at five steps.
"""

import os
import random
import sys
import tempfile
from fractions import Fraction

from edited_models import Model, decimal, run

MODELS = [
    ("glpk_todd_6", []), ("glpk_queens_4", []), ("opb_unsat", []), ("p0033", []), ("glpk_color", []), ("glpk_gap", []), ("coin_tp3", []),
    ("coin_pack1", ["--box", "1"]),
]


def some_direction(model, chance):
    """Up to six different sides, each with the number by which it moves outwards at a step."""
    sides = [("low", row) for row in model.rows if row in model.low] + [("high", row) for row in model.rows if row in model.high]
    chosen = chance.sample(sides, min(chance.randint(1, 6), len(sides)))
    return [(kind, row, chance.randint(1, 3) * (-1 if kind == "low" else 1)) for kind, row in chosen]


def sweep_text(direction, steps):
    lines = [f"rows {steps}", *[f"{kind} {row} {decimal(number)}" for kind, row, number in direction], "end", ""]
    return "\n".join(lines)


def pieces_of(text):
    """The printed pieces: first step, last step, and the value, None for emptiness."""
    found = []
    for words in map(str.split, text.splitlines()):
        if words[:1] == ["piece"]:
            found.append((int(words[1]), int(words[2]), None if words[3] == "empty" else Fraction(words[4])))
    return found


def value_of(program, path):
    """What `solve` says of a model: its optimum, None where it is empty, or `open` where a limit stopped it."""
    status, text = run(program, "solve", path, "--nodes", "100000")
    words = text.split()
    if status == 4:
        return "open"
    assert status == 0, (status, text)
    return None if words[0] == "empty" else Fraction(words[1])


def value_at(program, model, direction, step, path):
    """What `solve` says of the model of a step, written to a path."""
    edits = [(kind, [row], "add", Fraction(number * step)) for kind, row, number in direction]
    with open(path, "w") as file:
        file.write(model.edited(edits).text())
    return value_of(program, path)


def telling_direction(program, model, chance, steps, path):
    """Of ten directions that with the most different values at five steps."""
    tried = [some_direction(model, chance) for _ in range(10)]
    probes = sorted({steps * k // 4 for k in range(5)})
    return max(tried, key=lambda direction: len({value_at(program, model, direction, step, path) for step in probes}))


def faults_of(pieces, steps):
    """What is wrong with the steps and the values of pieces, without any model."""
    faults, following, before = [], 0, None
    for number, (first, last, value) in enumerate(pieces):
        if first != following or last < first:
            faults.append(f"piece {number + 1} is from {first} to {last}, and step {following} is next")
        if number > 0 and (value is None or (before is not None and value >= before)):
            faults.append(f"piece {number + 1} has the value {value} after {before}")
        following, before = last + 1, value
    if following != steps + 1:
        faults.append(f"step {following} is in no piece")
    return faults


def main(program, folder, steps=20):
    failed, work = False, tempfile.mkdtemp()
    at = lambda name: os.path.join(work, name)
    for name, options in MODELS:
        path = os.path.join(folder, f"{name}.mps")
        if not os.path.exists(path):
            continue
        chance, model = random.Random(name), Model(run(program, "show", path, *options)[1])
        direction = telling_direction(program, model, chance, steps, at("edited.mps"))
        for file_name, last in (("sweep", steps), ("longer", steps + 1)):
            with open(at(file_name), "w") as file:
                file.write(sweep_text(direction, last))
        status, text = run(program, "sweep", path, at("sweep"), "--proof", at("proof"), "--nodes", "1000000", *options)
        pieces = pieces_of(text) if status == 0 else []
        faults = faults_of(pieces, steps) if status == 0 else [f"status {status}: {text.strip()}"]
        for arguments, wanted in (("sweep", (0, "proved")), ("longer", (1, f"not proved piece {len(pieces)} cover"))):
            status, verdict = run(program, "recheck", path, at(arguments), at("proof"), *options)
            if pieces and (status, verdict.strip()) != wanted:
                faults.append(f"recheck of {arguments}: {status}, {verdict.strip()}")
        equal = open_ones = 0
        for step in range(steps + 1) if pieces else []:
            value = value_at(program, model, direction, step, at("edited.mps"))
            claimed = [now for first, last, now in pieces if first <= step <= last]
            equal += [value] == claimed
            open_ones += value == "open"
            if value != "open" and [value] != claimed:
                faults.append(f"step {step}: {value} by itself, {claimed} in the sweep")
        for fault in faults:
            print(f"wrong: {name}: {fault}")
        print(f"{'wrong' if faults else 'right'}: {name}, {len(pieces)} pieces, {equal} of {steps + 1} steps with their optimum, {open_ones} not solved")
        failed = failed or bool(faults)
    return failed


if __name__ == "__main__":
    sys.exit(main(sys.argv[1], sys.argv[2], *map(int, sys.argv[3:])))
