#!/usr/bin/env python3
"""Times a sweep of row sides with its proof, `recheck` of that proof, and one `solve` of the model of each step.

    tools/bench/sweeping.py PROGRAM FOLDER [STEPS]

For each model of the list of tools/sweeps.py that FOLDER has, and a sweep of STEPS steps (100 without it) in the direction of that script: the pieces, the bytes
of the proof, and processor seconds (user and system, of the child processes) of `sweep` with `--proof`, of `recheck`, and of `solve` on the models of all steps,
which is what a planner pays who has no sweep; for these every tenth step is solved, and the sum is taken times what that leaves out.
"""

import os
import random
import sys
import tempfile

sys.path.insert(0, os.path.join(os.path.dirname(os.path.abspath(__file__)), ".."))
from asking import seconds_of
from edited_models import Model, run
from fractions import Fraction
from sweeps import MODELS, pieces_of, sweep_text, telling_direction


def seconds_of_steps(program, model, direction, steps, path, every=10):
    """Processor seconds of `solve` on the models of the steps, from every tenth of them."""
    spent, solved = 0.0, range(0, steps + 1, every)
    for step in solved:
        edits = [(kind, [row], "add", Fraction(number * step)) for kind, row, number in direction]
        with open(path, "w") as file:
            file.write(model.edited(edits).text())
        spent += seconds_of(program, "solve", path)
    return spent * (steps + 1) / len(solved)


def main(program, folder, steps=100):
    work = tempfile.mkdtemp()
    at = lambda name: os.path.join(work, name)
    print(f"{'model':14} {'pieces':>6} {'bytes':>8} {'sweep':>8} {'recheck':>8} {'ratio':>6} {'solves':>9} {'ratio':>6}")
    for name, options in MODELS:
        path = os.path.join(folder, f"{name}.mps")
        if not os.path.exists(path):
            continue
        chance, model = random.Random(name), Model(run(program, "show", path, *options)[1])
        direction = telling_direction(program, model, chance, steps, at("edited.mps"))
        with open(at("sweep"), "w") as file:
            file.write(sweep_text(direction, steps))
        words = ("sweep", path, at("sweep"), "--proof", at("proof"), "--nodes", "1000000", *options)
        status, text = run(program, *words)
        if status != 0:
            print(f"{name:14} {text.strip()}")
            continue
        swept = seconds_of(program, *words)
        judged = seconds_of(program, "recheck", path, at("sweep"), at("proof"), *options)
        anew = seconds_of_steps(program, model, direction, steps, at("edited.mps"))
        print(f"{name:14} {len(pieces_of(text)):>6} {os.path.getsize(at('proof')):>8} {swept:8.2f} {judged:8.2f} {swept / max(judged, 0.001):6.1f} "
              f"{anew:9.2f} {anew / max(swept, 0.001):6.1f}")


if __name__ == "__main__":
    main(sys.argv[1], sys.argv[2], *map(int, sys.argv[3:]))
