#!/usr/bin/env python3
"""Times `ask` with 100 range questions over a saved proof, beside solving the model anew twice for each question.

    tools/bench/ranging.py PROGRAM FOLDER [COUNT]

For each model of the list that FOLDER has: the nodes of its proof, processor seconds (user and system, of the child process) of one `ask` with
COUNT range questions, how many walks of the tree a question takes on average and at most, by the rule of the search (2^31 steps each way first, or the
limit of a number that is itself larger; then 0, the limits, steps that grow by squares, and middles), and the seconds of
2 * COUNT runs of `solve` on the unchanged model, which is what a planner pays who moves a number once each way. Walks that an infeasible plan
spares are counted too. The data are those of tools/ranges.py.
"""

import os
import random
import sys
import tempfile
from fractions import Fraction

sys.path.insert(0, os.path.join(os.path.dirname(os.path.abspath(__file__)), ".."))
from asking import seconds_of
from edited_models import Model, decimal, run
from ranges import LIMITS, cost_of, number_of, some_datum, unit_of

MODELS = ["glpk_color", "glpk_gap", "p0033", "glpk_queens_4"]


def walks_between(good, bad, end):
    """How many changes are tried between a good number of steps and a bad one."""
    walks, grows = 0, bad <= 2**41
    while bad - good > 1:
        square = (good + 1) ** 2
        steps = square if grows and square < bad else good + (bad - good) // 2
        good, bad = (steps, bad) if steps <= end else (good, steps)
        walks += 1
    return walks


def walks_of(number, limit, ends):
    """How many walks of the tree a range takes, for the steps down and up to its ends, by the rule of the search."""
    most = (limit + number, limit - number)
    first = [min(m, 2**31) if abs(number) <= 2**31 else m for m in most]
    walks = 2 if all(map(int.__ge__, ends, first)) else 3
    for end, most_of_end, tried in zip(ends, most, first):
        if end < tried:
            walks += walks_between(0, tried, end)
        elif tried < most_of_end:
            walks += 1 if end == most_of_end else 1 + walks_between(tried, most_of_end, end)
    return walks


def main(program, folder, count=100):
    work = tempfile.mkdtemp()
    at = lambda name: os.path.join(work, name)
    print(f"{'model':14} {'nodes':>6} {'ask':>8} {'walks':>6} {'most':>5} {'none':>5} {'solve':>9} {'ratio':>7}")
    for name in MODELS:
        path = os.path.join(folder, f"{name}.mps")
        if not os.path.exists(path):
            continue
        chance, model = random.Random(name), Model(run(program, "show", path)[1])
        solved = [line.split() for line in run(program, "solve", path, "--tree", at("tree"))[1].splitlines()]
        nodes = next(int(words[1]) for words in solved if words[0] == "nodes")
        best = cost_of(model, {words[1]: int(words[2]) for words in solved if words[0] == "value"})
        asked = [(*some_datum(model, chance), None if number % 2 else best) for number in range(count)]
        with open(at("questions"), "w") as file:
            for kind, names, floor in asked:
                file.write(f"range {kind} {' '.join(names)} {'best' if floor is None else 'keep ' + decimal(floor)}\n")
        answers = run(program, "ask", path, at("tree"), at("questions"))[1].splitlines()
        seconds = seconds_of(program, "ask", path, at("tree"), at("questions"))
        walks = []
        for (kind, names, _), line in zip(asked, answers):
            words, unit = line.split(), unit_of(model, kind, names)
            if words[2] == "none":
                walks.append(3)
                continue
            down, up = (abs(int(Fraction(word) / unit)) for word in words[2:4])
            walks.append(walks_of(int(number_of(model, kind, names) / unit), LIMITS[kind], (down, up)))
        none = sum(line.endswith("none") for line in answers)
        anew = 2 * sum(seconds_of(program, "solve", path) for _ in range(count))
        print(f"{name:14} {nodes:>6} {seconds:8.2f} {sum(walks) / count:6.1f} {max(walks):>5} {none:>5} {anew:9.2f} {anew / max(seconds, 0.001):7.1f}")


if __name__ == "__main__":
    main(sys.argv[1], sys.argv[2], *map(int, sys.argv[3:]))
