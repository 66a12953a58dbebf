#!/usr/bin/env python3
"""Asks the built program for allowable ranges, and holds both ends of each against the bounds of the changed models.

    tools/ranges.py PROGRAM FOLDER [DATA]

For each model of the list below that FOLDER has, a proof is saved and DATA ranges (20 without it) are asked of it in one file, of costs, sides,
coefficients and bounds, half of them with `best` and half with `keep`. A change is good where the changed number is within its limit, the
bound of the changed model (a `bound` question, which the program answers by a walk of its own) is no less than what the aim wants, and, for
`best`, the plan is feasible there, which this script works out in exact fractions. At both printed ends the change must be good, and one unit
further it must not be; `none` must be printed exactly where the change 0 is not good. The data come from a fixed sequence.
"""

import os
import random
import sys
import tempfile
from fractions import Fraction

from edited_models import Model, decimal, run

MODELS = ["glpk_sample_cnf", "glpk_queens_4", "glpk_bpp", "p0033", "glpk_color", "glpk_gap", "glpk_mfasp_int"]
LIMITS = {"cost": 2**40, "coef": 2**40, "low": 2**62, "high": 2**62, "lower": 2**24, "upper": 2**24}


def decimals(numbers):
    return max([next(d for d in range(10) if (n * 10**d).denominator == 1) for n in numbers], default=0)


def unit_of(model, kind, names):
    """The least change of a datum: one in the last decimal of its row or of the costs, 1 for a column's bound."""
    if kind in ("lower", "upper"):
        return Fraction(1)
    if kind == "cost":
        return Fraction(1, 10 ** decimals([*model.costs.values(), model.constant]))
    row = names[0]
    numbers = [v for (r, _), v in model.entries.items() if r == row]
    return Fraction(1, 10 ** decimals([*numbers, *[s[row] for s in (model.low, model.high) if row in s]]))


def number_of(model, kind, names):
    tables = {"cost": model.costs, "low": model.low, "high": model.high, "lower": model.lower, "upper": model.upper}
    return model.entries.get((names[0], names[1]), Fraction(0)) if kind == "coef" else tables[kind][names[0]]


def is_feasible(model, plan):
    columns = all(model.lower[c] <= plan.get(c, 0) <= model.upper[c] for c in model.columns)
    sums = {row: Fraction(0) for row in model.rows}
    for (row, column), v in model.entries.items():
        sums[row] += v * plan.get(column, 0)
    return columns and all(model.low.get(r, s) <= s <= model.high.get(r, s) for r, s in sums.items())


def cost_of(model, plan):
    return model.constant + sum(v * plan.get(c, 0) for c, v in model.costs.items())


def some_datum(model, chance):
    """A datum that exists: its kind and its names."""
    while True:
        kind = chance.choice(list(LIMITS))
        row, column = chance.choice(model.rows), chance.choice(model.columns)
        names = {"coef": [row, column], "low": [row], "high": [row]}.get(kind, [column])
        if kind not in ("low", "high") or row in (model.low if kind == "low" else model.high):
            return kind, names


def is_good(ask, model, plan, kind, names, floor, change):
    """Whether a change of a datum is good; floor is None for `best`."""
    if abs((number_of(model, kind, names) + change) / unit_of(model, kind, names)) > LIMITS[kind]:
        return False
    bound = ask([f"bound\n{kind} {' '.join(names)} add {decimal(change)}\nend"])[0].split()[2]
    other = model.edited([(kind, names, "add", change)])
    if floor is None and not is_feasible(other, plan):
        return False
    return bound == "empty" or Fraction(bound) >= (cost_of(other, plan) if floor is None else floor)


def main(program, folder, count=20):
    failed, work = False, tempfile.mkdtemp()
    at = lambda name: os.path.join(work, name)
    for name in MODELS:
        path = os.path.join(folder, f"{name}.mps")
        if not os.path.exists(path):
            continue

        def ask(questions):
            with open(at("questions"), "w") as file:
                file.write("\n".join([*questions, ""]))
            status, answer = run(program, "ask", path, at("tree"), at("questions"))
            if status != 0:
                raise ValueError(answer)
            return answer.splitlines()

        chance, model = random.Random(name), Model(run(program, "show", path)[1])
        solved = [line.split() for line in run(program, "solve", path, "--tree", at("tree"))[1].splitlines()]
        plan = {words[1]: int(words[2]) for words in solved if words[0] == "value"}
        best = cost_of(model, plan)
        asked = []
        for number in range(count):
            kind, names = some_datum(model, chance)
            floor = None if number % 2 else best - chance.choice([0, 0, 1, 5, -1]) * unit_of(model, "cost", [])
            asked.append((kind, names, floor))
        lines = ask([f"range {k} {' '.join(n)} {'best' if f is None else 'keep ' + decimal(f)}" for k, n, f in asked])
        wrong = none = limits = 0
        for (kind, names, floor), line in zip(asked, lines):
            words, unit = line.split(), unit_of(model, kind, names)
            good = lambda change: is_good(ask, model, plan, kind, names, floor, change)
            if words[2] == "none":
                none += 1
                right = not good(Fraction(0))
            else:
                ends = [Fraction(words[2]), Fraction(words[3])]
                right = ends[0] <= 0 <= ends[1] and all(map(good, ends)) and not good(ends[0] - unit) and not good(ends[1] + unit)
                limits += sum(abs(number_of(model, kind, names) + e) == LIMITS[kind] * unit for e in ends)
            if not right:
                wrong += 1
                print(f"wrong: {name}, {kind} {names}, {'best' if floor is None else floor}: {line}")
        wrong += len(lines) != count
        print(f"{'wrong' if wrong else 'right'}: {name}, {len(lines)} ranges, {none} none, {limits} ends at the limit of the number")
        failed = failed or wrong > 0
    return failed


if __name__ == "__main__":
    sys.exit(main(sys.argv[1], sys.argv[2], *map(int, sys.argv[3:])))
