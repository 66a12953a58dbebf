#!/usr/bin/env python3
"""Asks the built program for bounds of edited models, and holds each against what the edited model itself gives.

    tools/edited_models.py PROGRAM FOLDER [EDITED]

For each model of the list below that FOLDER has, a proof is saved, EDITED questions (10 without it) are asked of it in one file, and each
edited model is written out by this script, which shares no code with the program, and solved by the program on its own. A printed bound
must not exceed that optimum, and `empty` must be printed only of a model without a feasible point. The edits come from a fixed sequence.
"""

import os
import random
import subprocess
import sys
import tempfile
from fractions import Fraction

MODELS = [
    ("glpk_sample_cnf", []), ("glpk_todd_6", []), ("glpk_queens_4", []), ("glpk_bpp", []), ("p0033", []), ("glpk_color", []),
    ("glpk_gap", []), ("coin_tp3", []), ("coin_pack1", ["--box", "1"]), ("glpk_mfasp_int", []),
]


class Model:
    """A model as `show` prints it: exact numbers, rows with a low and a high side or None."""

    def __init__(self, text):
        self.objective, self.rows, self.columns = "", [], []
        self.costs, self.entries, self.low, self.high = {}, {}, {}, {}
        self.lower, self.upper, self.kinds, self.constant = {}, {}, {}, Fraction(0)
        right, ranges, part = {}, {}, ""
        for line in text.split("\n"):
            words = line.split()
            if not words:
                continue
            if not line.startswith(" "):
                part = words[0]
            elif part == "ROWS" and words[0] == "N":
                self.objective = words[1]
            elif part == "ROWS":
                self.rows.append(words[1])
                self.kinds[words[1]] = words[0]
            elif part == "COLUMNS" and "'MARKER'" not in words:
                column, row, number = words
                if row == self.objective:
                    self.columns.append(column)
                    self.costs[column] = Fraction(number)
                else:
                    self.entries[row, column] = Fraction(number)
            elif part == "RHS":
                right[words[1]] = words[2]
            elif part == "RANGES":
                ranges[words[1]] = Fraction(words[2])
            elif part == "BOUNDS":
                (self.lower if words[0] == "LO" else self.upper)[words[2]] = int(words[3])
        self.constant = -Fraction(right.get(self.objective, "0"))
        for row in self.rows:
            side = right.get(row, "0")
            if side in ("1e30", "1e+30"):
                continue
            side = Fraction(side)
            if self.kinds[row] == "G":
                self.low[row] = side
            else:
                self.high[row] = side
                if self.kinds[row] == "E":
                    self.low[row] = side
                elif row in ranges:
                    self.low[row] = side - ranges[row]

    def text(self):
        """The model as MPS text: each row with a low side as G, with a range where it has both."""
        lines = ["NAME edited FREE", "ROWS", f" N {self.objective}"]
        kind = lambda row: "G" if row in self.low else "L"
        lines += [f" {kind(row)} {row}" for row in self.rows]
        lines += ["COLUMNS", " M 'MARKER' 'INTORG'"]
        for column in self.columns:
            lines.append(f" {column} {self.objective} {decimal(self.costs[column])}")
            lines += [f" {column} {row} {decimal(v)}" for row in self.rows if (v := self.entries.get((row, column), 0)) != 0]
        lines += [" M 'MARKER' 'INTEND'", "RHS", f" RHS {self.objective} {decimal(-self.constant)}"]
        for row in self.rows:
            side = self.low.get(row, self.high.get(row))
            lines.append(f" RHS {row} {'1e30' if side is None else decimal(side)}")
        lines.append("RANGES")
        lines += [f" RNG {row} {decimal(self.high[row] - self.low[row])}" for row in self.rows if row in self.low and row in self.high]
        lines.append("BOUNDS")
        for column in self.columns:
            lines += [f" LO BND {column} {self.lower[column]}", f" UP BND {column} {self.upper[column]}"]
        return "\n".join([*lines, "ENDATA", ""])

    def edited(self, edits):
        other = Model("")
        for name in ("rows", "columns"):
            setattr(other, name, list(getattr(self, name)))
        for name in ("costs", "entries", "low", "high", "lower", "upper", "kinds"):
            setattr(other, name, dict(getattr(self, name)))
        other.objective, other.constant = self.objective, self.constant
        for kind, names, how, number in edits:
            table, key = {
                "cost": (other.costs, names[0]), "low": (other.low, names[0]), "high": (other.high, names[0]),
                "coef": (other.entries, tuple(names)), "lower": (other.lower, names[0]), "upper": (other.upper, names[0]),
            }[kind]
            table[key] = number if how == "set" else table.get(key, Fraction(0)) + number
        return other

    def crossed(self):
        """Whether some row's low side exceeds its high side: a written range cannot say that."""
        return any(self.low[row] > self.high[row] for row in self.low if row in self.high)


def decimal(number):
    number = Fraction(number)
    for digits in range(10):
        scaled = number * 10**digits
        if scaled.denominator == 1:
            text = str(abs(scaled.numerator)).rjust(digits + 1, "0")
            whole, rest = text[: len(text) - digits], text[len(text) - digits :].rstrip("0")
            return ("-" if number < 0 else "") + whole + ("." + rest if rest else "")
    raise ValueError(number)


def some_edit(model, chance):
    """One edit of a datum that exists, by a number on the grid of whole units."""
    while True:
        kind = chance.choice(["cost", "cost", "low", "high", "high", "coef", "lower", "upper"])
        row, column = chance.choice(model.rows), chance.choice(model.columns)
        if kind == "cost":
            return kind, [column], "add", Fraction(chance.randint(-3, 3))
        if kind == "low" and row in model.low or kind == "high" and row in model.high:
            return kind, [row], "add", Fraction(chance.randint(-2, 2))
        if kind == "coef":
            return kind, [row, column], "add", Fraction(chance.randint(-2, 2))
        if kind == "lower":
            return kind, [column], "set", Fraction(min(model.lower[column] + chance.randint(0, 1), model.upper[column]))
        if kind == "upper":
            return kind, [column], "set", Fraction(max(model.upper[column] - chance.randint(0, 1), model.lower[column]))


def run(*words):
    done = subprocess.run(words, stdout=subprocess.PIPE, text=True)
    return done.returncode, done.stdout


def main(program, folder, count=10):
    failed, work = False, tempfile.mkdtemp()
    at = lambda name: os.path.join(work, name)
    for name, options in MODELS:
        path = os.path.join(folder, f"{name}.mps")
        if not os.path.exists(path):
            continue
        chance, model = random.Random(name), Model(run(program, "show", path, *options)[1])
        run(program, "solve", path, "--tree", at("tree"), *options)
        questions = []
        while len(questions) < count:
            edits = [some_edit(model, chance) for _ in range(chance.randint(1, 3))]
            if not model.edited(edits).crossed():
                questions.append(edits)
        with open(at("questions"), "w") as file:
            for edits in questions:
                lines = [f"{kind} {' '.join(names)} {how} {decimal(number)}" for kind, names, how, number in edits]
                file.write("\n".join(["bound", *lines, "end", ""]))
        status, answer = run(program, "ask", path, at("tree"), at("questions"), *options)
        bounds = [line.split()[2] for line in answer.splitlines()] if status == 0 else []
        equal = wrong = open_ones = 0
        for edits, bound in zip(questions, bounds):
            with open(at("edited.mps"), "w") as file:
                file.write(model.edited(edits).text())
            status, solved = run(program, "solve", at("edited.mps"), "--nodes", "20000")
            words = solved.split()
            if status == 4:
                open_ones += 1
            elif status != 0:
                wrong += 1
                print(f"wrong: {name}: the edited model gives {solved.strip()}")
            elif words[0] == "empty":
                equal += bound == "empty"
            elif bound == "empty" or Fraction(bound) > Fraction(words[1]):
                wrong += 1
                print(f"wrong: {name} {edits}: bound {bound}, optimum {words[1]}")
            else:
                equal += Fraction(bound) == Fraction(words[1])
        if len(bounds) != count:
            wrong += 1
            print(f"wrong: {name}: {answer.strip()}")
        print(f"{'wrong' if wrong else 'right'}: {name}, {len(bounds)} edited models, {equal} with their optimum as the bound, {open_ones} not solved")
        failed = failed or wrong > 0
    return failed


if __name__ == "__main__":
    sys.exit(main(sys.argv[1], sys.argv[2], *map(int, sys.argv[3:])))
