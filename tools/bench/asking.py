#!/usr/bin/env python3
"""Times `ask` with 1,000 questions over a saved proof, beside solving each of the 1,000 edited models anew.

    tools/bench/asking.py PROGRAM FOLDER [COUNT]

For each model of the list that FOLDER has: processor seconds (user and system, of the child processes) of one `ask` with COUNT questions
of one to three edits each, of COUNT runs of `solve` on the edited models, and, where CBC is there, of its runs on the first fiftieth of
them, times 50. The edits are those of tools/edited_models.py; a solve that takes 20,000 nodes stops there.
"""

import os
import random
import resource
import shutil
import subprocess
import sys
import tempfile

sys.path.insert(0, os.path.join(os.path.dirname(os.path.abspath(__file__)), ".."))
from edited_models import Model, decimal, run, some_edit

MODELS = ["glpk_color", "glpk_gap", "p0033", "glpk_queens_4"]


def seconds_of(*words):
    """The processor seconds of a run, whose output is dropped."""
    before = resource.getrusage(resource.RUSAGE_CHILDREN)
    subprocess.run(words, stdout=subprocess.DEVNULL, stderr=subprocess.DEVNULL)
    after = resource.getrusage(resource.RUSAGE_CHILDREN)
    return after.ru_utime - before.ru_utime + after.ru_stime - before.ru_stime


def questions_of(model, count, chance):
    questions = []
    while len(questions) < count:
        edits = [some_edit(model, chance) for _ in range(chance.randint(1, 3))]
        if not model.edited(edits).crossed():
            questions.append(edits)
    return questions


def main(program, folder, count=1000):
    work = tempfile.mkdtemp()
    at = lambda name: os.path.join(work, name)
    print(f"{'model':14} {'nodes':>6} {'ask':>8} {'solve':>9} {'ratio':>7} {'cbc':>9}")
    for name in MODELS:
        path = os.path.join(folder, f"{name}.mps")
        if not os.path.exists(path):
            continue
        model = Model(run(program, "show", path)[1])
        solved = run(program, "solve", path, "--tree", at("tree"))[1].splitlines()
        nodes = next(line.split()[1] for line in solved if line.startswith("nodes"))
        questions = questions_of(model, count, random.Random(name))
        with open(at("questions"), "w") as file:
            for edits in questions:
                lines = [f"{kind} {' '.join(names)} {how} {decimal(number)}" for kind, names, how, number in edits]
                file.write("\n".join(["bound", *lines, "end", ""]))
        asked = seconds_of(program, "ask", path, at("tree"), at("questions"))
        anew = other = 0.0
        for number, edits in enumerate(questions):
            with open(at("edited.mps"), "w") as file:
                file.write(model.edited(edits).text())
            anew += seconds_of(program, "solve", at("edited.mps"), "--nodes", "20000")
            if shutil.which("cbc") and number * 50 < count:
                other += seconds_of("cbc", at("edited.mps"), "solve", "quit")
        print(f"{name:14} {nodes:>6} {asked:8.2f} {anew:9.2f} {anew / max(asked, 0.001):7.0f} {other * 50:9.2f}")


if __name__ == "__main__":
    main(sys.argv[1], sys.argv[2], *map(int, sys.argv[3:]))
