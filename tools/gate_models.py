#!/usr/bin/env python3
"""Writes the long model of crates/ipsens_runs/data, and looks into what that program must print, crates/ipsens_runs/stdout, for its
canonical text, which is made here from the same columns, and not by the program. Writes the models of the program itself,
crates/ipsens, whose one run ends with status 4, and what it must print."""
import os

CRATES = os.path.join(os.path.dirname(os.path.abspath(__file__)), "../crates")

MARKER = " M 'MARKER' '{}'\n"
START, END = MARKER.format("INTORG"), MARKER.format("INTEND")

THREE = (
    "NAME example\nROWS\n N cost\n L r1\n L r2\n L r3\nCOLUMNS\n" + START
    + " a cost -5 r1 2\n a r2 4 r3 3\n b cost -4 r1 3\n b r2 1 r3 4\n c cost -3 r1 1\n c r2 2 r3 2\n" + END
    + "RHS\n RHS r1 5 r2 11\n RHS r3 8\nBOUNDS\n UP BND a 10\n UP BND b 10\n UP BND c 10\nENDATA\n"
)
# an even number that is to be odd
ODD = (
    "ROWS\n N cost\n E e\nCOLUMNS\n" + START + " x e 2\n y e -2\n" + END
    + "RHS\n RHS e 1\nBOUNDS\n UP BND x 1000\n UP BND y 1000\nENDATA\n"
)
BUDGET = "budget nodes\nnodes 49\nskipped 0\nbest none\n"


def long_model():
    """A model of more than 16 KiB, and its canonical text of more than 64 KiB."""
    columns = [(f"column{j:04}", 1 + j * 7919 % 1000, 1 + j * 104729 % 1000, 1 + j % 97) for j in range(1000)]
    given = "".join(f" {name} cost {cost} r1 {entry}\n" for name, cost, entry, _ in columns)
    sides = "".join(f" UP BND {name} {upper}\n" for name, _, _, upper in columns)
    model = "ROWS\n N cost\n G r1\nCOLUMNS\n" + START + given + END + "RHS\n RHS r1 5\nBOUNDS\n" + sides + "ENDATA\n"
    lines = "".join(f" {name} cost {cost}\n {name} r1 {entry}\n" for name, cost, entry, _ in columns)
    bounds = "".join(f" LO BND {name} 0\n UP BND {name} {upper}\n" for name, _, _, upper in columns)
    shown = "NAME\nROWS\n N cost\n G r1\nCOLUMNS\n" + START + lines + END + "RHS\n RHS r1 5\nRANGES\nBOUNDS\n" + bounds + "ENDATA\n"
    assert len(model) > 16 * 1024 and len(shown) > 64 * 1024
    return model, shown


def write(path, text):
    os.makedirs(os.path.dirname(f"{CRATES}/{path}"), exist_ok=True)
    with open(f"{CRATES}/{path}", "w") as file:
        file.write(text)


def main():
    model, shown = long_model()
    write("ipsens_runs/data/long.mps", model)
    with open(f"{CRATES}/ipsens_runs/stdout", encoding="utf-8") as file:
        assert f"$ ipsens show long.mps\n{shown}status 0\n" in file.read(), "stdout has another canonical text of the long model"
    write("ipsens/data/model.mps", THREE)
    write("ipsens/data/odd.mps", ODD)
    write("ipsens/args", "solve\nodd.mps\n--nodes\n50\n")
    write("ipsens/stdout", BUDGET)
    write("ipsens/status", "4\n")


main()
