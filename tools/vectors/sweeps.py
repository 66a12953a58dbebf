#!/usr/bin/env python3
"""Prints numbers of small row sweeps with their pieces, the table of crates/sweep_tests:

    tools/vectors/sweeps.py

A number gives three columns, two rows, a moving side of each row and the last step, by a sequence that the test draws too. The value of a
step is found by trying every point of the box; steps that follow each other with one value are a piece. Of the numbers from 0 on those are
taken whose sweeps tell something. Shares no code with the programs.
"""
import itertools

COUNT = 24


class Draws:
    def __init__(self, number):
        self.state = number

    def below(self, most):
        self.state = (1103515245 * self.state + 12345) % 2**31
        return self.state // 65536 % most


def value(columns, rows):
    """The least cost of a point of the box that satisfies each row, None where there is none."""
    best = None
    for point in itertools.product(*(range(low, high + 1) for _, low, high in columns)):
        sums = [sum(a * x for a, x in zip(coefs, point)) for coefs, _, _ in rows]
        if all((low is None or low <= s) and (high is None or s <= high) for s, (_, low, high) in zip(sums, rows)):
            cost = sum(c * x for (c, _, _), x in zip(columns, point))
            best = cost if best is None else min(best, cost)
    return best


def moved(rows, direction, step):
    rows = [list(row) for row in rows]
    for side, row, number in direction:
        rows[row][1 if side == "Low" else 2] += step * number
    return rows


def pieces(columns, rows, direction, steps):
    found = []
    for step in range(steps + 1):
        now = value(columns, moved(rows, direction, step))
        if found and found[-1][2] == now:
            found[-1][1] = step
        else:
            found.append([step, step, now])
    return found


def drawn_row(draws):
    """The coefficients of a row and its sides."""
    coefs = []
    for _ in range(3):
        number = draws.below(6)
        coefs.append(number - 3 if number < 3 else number - 2)
    a, b = draws.below(23) - 6, draws.below(23) - 6
    kind = draws.below(4)
    if kind == 0:
        return coefs, a, None
    if kind == 1:
        return coefs, None, b
    if kind == 2:
        return coefs, a, a
    return coefs, min(a, b), max(a, b)


def drawn_side(draws, row, sides):
    """The side of a row that moves, and by how much at a step."""
    low, high = sides
    is_low = high is None or (low is not None and draws.below(2) == 0)
    by = draws.below(4)
    return ("Low", row, -by) if is_low else ("High", row, by)


def drawn(number):
    """Columns, rows, direction and last step."""
    draws = Draws(number)
    columns = []
    for _ in range(3):
        cost, low = draws.below(9) - 4, draws.below(4) - 2
        columns.append((cost, low, low + 1 + draws.below(5)))
    rows = [drawn_row(draws), drawn_row(draws)]
    direction = [drawn_side(draws, row, rows[row][1:]) for row in (0, 1)]
    return columns, rows, direction, draws.below(18)


def option(number):
    return "None" if number is None else f"Some({number})"


def tells(count, found):
    """Whether pieces are what the next row of the table wants: by turns any, an empty one first, and four or more."""
    if count % 3 == 0:
        return True
    if count % 3 == 1:
        return len(found) >= 2 and found[0][2] is None
    return len(found) >= 4


def main():
    count, number = 0, 0
    while count < COUNT:
        found = pieces(*drawn(number))
        if tells(count, found):
            print(f"    ({number}, &[" + ", ".join(f"({first}, {last}, {option(now)})" for first, last, now in found) + "]),")
            count += 1
        number += 1


main()
