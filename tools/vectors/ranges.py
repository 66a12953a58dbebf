#!/usr/bin/env python3
"""Prints the allowable ranges that the table of crates/range_tests expects:

    tools/vectors/ranges.py

Each range is found by trying every change around 0 over the tree of a proof, one by one, until one is not good; where the first thousands
are good, the limit of the number and random changes up to it must be good too. Shares no code with the programs.
"""
import random

INFINITE = float("inf")
TRIED = 5000
LIMITS = {"cost": 2**40, "coef": 2**40, "low": 2**62, "high": 2**62, "lower": 2**24, "upper": 2**24}


def leaf(q, **multipliers):
    return ("leaf", q, {int(row[1:]): number for row, number in multipliers.items()})


def split(col, at, left, right):
    return ("split", col, at, left, right)


# A model: costs, bounds of columns, rows as coefficients with a low and a high side.
MODELS = {
    "three_rows": (
        [-5, -4, -3],
        [(0, 10)] * 3,
        [([2, 3, 1], None, 5), ([4, 1, 2], None, 11), ([3, 4, 2], None, 8)],
    ),
    "no_rows": ([2, -1], [(0, 4)] * 2, []),
    "parity": ([0, 0], [(0, 1)] * 2, [([2, -2], 1, 1)]),
    "band": ([0, 0], [(0, 4)] * 2, [([2, -2], -3, 5)]),
}
RAYS = split(0, 0, leaf(0, r0=1), split(1, 0, leaf(0, r0=-1), leaf(0, r0=1)))
PROOFS = {
    "three_rows": ([2, 0, 1], leaf(1, r0=-1, r2=-1)),
    "no_rows": ([0, 4], leaf(1)),
    "parity": (None, RAYS),
    "band": ([1, 1], split(0, 1, leaf(1), leaf(1))),
}


def number_at(model, place):
    costs, bounds, rows = model
    kind, *at = place
    if kind == "cost":
        return costs[at[0]]
    if kind in ("lower", "upper"):
        return bounds[at[0]][kind == "upper"]
    if kind == "coef":
        return rows[at[0]][0][at[1]]
    return rows[at[0]][1 if kind == "low" else 2]


def raised(model, place, by):
    costs, bounds, rows = list(model[0]), [list(side) for side in model[1]], [[list(r[0]), r[1], r[2]] for r in model[2]]
    kind, *at = place
    if kind == "cost":
        costs[at[0]] += by
    elif kind in ("lower", "upper"):
        bounds[at[0]][kind == "upper"] += by
    elif kind == "coef":
        rows[at[0]][0][at[1]] += by
    else:
        rows[at[0]][1 if kind == "low" else 2] += by
    return costs, bounds, rows


def box_sum(model, box):
    return sum(min(cost * low, cost * high) for cost, (low, high) in zip(model[0], box))


def leaf_bound(model, box, q, multipliers):
    if any(high < low for low, high in box):
        return INFINITE
    value, costs = 0, [q * cost for cost in model[0]]
    for i, number in multipliers.items():
        coefs, low, high = model[2][i]
        side = low if number > 0 else high
        if side is None:
            return box_sum(model, box)
        value += number * side
        costs = [cost - number * coef for cost, coef in zip(costs, coefs)]
    value += sum(min(cost * low, cost * high) for cost, (low, high) in zip(costs, box))
    if q > 0:
        return -(-value // q)
    return INFINITE if value > 0 else box_sum(model, box)


def bound(model, tree, box):
    if tree[0] == "leaf":
        return leaf_bound(model, box, tree[1], tree[2])
    _, col, at, left, right = tree
    low, high = box[col]
    below = box[:col] + [(low, min(high, at))] + box[col + 1:]
    above = box[:col] + [(max(low, at + 1), high)] + box[col + 1:]
    return min(bound(model, left, below), bound(model, right, above))


def feasible(model, point):
    inside = all(low <= x <= high for x, (low, high) in zip(point, model[1]))
    for coefs, low, high in model[2]:
        value = sum(coef * x for coef, x in zip(coefs, point))
        inside = inside and (low is None or low <= value) and (high is None or value <= high)
    return inside


def is_good(name, place, keep, by):
    if abs(number_at(MODELS[name], place) + by) > LIMITS[place[0]]:
        return False
    model, (point, tree) = raised(MODELS[name], place, by), PROOFS[name]
    proved = bound(model, tree, [tuple(side) for side in model[1]])
    if keep is not None:
        return proved >= keep
    return feasible(model, point) and proved >= sum(cost * x for cost, x in zip(model[0], point))


def end(name, place, keep, sign):
    by = 0
    while by < TRIED and is_good(name, place, keep, sign * (by + 1)):
        by += 1
    if by < TRIED:
        return sign * by
    last = LIMITS[place[0]] - sign * number_at(MODELS[name], place)
    for far in [last] + [random.randrange(TRIED, last + 1) for _ in range(2000)]:
        assert is_good(name, place, keep, sign * far), (name, place, keep, sign, far)
    return sign * last


CASES = [
    # Each place of a leaf with multipliers: paid rows, a row without a multiplier, columns in and out of the point.
    ("three_rows", ("high", 0), None), ("three_rows", ("upper", 0), None), ("three_rows", ("cost", 1), None),
    ("three_rows", ("high", 1), None), ("three_rows", ("cost", 0), None), ("three_rows", ("coef", 0, 0), None),
    ("three_rows", ("coef", 0, 1), None), ("three_rows", ("coef", 1, 2), None), ("three_rows", ("lower", 1), None),
    ("three_rows", ("high", 2), -16), ("three_rows", ("coef", 2, 1), -15), ("three_rows", ("lower", 0), -10),
    # A leaf without multipliers.
    ("no_rows", ("cost", 0), None), ("no_rows", ("cost", 1), -6), ("no_rows", ("cost", 1), -3), ("no_rows", ("upper", 1), None),
    # Rays that lapse, and a box that becomes empty.
    ("parity", ("low", 0), 1), ("parity", ("high", 0), 1), ("parity", ("coef", 0, 0), 1), ("parity", ("cost", 1), 7),
    ("parity", ("upper", 0), 1), ("parity", ("lower", 1), 1),
    # Both sides of a row, over a split.
    ("band", ("low", 0), None), ("band", ("high", 0), None), ("band", ("coef", 0, 1), None), ("band", ("lower", 0), None),
    ("band", ("cost", 1), None), ("band", ("cost", 0), -9),
]


def main():
    random.seed(2026)
    for name, place, keep in CASES:
        want = "none"
        if is_good(name, place, keep, 0):
            want = f"{end(name, place, keep, -1)} {end(name, place, keep, 1)}"
        print(name, *place, "best" if keep is None else f"keep {keep}", "->", want)


main()
