#!/usr/bin/env python3
"""Prints the checksums of random operations on fractions that the tests of crates/frac128 compare with theirs:

    tools/vectors/frac128.py

The operands are those of the tests, made by the same generator; the answers are computed here, by exact fractions, and an operation is
wide where a number that the contract names leaves the range.
"""
from fractions import Fraction
from math import ceil, floor, gcd

RANGE = 2**127 - 1
LIMITS = [(2, 2), (2**31, 1000), (2**64, 2**63), (2**100, 2**20), (2**20, 2**100), (RANGE, 3)]
CASES = 4096


class Source:
    def __init__(self):
        self.state = 2026

    def next(self):
        self.state = (self.state * 6364136223846793005 + 1442695040888963407) % 2**64
        return self.state >> 33

    def below(self, limit):
        positive = self.next() % 2 == 0
        number = 0
        for _ in range(5):
            number = (number * 2**31 + self.next()) % 2**128
        return number % limit if positive else -(number % limit)

    def operand(self, kind, like):
        if kind < 6:
            num, den = (self.below(limit) for limit in LIMITS[kind])
            return fraction(num, den)
        if kind == 6:
            return fraction(self.below(2**40), like.denominator)
        return fraction(like.denominator, like.numerator)


def fraction(num, den):
    return Fraction(num, den) if den else Fraction(0)


def fits(*numbers):
    return all(-RANGE <= n <= RANGE for n in numbers)


def total(x, y):
    a, b, c, d = x.numerator, x.denominator, y.numerator, y.denominator
    g = gcd(b, d)
    left, right = a * (d // g), c * (b // g)
    return parts(x + y) if fits(left, right, left + right, b // g * d) else (0, 0)


def product(x, y):
    a, b, c, d = x.numerator, x.denominator, y.numerator, y.denominator
    g, h = gcd(a, d), gcd(c, b)
    return parts(x * y) if fits((a // g) * (c // h), (b // h) * (d // g)) else (0, 0)


def parts(x):
    return x.numerator, x.denominator


OPERATIONS = {
    "Sum": total,
    "Difference": lambda x, y: total(x, -y),
    "Product": product,
    "Quotient": lambda x, y: product(x, 1 / y) if y else (0, 0),
    "Order": lambda x, y: ((x > y) - (x < y), 1),
    "Rounding": lambda x, y: (floor(x), ceil(x)),
}


def mixed(total, number):
    low, high = abs(number) % 2**64, abs(number) // 2**64
    return (total * 31 + low * 3 + high * 5 + (number < 0)) % 2**64


def checksum(operation):
    source, total = Source(), 0
    for case in range(CASES):
        x = source.operand(case % 6, None)
        y = source.operand(case // 6 % 8, x)
        num, den = operation(x, y)
        total = mixed(mixed(total, num), den)
    return total


for name, operation in OPERATIONS.items():
    print(f"(Operation::{name}, {checksum(operation)}),")
