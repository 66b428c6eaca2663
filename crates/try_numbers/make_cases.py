#!/usr/bin/env python3
"""Writes stdin and stdout beside this file: pairs of directions, and their numbers by another way than the crate's.

The number is 2^24 times the square of the sine, rounded down. Here it comes from the inner product, in Python's
unbounded integers; the crate takes the cross product, in words of 64 bits."""
import itertools, os, random

EIGHT = [(0, 0, 1000), (300, 0, 1000), (0, 500, 1000), (-400, 300, 1000),
         (200, -600, 1000), (-700, -100, 1000), (600, 650, 1000), (-150, -350, 900)]


def number(d, e):
    inner = sum(a * b for a, b in zip(d, e))
    whole = sum(a * a for a in d) * sum(b * b for b in e)
    return (1 << 24) * (whole - inner * inner) // whole


def corners(size):
    return list(itertools.product((-size, size), repeat=3))


def some(rng, size):
    while True:
        d = tuple(rng.randint(-size, size) for _ in range(3))
        if any(d):
            return d


def near(rng, d):
    while True:
        e = tuple(min(65535, max(-65535, a + rng.randint(-1, 1))) for a in d)
        if any(e):
            return e


def cases():
    yield from itertools.permutations(EIGHT, 2)
    yield from itertools.product(corners(65535) + corners(1), repeat=2)
    axes = [(65535, 0, 0), (0, 65535, 0), (0, 0, -65535), (1, 0, 0), (65535, 65534, 0), (65535, 65535, 65534)]
    yield from itertools.product(axes, repeat=2)
    rng = random.Random(1)
    for size in (1, 2, 3, 10, 100, 1000, 10000, 65535):
        for _ in range(25):
            d = some(rng, size)
            yield d, some(rng, size)
            yield d, some(rng, 65535)
            yield d, near(rng, d)


here = os.path.dirname(os.path.abspath(__file__))
with open(os.path.join(here, 'stdin'), 'w') as asked, open(os.path.join(here, 'stdout'), 'w') as expected:
    for d, e in cases():
        print(*d, *e, file=asked)
        print(number(d, e), file=expected)
