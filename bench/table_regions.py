#!/usr/bin/env python3
"""Checks the tables of the plain model against its answers of each region alone: table_regions.py CASES SEED

Each case is a small random cube after a random script. Every region of it is asked `terms`, `count`, `sum`, `avg` and `pool`, one after the
other. Then tables are asked for at random depths and nodes. Each must list those of all these regions that a path from the root says are in
it and that have terms, with their answers; and its counts and sums must add up to those of the region that is asked. The status is 1 at the
first difference.
"""
import sys
from fractions import Fraction
from itertools import product
from random import Random

sys.dont_write_bytecode = True

import differential
import plain_model
from calls import want_words

MOST_REGIONS = 250  # of a cube; larger ones are passed over
ASKED = 12  # tables of a cube
QUESTIONS = {b"counts": b"count", b"sums": b"sum", b"avgs": b"avg", b"pools": b"pool"}


def paths_of(dim):
    """The way from the root to each node, by names, in the order of the nodes."""
    paths, way = [], []
    for depth, name in zip(dim.depths, dim.names):
        way = [*way[:depth], name]
        paths.append(tuple(way))
    return paths


def is_member(paths, path, depth, asked):
    """Whether the node at the end of a path is a part of the one that is asked, where the dimension is cut at a depth."""
    if len(asked) - 1 > depth:
        return path == asked
    is_leaf = not any(other[:-1] == path for other in paths)
    at_cut = len(path) - 1 == depth or (len(path) - 1 < depth and is_leaf)
    return at_cut and path[: len(asked)] == asked


def answered(schema, facts, *fields):
    """The fields of a reply."""
    try:
        return plain_model.do_line(schema, facts, b"\t".join(fields))[0].removesuffix(b"\n").split(b"\t")
    except plain_model.Refused as refused:
        return [b"error", refused.code.encode()]


class Cube:
    """A cube, and what each of its regions is answered."""

    def __init__(self, schema, facts):
        self.schema, self.facts, self.known = schema, facts, {}
        self.paths = [paths_of(dim) for dim in schema.dimensions]
        self.regions = list(product(*self.paths))
        names = [tuple(path[-1] for path in region) for region in self.regions]
        self.with_terms = [r for r, n in zip(self.regions, names) if self.answer(b"terms", [], n) != [b"terms", b"0"]]

    def answer(self, word, measure, names):
        key = word, *measure, *names
        if key not in self.known:
            self.known[key] = answered(self.schema, self.facts, *key)
        return self.known[key]

    def wanted(self, word, measure, depths, asked):
        """The table, out of all regions."""
        listed = [r for r in self.with_terms if all(map(is_member, self.paths, r, depths, asked))]
        names = [[path[-1] for path in region] for region in listed]
        items = [item for n in names for item in [*n, *self.answer(QUESTIONS[word], measure, n)[1:]]]
        return [word, b"%d" % len(listed), *items]

    def found(self, word, measure, depths, asked):
        texts = [b"%d" % depth for depth in depths]
        return answered(self.schema, self.facts, word, *measure, *texts, *(path[-1] for path in asked))

    def adds_up(self, word, measure, found, asked):
        """Whether the exact numbers of a table add up to that of the region that is asked."""
        width = len(self.paths) + 3
        exact = found[1 + width :: width]
        whole = self.answer(QUESTIONS[word], measure, [path[-1] for path in asked])[3]
        return b"wide" in [*exact, whole] or sum(Fraction(text.decode()) for text in exact) == Fraction(whole.decode())


def made_cube(seed, number):
    """A cube, or none where it is too large or its schema is refused."""
    made = differential.Made(Random(f"tables {seed} {number}"))
    try:
        schema, _ = plain_model.read_schema(made.schema)
    except plain_model.SchemaFault:
        return None
    _, _, schema, facts = plain_model.do_lines(schema, [], made.script)
    regions = 1
    for dim in schema.dimensions:
        regions *= len(dim.names)
    return Cube(schema, facts) if regions <= MOST_REGIONS else None


def asked_of(random, cube):
    """A word, a measure where it has one, a depth of each dimension, and a region."""
    kinds = {False: [b"sums", b"avgs"], True: [b"pools"]}
    asks = [(b"counts", [])] + [(word, [m.name]) for m in cube.schema.measures for word in kinds[m.scale is not None]]
    depths = [random.choice([0, 1, 1, 2, 2, 3, 4, 8]) for _ in cube.paths]
    word, measure = random.choice(asks)
    return word, measure, depths, random.choice([cube.regions[0], random.choice(cube.regions)])


def is_right(number, cube, asked):
    word, measure, _, region = asked
    found, wanted = cube.found(*asked), cube.wanted(*asked)
    if found != wanted:
        print(f"case {number}: {asked}: {found} instead of {wanted}")
    elif word in (b"counts", b"sums") and not cube.adds_up(word, measure, found, region):
        print(f"case {number}: {asked}: {found} does not add up")
        return False
    return found == wanted


def main():
    want_words(2, __doc__)
    cases, seed = int(sys.argv[1]), int(sys.argv[2])
    cubes = tables = listed = 0
    for number in range(cases):
        cube = made_cube(seed, number)
        if cube is None:
            continue
        cubes += 1
        random = Random(f"asked {seed} {number}")
        for asked in [asked_of(random, cube) for _ in range(ASKED)]:
            if not is_right(number, cube, asked):
                return 1
            tables, listed = tables + 1, listed + int(cube.found(*asked)[1])
    print(f"{tables} tables of {cubes} cubes are right, with {listed} regions")
    return 0


if __name__ == "__main__":
    sys.exit(main())
