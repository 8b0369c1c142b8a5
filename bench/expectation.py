#!/usr/bin/env python3
"""Lists the worlds of small random cubes in the plain model and compares what they come to with its answers:
expectation.py CASES SEED

On each cube, for every region and column, each denominator of the answer divides the mass of the worlds, and the answer
times the mass is the total over the worlds. The answers at the children of a node add up to that at the node. The status is
1 at the first cube of which this does not hold.
"""
import sys
from fractions import Fraction
from itertools import product
from random import Random

sys.dont_write_bytecode = True

import differential
import plain_model
from calls import want_words

MOST_WORLDS = 2_000


def state_of(schema, script):
    """The schema and the facts that a script leaves, of which it keeps the first few, so that the worlds can be listed."""
    _, _, schema, facts = plain_model.do_lines(schema, [], script)
    while count_worlds(schema, facts) > MOST_WORLDS:
        facts = facts[:-1]
    return schema, facts


def count_worlds(schema, facts):
    number = 1
    for _, allocation in plain_model.extended(schema, facts):
        number *= len(allocation.rows)
    return number


def totals_of(schema, facts, worlds, region):
    """For each column, the count first, the sum over all worlds of the weight times what stands in the region."""
    rows = [[1, *(value for values in fact.values for value in values)] for fact in facts]
    totals = [0] * plain_model.first_column(schema, len(schema.measures))
    for weight, cells in worlds:
        for row, cell in zip(rows, cells):
            if plain_model.is_inside(schema, cell, region):
                totals = [so_far + weight * value for so_far, value in zip(totals, row)]
    return totals


def sums_of(schema, terms):
    """The sum of each column of an answer as a fraction."""
    return [
        sum((Fraction(term[1 + column], term[0]) for term in terms), Fraction(0))
        for column in range(plain_model.first_column(schema, len(schema.measures)))
    ]


def children_of(dimension, node):
    """The nodes whose parent a node is: the largest sets of leaves within its own."""
    leaves = [set(under) for under in dimension.leaves_under]
    return [n for n in range(node + 1, len(leaves)) if parent_of(leaves, n) == node]


def parent_of(leaves, node):
    """The nearest node before it that has its leaves."""
    return next(n for n in range(node - 1, -1, -1) if leaves[node] <= leaves[n])


def holds(schema, facts):
    allocations = [allocation for _, allocation in plain_model.extended(schema, facts)]
    worlds = list(plain_model.worlds_of(allocations))
    mass = sum(weight for weight, _ in worlds)
    for region in product(*(range(len(dim.names)) for dim in schema.dimensions)):
        terms = plain_model.answer(schema, facts, region)
        sums = sums_of(schema, terms)
        if any(mass % term[0] for term in terms):
            return False
        if [s * mass for s in sums] != totals_of(schema, facts, worlds, region):
            return False
        if not adds_up(schema, facts, region, sums):
            return False
    return True


def adds_up(schema, facts, region, sums):
    for place, dimension in enumerate(schema.dimensions):
        children = children_of(dimension, region[place])
        parts = [(*region[:place], child, *region[place + 1 :]) for child in children]
        answers = [sums_of(schema, plain_model.answer(schema, facts, part)) for part in parts]
        if children and [sum(column) for column in zip(*answers)] != sums:
            return False
    return True


def main():
    want_words(2, __doc__)
    cases, seed = int(sys.argv[1]), sys.argv[2]
    done, number = 0, 0
    while done < cases:
        number += 1
        made = differential.Made(Random(f"expectation {seed} {number}"))
        try:
            schema, _ = plain_model.read_schema(made.schema)
        except plain_model.SchemaFault:
            continue
        schema, facts = state_of(schema, made.script[:12])
        if not holds(schema, facts):
            print(f"seed {seed} cube {number}: worlds and answers differ")
            return 1
        done += 1
    print(f"{done} cubes of seed {seed}: every answer times the mass of the worlds is the total over them")
    return 0


if __name__ == "__main__":
    sys.exit(main())
