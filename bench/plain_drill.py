#!/usr/bin/env python3
"""A plain model of the drill: plain_drill.py N

It makes a schema, N facts and the withdrawal of every third as lines of a script, does these by the plain model of scripts, and
prints one line: the number of facts and of rows at the end, how many facts were refreshed, and the count and the sum of all.
"""
import sys

from plain_model import Refused, answer, do_line, extended, number_in, read_schema, reply_line, total

MAX_DRILL = 100_000


def tree_lines(name, branches):
    """The lines of a dimension with a root, and below it the nodes of these names, each with the nodes below it."""
    yield from (b"dimension\t" + name, b"node\t0\tAll")
    for upper, lower in branches:
        yield b"node\t1\t" + upper
        yield from (b"node\t2\t" + node for node in lower)


def drill_schema():
    states = [(b"s%d" % s, [b"s%dc%d" % (s, c) for c in range(8)]) for s in range(8)]
    quarters = [(b"q%d" % q, [b"q%dw%d" % (q, w) for w in range(13)]) for q in range(4)]
    head = [b"cube\t1", b"policy\tcount", b"number\tAmount"]
    nodes = [*tree_lines(b"Place", states), *tree_lines(b"Time", quarters)]
    schema, _ = read_schema([*head, *nodes, b"view\tstate\t1\t1", b"end"])
    return schema


def draws(seed):
    state = seed
    while True:
        state = (state * 1_103_515_245 + 12_345) % 2**31
        yield state // 65_536


def drill_lines(n):
    """The lines that insert n facts, which are drawn, and then those that withdraw each whose id 3 divides."""
    drawn = draws(n)
    for id in range(1, n + 1):
        place, time, kind, amount = (next(drawn) for _ in range(4))
        (state, city), (quarter, week) = divmod(place % 64, 8), divmod(time % 52, 13)
        kind %= 16
        where = b"s%d" % state if kind in (0, 2) else b"s%dc%d" % (state, city)
        when = b"q%d" % quarter if kind in (1, 2) else b"q%dw%d" % (quarter, week)
        yield b"insert\t%d\t%b\t%b\t%d" % (id, where, when, amount % 1000)
    for id in range(3, n + 1, 3):
        yield b"withdraw\t%d" % id


def drill(n):
    """The summary of the drill of a number, and how many of its edits were refused."""
    schema, facts, sizes, refusals = drill_schema(), [], [], 0
    for line in drill_lines(n):
        try:
            reply, schema, facts = do_line(schema, facts, line)
            sizes.append(int(reply.split()[1]))
        except Refused:
            refusals += 1
    rows = sum(len(allocation.rows) for _, allocation in extended(schema, facts))
    terms = answer(schema, facts, (0, 0))
    whole = [total(terms, column).exact for column in (0, 1)]
    return reply_line(b"drill", n, len(facts), rows, sum(sizes), *whole), refusals


def main():
    n = number_in(1, MAX_DRILL, sys.argv[1].encode()) if len(sys.argv) == 2 else None
    if n is None:
        sys.exit("usage: plain_drill.py N, a number from 1 to 100,000")
    line, _ = drill(n)
    sys.stdout.buffer.write(line)


if __name__ == "__main__":
    main()
