#!/usr/bin/env python3
"""Examples worked out by hand, each run through the plain model: plain_model_rows.py [slow]

With `slow` those are run too that list millions of cells or have a thousand facts, in less than a minute and 500 MB. The status is 1 where the
model says anything else than an example. `|` stands for a TAB. Those of tables stand in plain_table_rows.py,
those of worlds and rounds in plain_world_rows.py, and those of feeds in plain_feed_rows.py.
"""
import sys
from unittest.mock import patch

sys.dont_write_bytecode = True

import plain_feed_rows
import plain_model
import plain_table_rows
import plain_world_rows
from plain_row_schemas import (
    BY_REPAIRS,
    CARS,
    CHAIN,
    COUNTED_LEAVES,
    EVEN_LEAVES,
    EXCHANGED,
    GRID,
    MODELS,
    NUMBERED,
    ONE_CITY,
    QUALITY,
    REPAIRS,
    SHARES,
    UNEVEN,
    Example,
    encoded,
    lines_in,
    script_example,
    shares_of_primes,
)


def shares_of_each_model():
    """One fact of each model in a, one fewer than its number in b, and one in either city, of which a has the share of one
    in its number."""
    id = 0
    for k in range(1, 101):
        for place in ["a", *["b"] * (k - 1), "All"]:
            id += 1
            yield f"insert|{id}|{place}|m{k}", "ok|1"


# Scripts: a name, a schema, and each line with its reply.
SCRIPTS = [
    ("a fact lies by the precise facts of its cells", CARS, REPAIRS),
    ("a fact lies evenly where no cell weighs anything", CARS, [
        *REPAIRS,
        ("withdraw|1", "ok|1"),
        ("withdraw|2", "ok|1"),
        ("withdraw|3", "ok|1"),
        ("rows|4", "rows|3|3|Austin|Camry|1|Dallas|Camry|1|Houston|Camry|1"),
    ]),
    ("a change moves a fact and refreshes another", CARS, [
        *REPAIRS,
        ("change|3|Houston|Camry|50", "ok|2"),
        ("rows|4", "rows|3|2|Austin|Camry|2|Houston|Camry|1"),
    ]),
    ("a node over one leaf stands for that leaf", ONE_CITY, [
        ("insert|1|NV", "ok|1"),
        ("rows|1", "rows|1|1|Reno|1"),
        ("insert|2|All", "ok|1"),
        ("rows|2", "rows|1|1|Reno|1"),
        ("terms|Reno", "terms|1|1|2"),
        ("count|Reno", "count|2.000000000|2.000000000|2"),
    ]),
    ("counts, sums and means", CARS, [
        *REPAIRS,
        ("count|Austin|Camry", "count|2.666666666|2.666666667|8/3"),
        ("sum|Repair|Austin|Camry", "sum|800.000000000|800.000000000|800"),
        ("avg|Repair|TX|All", "avg|262.500000000|262.500000000|525/2"),
        ("change|2|Austin|Camry|301", "ok|0"),
        ("sum|Repair|Austin|Camry", "sum|801.000000000|801.000000000|801"),
    ]),
    ("a sum and a mean below 0", CARS, [
        ("insert|1|Austin|Camry|0", "ok|1"),
        ("insert|2|Dallas|Camry|0", "ok|1"),
        ("insert|3|Houston|Camry|0", "ok|1"),
        ("insert|4|TX|Camry|-1", "ok|1"),
        ("sum|Repair|Austin|Camry", "sum|-0.333333334|-0.333333333|-1/3"),
        ("avg|Repair|Austin|Camry", "avg|-0.250000000|-0.250000000|-1/4"),
    ]),
    ("a change of a value alone refreshes nothing", CARS, [
        *REPAIRS,
        ("change|2|Austin|Camry|301", "ok|0"),
        ("terms|Austin|Camry", "terms|2|1|2|401|3|2|1200"),
    ]),
    ("a common multiple too large for one fraction", SHARES, [
        *shares_of_primes(),
        ("count|a|All", "count|4.000000000|4.000000004|wide"),
        ("sum|Value|a|All", "sum|-16.000000004|-16.000000000|wide"),
        ("avg|Value|a|All", "avg|-4.000000001|-3.999999996|wide"),
        ("sum|Weight|a|All", "sum|4.000000000|4.000000000|4"),
        ("avg|Weight|a|All", "avg|0.999999999|1.000000000|wide"),
    ]),
    ("no fact", CARS, [
        ("count|All|All", "count|0.000000000|0.000000000|0"),
        ("terms|All|All", "terms|0"),
        ("sum|Repair|All|All", "sum|0.000000000|0.000000000|0"),
        ("avg|Repair|All|All", "error|undefined"),
    ]),
    ("a fact lies by the sums of its cells", BY_REPAIRS, [
        *REPAIRS[:-1],
        ("rows|4", "rows|450|2|Austin|Camry|400|Dallas|Camry|50"),
        ("terms|Austin|Camry", "terms|2|1|2|400|450|400|240000"),
        ("count|Austin|Camry", "count|2.888888888|2.888888889|26/9"),
        ("change|2|Austin|Camry|301", "ok|1"),
        ("rows|4", "rows|451|2|Austin|Camry|401|Dallas|Camry|50"),
        ("insert|1|LA|Civic|-1", "error|value"),
        ("change|3|Dallas|Camry|0", "ok|1"),
        ("rows|4", "rows|401|1|Austin|Camry|401"),
    ]),
    ("distributions", QUALITY, [
        ("insert|1|Austin|80:20", "ok|1"),
        ("insert|2|TX|50:50", "ok|1"),
        ("insert|3|LA|80:21", "error|parts"),
        ("insert|3|LA|80", "error|parts"),
        ("insert|3|LA|80:20:0", "error|parts"),
        ("insert|3|LA|080:20", "error|parts"),
        ("insert|3|LA|120:-20", "error|parts"),
        ("insert|2|LA|1:1", "error|parts"),
        ("insert|2|LA|100:0", "error|exists"),
        ("terms|Austin", "terms|2|1|1|80|20|2|1|50|50"),
        ("terms|LA", "terms|0"),
        ("pool|Quality|Austin", "pool|0.700000000|0.700000000|7/10|0.300000000|0.300000000|3/10"),
        ("pool|Quality|LA", "error|undefined"),
        ("sum|Quality|Austin", "error|measure"),
        ("avg|Quality|LA", "error|measure"),
    ]),
    ("a wrong number comes before wrong parts", ["cube|1", "policy|count", "parts|P|2|x|y", "number|n", *QUALITY[3:]], [
        ("insert|1|LA|1:2|x", "error|value"),
        ("insert|1|LA|1:2|1", "error|parts"),
        ("insert|1|LA|0:2|1", "ok|1"),
    ]),
    ("nodes with numbers of their own", NUMBERED, [
        ("insert|1|Waco", "ok|1"),
        ("insert|2|TX", "ok|1"),
        ("rows|2", "rows|1|1|Waco|1"),
        ("withdraw|1", "ok|1"),
        ("rows|2", "rows|2|2|Austin|1|Waco|1"),
    ]),
    ("ids", CARS, [
        ("insert|0|Austin|Camry|1", "error|id"),
        ("insert|9223372036854775808|Austin|Camry|1", "error|id"),
        ("insert|9223372036854775807|Austin|Camry|1", "ok|1"),
        ("insert|9223372036854775807|Austin|Camry|1", "error|exists"),
        ("withdraw|5", "error|missing"),
        ("rows|5", "error|missing"),
        ("insert|01|Austin|Camry|1", "error|id"),
        ("insert||Austin|Camry|1", "error|id"),
    ]),
    ("values", CARS, [
        ("insert|1|LA|Civic|1000000000000", "ok|1"),
        ("insert|2|LA|Civic|1000000000001", "error|value"),
        ("insert|2|LA|Civic|+5", "error|value"),
        ("insert|2|LA|Civic|05", "error|value"),
        ("insert|2|LA|Civic|-0", "error|value"),
        ("insert|2|LA|Civic|-", "error|value"),
        ("insert|2|LA|Civic|", "error|value"),
        ("insert|2|LA|Civic|-1000000000001", "error|value"),
        ("insert|2|LA|Civic|-1000000000000", "ok|1"),
        ("terms|LA|All", "terms|1|1|2|0"),
    ]),
    ("terms add up by their denominators", CARS, [
        *REPAIRS,
        ("terms|Austin|Camry", "terms|2|1|2|400|3|2|1200"),
        ("terms|Dallas|Camry", "terms|2|1|1|50|3|1|600"),
        ("terms|Houston|Camry", "terms|0"),
        ("terms|TX|Camry", "terms|2|1|3|450|3|3|1800"),
    ]),
    ("the first condition that holds", CARS, [
        ("Insert|1|Austin|Camry|1", "error|command"),
        ("insert|1|Austin|Camry", "error|fields"),
        ("insert|0|Waco|Camry|+5", "error|id"),
        ("insert|1|Waco|Camry|+5", "error|node"),
        ("sum|Price|Waco|Camry", "error|node"),
        ("sum|Price|Austin|Camry", "error|measure"),
        ("pool|Repair|Austin|Camry", "error|measure"),
        ("avg|Repair|Austin", "error|fields"),
        ("change|1|Austin|Camry|+5", "error|value"),
        ("change|1|Austin|Camry|5", "error|missing"),
        ("insert|1|Austin|Camry|1\x01|2", "error|text"),
        ("inse\udcffrt", "error|text"),
        ("terms|All|All\r", "terms|0"),
        ("terms|All|All\r\r", "error|text"),
        ("terms|All", "error|fields"),
        ("rows", "error|fields"),
        ("|rows", "error|command"),
        ("\udcff" * 4097, "error|long"),
        ("x" * 4096 + "\r", "error|long"),
        ("x" * 4095 + "\r", "error|command"),
        ("#" + "\udcff" * 5000, None),
        ("\r", None),
    ]),
    ("worlds of four facts", CARS, [
        ("worlds|All|All", "worlds|1|1|0|0"),
        *REPAIRS,
        ("worlds|Austin|Camry", "worlds|2|3|8|2400"),
        ("worlds|Dallas|Camry", "worlds|2|3|4|750"),
        ("worlds|Houston|Camry", "worlds|2|3|0|0"),
        ("worlds|All|All", "worlds|2|3|12|3150"),
        ("worlds|All", "error|fields"),
        ("worlds|Austin|Waco", "error|node"),
    ]),
    ("the most worlds", EVEN_LEAVES, [
        *((f"insert|{k}|All", "ok|1") for k in range(1, 17)),
        ("worlds|All", "worlds|65536|65536|1048576"),
        ("insert|17|All", "ok|1"),
        ("worlds|All", "error|many"),
        ("worlds|b", "error|many"),
        ("withdraw|17", "ok|0"),
        ("worlds|b", "worlds|65536|65536|524288"),
    ]),
    ("a view of states by kinds of autos", CARS, [
        *REPAIRS,
        ("view|state", "view|1|TX|Sedan|2|1|3|450|3|3|1800"),
        ("view|none", "error|name"),
        ("view|", "error|name"),
        ("view|state|1", "error|fields"),
        ("view", "error|fields"),
    ]),
    ("the first dimension of a view is slowest", CARS, [
        ("view|state", "view|0"),
        ("insert|1|LA|F150|7", "ok|1"),
        ("insert|2|SF|Civic|5", "ok|1"),
        ("insert|3|Austin|Sierra|3", "ok|1"),
        ("insert|4|Dallas|Truck|-1", "ok|1"),
        ("view|state", "view|3|TX|Truck|2|1|1|3|2|2|-2|CA|Sedan|1|1|1|5|CA|Truck|1|1|1|7"),
        ("withdraw|3", "ok|0"),
        ("view|state", "view|3|TX|Truck|1|2|2|-2|CA|Sedan|1|1|1|5|CA|Truck|1|1|1|7"),
    ]),
    ("a cut has the leaves that lie less deep", UNEVEN, [
        ("insert|1|Reno", "ok|1"),
        ("insert|2|DC", "ok|1"),
        ("insert|3|NV", "ok|1"),
        ("view|deep", "view|2|Reno|1|1|2|DC|1|1|1"),
        ("view|states", "view|2|NV|1|1|2|DC|1|1|1"),
        ("view|all", "view|1|All|1|1|3"),
    ]),
    ("a view has the order of the lines, not of the numbers", EXCHANGED, [
        ("insert|1|NV", "ok|1"),
        ("insert|2|TX", "ok|1"),
        ("view|states", "view|2|TX|1|1|1|NV|1|1|1"),
    ]),
    ("the most cells of a region", GRID, [("insert|1|L|R", "error|region"), ("change|1|L|R", "error|missing")]),
    ("dimensions that grow", CARS, [
        *REPAIRS,
        ("grow|Place|Houston|Galleria", "ok|0"),
        ("grow|Place|Houston|Midtown", "ok|0"),
        ("insert|5|Houston|Camry|70", "ok|1"),
        ("rows|5", "rows|2|2|Galleria|Camry|1|Midtown|Camry|1"),
        ("grow|Auto|Sedan|Accord", "ok|3"),
        ("rows|4", "rows|3|2|Austin|Camry|2|Dallas|Camry|1"),
    ]),
    ("a precise fact lies in what grows under its leaf", CARS, [
        ("insert|1|Houston|Camry|5", "ok|1"),
        ("insert|2|TX|Camry|1", "ok|1"),
        ("grow|Place|Houston|Galleria", "ok|0"),
        ("rows|1", "rows|1|1|Galleria|Camry|1"),
        ("grow|Place|Houston|Midtown", "ok|2"),
        ("rows|1", "rows|2|2|Galleria|Camry|1|Midtown|Camry|1"),
        ("rows|2", "rows|4|4|Austin|Camry|1|Dallas|Camry|1|Galleria|Camry|1|Midtown|Camry|1"),
    ]),
    ("a fact is weighed by what no leaf has any more", BY_REPAIRS, [
        ("insert|1|Austin|Camry|3", "ok|1"),
        ("insert|2|Dallas|Camry|1", "ok|1"),
        ("insert|3|TX|Camry|8", "ok|1"),
        ("rows|3", "rows|4|2|Austin|Camry|3|Dallas|Camry|1"),
        ("grow|Place|Austin|North", "ok|0"),
        ("rows|3", "rows|4|2|North|Camry|3|Dallas|Camry|1"),
        ("grow|Place|Austin|South", "ok|3"),
        ("rows|3", "rows|1|1|Dallas|Camry|1"),
        ("sum|Repair|South|Camry", "sum|1.500000000|1.500000000|3/2"),
    ]),
    ("growths that are refused", CARS, [
        ("grow|City|TX|x", "error|node"),
        ("grow|Place|Waco|x", "error|node"),
        ("grow|Place|TX|LA", "error|name"),
        ("grow|Place|TX|", "error|name"),
        ("grow|Place|TX|" + "x" * 129, "error|name"),
        ("grow|Place|TX", "error|fields"),
        ("grow|Place|TX|x|y", "error|fields"),
        ("grow|City|TX|", "error|node"),
        ("grow|Place|Waco|LA", "error|node"),
        ("grow|Auto|TX|LA", "error|node"),
        ("Grow|Place|TX|x", "error|command"),
        ("grow|Place|TX|Camry", "ok|0"),
        ("grow|Place|TX|Camry", "error|name"),
    ]),
    ("a name is judged before the depth", CHAIN, [
        ("grow|D|n8|x", "error|depth"),
        ("grow|D|n8|n0", "error|name"),
        ("grow|D|n9|n0", "error|node"),
        ("grow|D|n7|x", "ok|0"),
        ("grow|D|x|y", "error|depth"),
    ]),
]

SLOW_SCRIPTS = [
    ("the largest mass of worlds", COUNTED_LEAVES, [
        *((f"insert|{k}|a", "ok|1") for k in range(1, 1025)),
        *((f"insert|{k}|All", "ok|1") for k in range(1025, 1031)),
        ("worlds|a", "worlds|1|1152921504606846976|1187509149745052385280"),
        ("worlds|b", "worlds|1|1152921504606846976|0"),
        ("insert|1031|All", "ok|1"),
        ("worlds|a", "error|wide"),
        ("worlds|b", "error|wide"),
    ]),
    ("denominators whose common multiple is too large", MODELS, [
        *shares_of_each_model(),
        ("count|a|All", "count|105.187377472|105.187377557|wide"),
        ("count|All|All", "count|5150.000000000|5150.000000000|5150"),
    ]),
    ("the most rows", GRID, [
        ("insert|1|L|R", "error|region"),
        ("insert|1|L|S", "ok|1"),
        ("insert|2|L|S", "ok|1"),
        ("insert|3|l1|t", "error|rows"),
        ("insert|3|l1|s1", "ok|3"),
        ("insert|4|L|S", "ok|1"),
        ("withdraw|3", "error|rows"),
        ("withdraw|4", "ok|0"),
        ("withdraw|3", "ok|2"),
    ]),
]

# With these limits the order of the refusals that large inputs alone meet is seen on small ones.
SMALL_LIMITS = {"MAX_CELLS": 5, "MAX_FACTS": 3, "MAX_ROWS": 6, "MAX_NODES": 11, "MAX_PRODUCT": 90}

LIMITED_SCRIPTS = [
    ("limits in their order", CARS, [
        ("change|1|All|All|0", "error|missing"),
        ("insert|1|All|All|0", "error|region"),
        ("insert|1|TX|Camry|0", "ok|1"),
        ("insert|1|All|All|0", "error|exists"),
        ("change|1|All|All|0", "error|region"),
        ("insert|2|TX|Camry|0", "ok|1"),
        ("insert|3|Austin|Sedan|0", "error|rows"),
        ("change|2|TX|Sedan|0", "error|region"),
        ("insert|3|Austin|Camry|0", "ok|3"),
        ("insert|4|All|All|0", "error|region"),
        ("insert|4|TX|F150|0", "error|facts"),
        ("change|3|TX|F150|0", "error|rows"),
        ("rows|3", "rows|1|1|Austin|Camry|1"),
        ("withdraw|3", "ok|2"),
        ("insert|3|LA|F150|0", "error|rows"),
    ]),
    ("limits of growths in their order", CARS, [
        ("insert|1|TX|Camry|0", "ok|1"),
        ("insert|2|TX|Camry|0", "ok|1"),
        ("grow|Place|TX|Waco", "error|rows"),
        ("withdraw|2", "ok|0"),
        ("grow|Place|TX|Waco", "ok|1"),
        ("grow|Place|TX|Marfa", "ok|1"),
        ("insert|2|LA|Camry|0", "ok|1"),
        # Six cells, and seven rows.
        ("grow|Place|TX|Alpine", "error|region"),
        ("grow|Auto|Camry|Hybrid", "ok|0"),
        # Ten nodes by nine, and ten cells.
        ("grow|Auto|Camry|Diesel", "error|nodes"),
        ("grow|Place|CA|SJ", "ok|0"),
        # Twelve nodes, and by eight 96.
        ("grow|Place|CA|Reno", "error|limit"),
        ("rows|1", "rows|5|5|Austin|Hybrid|1|Dallas|Hybrid|1|Houston|Hybrid|1|Waco|Hybrid|1|Marfa|Hybrid|1"),
    ]),
    ("the depth is judged before the limit", CHAIN, [
        ("grow|D|n7|x", "ok|0"),
        ("grow|D|n7|y", "ok|0"),
        ("grow|D|n8|z", "error|depth"),
        ("grow|D|n7|z", "error|limit"),
    ]),
]

# A schema, growths, and the text that is kept then.
KEPT_TEXTS = [
    (ONE_CITY, [], ONE_CITY),
    (ONE_CITY, ["grow|Place|TX|Houston"], [*ONE_CITY[:-1], "node|2|Houston", "end"]),
    (ONE_CITY, ["grow|Place|NV|Elko", "grow|Place|Elko|South"], lines_in("""
cube|2
policy|count
dimension|Place
node|0|All|0
node|1|NV|1
node|2|Reno|2
node|2|Elko|6
node|3|South|7
node|1|TX|3
node|2|Austin|4
node|2|Dallas|5
end
""")),
    (NUMBERED, ["grow|Place|CA|SF"], [*NUMBERED[:-1], "node|2|SF|6", "end"]),
    (["cube|2", *CARS[1:4], *(f"{line}|{k}" for k, line in enumerate(CARS[4:12])), CARS[12],
      *(f"{line}|{k}" for k, line in enumerate(CARS[13:20])), *CARS[20:]], [], CARS),
    (QUALITY, [], QUALITY),
    (BY_REPAIRS, [], BY_REPAIRS),
]

# The cars with another line in the place of one, the line that is then at fault, and its code.
FAULTS = [
    (1, "cube|3", 1, "number"),
    (1, "cube|2", 5, "fields"),
    (1, "cube", 1, "fields"),
    (1, "\ufeffcube|1", 1, "order"),
    (1, "policy|count", 1, "order"),
    (2, "policy", 2, "fields"),
    (2, "policy|em", 2, "policy"),
    (2, "policy|weight", 2, "fields"),
    (2, "policy|weight|", 2, "name"),
    (2, "policy|weight|Price", 22, "policy"),
    (3, "parts|Quality|100|good", 3, "fields"),
    (3, "parts|Quality|100|good|good", 3, "name"),
    (3, "parts|Quality|1000001|good|bad", 3, "number"),
    (3, "policy|count", 3, "order"),
    (3, "number|", 3, "name"),
    (4, "number|Repair", 4, "name"),
    (5, "node|1|All", 5, "depth"),
    (5, "end", 5, "order"),
    (6, "node|9|x", 6, "number"),
    (6, "node|01|x", 6, "number"),
    (6, "node|0|x", 6, "depth"),
    (6, "node|x|All", 6, "name"),
    (7, "node|3|Austin", 7, "depth"),
    (8, "node|2|Austin", 8, "name"),
    (8, "node|2|Dal\x7flas", 8, "text"),
    (8, "node|2|Dal\udcfflas", 8, "text"),
    (13, "dimension|Place", 13, "name"),
    (3, "view|state", 3, "order"),
    (5, "view|state|1", 5, "order"),
    (13, "view|state|1", 14, "order"),
    (13, "view|state|1|1", 13, "fields"),
    (21, "view|state|1", 21, "fields"),
    (21, "view|state|1|1|1", 21, "fields"),
    (21, "view|state|1|9", 21, "number"),
    (21, "view|state|01|1", 21, "number"),
    (21, "view|state||1", 21, "number"),
    (21, "view||1|9", 21, "name"),
    (21, "View|state|1|1", 21, "order"),
    (21, "end|", 21, "fields"),
    (22, "view|state|2|9", 22, "name"),
    (22, "node|1|NV", 22, "order"),
    (22, "dimension|Time", 22, "order"),
    (22, "end|", 22, "fields"),
    (22, "# end", 23, "cut"),
    (22, "#" + "\udcff" * 5000, 23, "cut"),
]


def wide(dimensions, leaves):
    """A schema of so many dimensions, each of a root and so many leaves under it."""
    lines = ["cube|1", "policy|uniform"]
    for dimension in range(dimensions):
        lines += [f"dimension|{dimension}", "node|0|All", *(f"node|1|{leaf}" for leaf in range(leaves))]
    return [*lines, "end"]


def measured(measures):
    return ["cube|1", "policy|uniform", *(f"number|{k}" for k in range(measures)), "dimension|x", "node|0|All", "end"]


def viewed(*views):
    return ["cube|1", "policy|count", "dimension|x", "node|0|All", *(f"view|{view}" for view in views), "end"]


def named(name):
    return ["cube|1", "policy|uniform", f"number|{name}"]


def renumbered(place, line):
    """The nodes with numbers, another line in the place of one."""
    return NUMBERED[: place - 1] + [line] + NUMBERED[place:]


# Whole schemas: a name, the lines, the line at fault and its code, or None.
SCHEMAS = [
    ("numbers", NUMBERED, None),
    ("no number", renumbered(7, "node|2|Waco"), (7, "fields")),
    ("a number too large", renumbered(7, "node|2|Waco|65536"), (7, "number")),
    ("a number misspelled", renumbered(7, "node|2|Waco|05"), (7, "number")),
    ("a number twice", renumbered(7, "node|2|Waco|2"), (7, "number")),
    ("a name twice before a number twice", renumbered(7, "node|2|Austin|2"), (7, "name")),
    ("a number twice before a depth", renumbered(7, "node|4|Waco|2"), (7, "number")),
    ("a number not below the count", renumbered(7, "node|2|Waco|6"), (10, "number")),
    ("a number not above the parent's", [*renumbered(5, "node|1|TX|2")[:5], "node|2|Austin|1", *NUMBERED[6:]], (10, "number")),
    ("numbers judged where a dimension ends", [*renumbered(7, "node|2|Waco|6")[:-1], "dimension|Auto", "node|0|x|0", "end"], (10, "number")),
    ("a name before the numbers", [*renumbered(7, "node|2|Waco|6")[:-1], "dimension|Place", "node|0|x|0", "end"], (10, "name")),
    ("a number in version 1", ["cube|1", *NUMBERED[1:]], (4, "fields")),
    ("a weight by a distribution", ["cube|1", "policy|weight|Quality", *QUALITY[2:]], (11, "policy")),
    ("one outcome", ["cube|1", "policy|count", "parts|Q|1|x"], (3, "fields")),
    ("eight outcomes", ["cube|1", "policy|count", "parts|Q|1|" + "|".join("abcdefgh")], (3, "fields")),
    ("seven outcomes", ["cube|1", "policy|count", "parts|Q|1|" + "|".join("abcdefg")], (4, "cut")),
    ("a column beyond seven", ["cube|1", "policy|count", "number|n", "parts|Q|1|" + "|".join("abcdefg")], (4, "limit")),
    ("no scale", ["cube|1", "policy|count", "parts|Q|0|x|y"], (3, "number")),
    ("four views", viewed("a|0", "b|8", "c|1", "d|0"), None),
    ("a fifth view", viewed("a|0", "b|8", "c|1", "d|0", "e|0"), (9, "limit")),
    ("a fifth view of no depth", viewed("a|0", "b|8", "c|1", "d|0", "e|9"), (9, "number")),
    ("numbers judged where a view ends the dimension", EXCHANGED[:5] + EXCHANGED[6:], (6, "number")),
    ("the name of a view before the numbers", [*EXCHANGED[:5], "view||1", "end"], (6, "name")),
    ("nothing", [], (1, "cut")),
    ("skipped lines count", ["", "# a\r", "cube|1", "\r", "policy|em"], (5, "policy")),
    ("a name of 128 bytes", named("x" * 128), (4, "cut")),
    ("a name of 129 bytes", named("x" * 129), (3, "name")),
    ("a line of 4,096 bytes", named("x" * 4089), (3, "name")),
    ("a line of 4,097 bytes", named("x" * 4090), (3, "long")),
    ("a line of 4,097 bytes with its CR", named("x" * 4089 + "\r"), (3, "long")),
    ("the deepest node", ["cube|1", "policy|count", "dimension|x", *(f"node|{k}|{k}" for k in range(10))], (13, "number")),
    ("seven measures", measured(7), None),
    ("eight measures", measured(8), (10, "limit")),
    ("six dimensions", wide(6, 1), None),
    ("seven dimensions", wide(7, 1), (21, "limit")),
    ("65,536 nodes", wide(1, 65_535), None),
    ("65,537 nodes", wide(1, 65_536), (65_540, "limit")),
    ("products below 2^62", wide(6, 1289), None),
    ("a product of nodes above 2^62", wide(6, 1290), (7755, "nodes")),
    ("a product of leaves above 2^62", wide(6, 1291), (7761, "cells")),
]


def schema_example(name, lines, fault):
    if fault is None:
        return Example(name, encoded(lines), (b"", 0, b""))
    line, code = fault
    return Example(name, encoded(lines), (b"", 3, f"cube: schema line {line}: {code}\n".encode()))


def fault_example(place, line, at, code):
    return schema_example(f"line {place} is {line[:40]!a}", CARS[: place - 1] + [line] + CARS[place:], (at, code))


def spelled_otherwise():
    """The same script with other line ends, and with lines between that say nothing."""
    lines = CARS + [line for line, _ in REPAIRS]
    ends = encoded([reply for _, reply in REPAIRS]), 0, b""
    return [
        Example("CR LF", encoded(lines, "\r\n"), ends),
        Example("no last LF", encoded(lines).removesuffix(b"\n"), ends),
        Example("a last CR without LF", encoded(lines, "\r\n").removesuffix(b"\n"), ends),
        Example("skipped lines between", encoded(lines, "\n\n# node|9\n\r\n#\r\n"), ends),
    ]


def examples():
    """All examples but the slow ones."""
    return [
        *(script_example(*row) for row in SCRIPTS + plain_table_rows.SCRIPTS + plain_world_rows.SCRIPTS),
        *spelled_otherwise(),
        *(fault_example(*row) for row in FAULTS),
        *(schema_example(*row) for row in SCHEMAS),
        Example("end without LF", encoded(CARS).removesuffix(b"\n"), (b"", 0, b"")),
    ]


def slow_examples():
    return [script_example(*row) for row in SLOW_SCRIPTS]


def large_examples():
    return [script_example(*row) for row in plain_world_rows.LARGE_SCRIPTS]


def shares_the_most():
    """Whether the model shares as many cells as it may, and no more, where these are few."""
    side = plain_world_rows.SMALL_SIDE
    with patch.object(plain_model, "MAX_SHARED", 2 * side * side):
        return holds(script_example(*plain_world_rows.most_shared(side)))


def limited_examples():
    return [script_example(*row) for row in LIMITED_SCRIPTS]


def holds(example):
    """Whether the model says what the example says. Where it does not, both are printed."""
    found = plain_model.run(["try"], example.text)
    if found != example.ends:
        print(f"{example.name}: the model ends with\n{found}\nand the example with\n{example.ends}")
    return found == example.ends


def keeps_text(schema, growths, text):
    """Whether the model keeps this text of a schema after growths. Where it does not, both are printed."""
    first, _ = plain_model.read_schema(plain_model.lines_of(encoded(schema)))
    _, _, last, _ = plain_model.do_lines(first, [], plain_model.lines_of(encoded(growths)))
    found = plain_model.schema_text(last)
    if found != encoded(text):
        print(f"the model keeps\n{found}\nand the example\n{encoded(text)}")
    return found == encoded(text)


def main():
    chosen = examples() + (slow_examples() if sys.argv[1:] == ["slow"] else [])
    held = [holds(example) for example in chosen]
    with patch.multiple(plain_model, **SMALL_LIMITS):
        held += [holds(example) for example in limited_examples()]
        held += plain_feed_rows.limited()
    held.append(shares_the_most())
    held += [keeps_text(*row) for row in KEPT_TEXTS]
    held += plain_table_rows.held() + plain_feed_rows.held()
    print(f"{len(held)} examples, {held.count(False)} wrong")
    return 0 if all(held) else 1


if __name__ == "__main__":
    sys.exit(main())
