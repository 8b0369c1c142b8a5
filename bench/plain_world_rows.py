"""Examples of the least and the greatest over possible worlds, and of facts that are shared in rounds, worked out by hand:
plain_model_rows.py runs them, and differential.py the large ones too"""
from plain_row_schemas import BY_REPAIRS, CARS, QUALITY, REPAIRS

# Facts 1 and 2 are in Austin, with 100 and 300, fact 3 is in Dallas with 50, and fact 4 may be in either, with 600.
PUT = REPAIRS[:4]


def put_with(value):
    """The same facts, where fact 4 has another value."""
    return [*PUT[:3], (f"insert|4|TX|Camry|{value}", "ok|1")]


def rounds_under(policy):
    """Rounds take no notice of the policy, also where a withdrawal spreads facts anew under some policies."""
    return f"rounds under {policy}", [line.replace("policy|count", policy) for line in CARS], [
        *PUT,
        ("iterate|1|Austin|Camry", "iterate|2796202|838860400"),
        ("component|4", "component|1|4"),
        ("withdraw|3", "ok|0" if policy == "policy|uniform" else "ok|1"),
        ("iterate|1|Austin|Camry", "iterate|3145728|1048576000"),
    ]


def square(side, policy, behind=()):
    """Two dimensions of a root with so many leaves, and further nodes of the second."""
    dims = (["dimension|X", "node|0|L"], "node|1|l"), (["dimension|Y", "node|0|R", "node|1|S"], "node|2|s")
    leaves = [line for start, leaf in dims for line in [*start, *(f"{leaf}{k}" for k in range(1, side + 1))]]
    return ["cube|1", policy, *leaves, *behind, "end"]


def crossing(side):
    """A chain of so many rows and columns, each of which crosses the next. All cells stand alike, so each fact is shared evenly."""
    share = 2**20 // side
    lines = [line for k in range(1, side + 1) for line in (f"insert|{2 * k - 1}|l{k}|S", f"insert|{2 * k}|L|s{k}")]
    ids = "|".join(str(id) for id in range(1, 2 * side + 1))
    return f"a chain of {2 * side} regions", square(side, "policy|uniform"), [
        *((line, "ok|1") for line in lines),
        (f"component|{2 * side}", f"component|{2 * side}|{ids}"),
        ("component|1", f"component|{2 * side}|{ids}"),
        ("iterate|1|L|R", f"iterate|{share * side * 2 * side}"),
        ("iterate|32|l1|R", f"iterate|{share * 2 * side}"),
        # Without a row its columns still cross the others.
        ("withdraw|3", "ok|0"),
        (f"component|{2 * side}", f"component|{2 * side - 1}|1|2|" + "|".join(str(id) for id in range(4, 2 * side + 1))),
    ]


def most_shared(side):
    """Imprecise facts of twice the square of the side in cells, all drawn to one cell, and then of one cell more."""
    ids = range(100, 100 + side)
    return f"{2 * side * side} cells that are shared, and one more", square(side, "policy|count", ["node|1|t"]), [
        ("insert|9|l1|s1", "ok|1"),
        ("insert|1|L|S", "ok|1"),
        *((f"insert|{id}|l1|S", "ok|1") for id in ids),
        ("component|1", "|".join(str(field) for field in ("component", side + 1, 1, *ids))),
        ("component|9", "component|1|9"),
        ("iterate|1|l1|s1", f"iterate|{(side + 2) * 2**20}"),
        ("iterate|32|L|R", f"iterate|{(side + 2) * 2**20}"),
        ("withdraw|100", "ok|0"),
        ("insert|100|l1|R", "ok|1"),
        ("component|1", "error|many"),
        ("component|9", "error|many"),
        ("component|7", "error|missing"),
        ("iterate|1|l1|s1", "error|many"),
        ("iterate|33|l1|s1", "error|number"),
        ("withdraw|100", "ok|0"),
        ("component|9", "component|1|9"),
    ]


# The side of the square of which the plain model shares the most cells, where its limit is set to these.
SMALL_SIDE = 3
# Too large for the plain model. 2^21 is twice the square of 1,024.
LARGE_SCRIPTS = [crossing(1000), most_shared(1024)]

# Scripts: a name, a schema, and each line with its reply.
SCRIPTS = [
    ("the ends of sums and counts", CARS, [
        *PUT,
        ("range|Repair|Austin|Camry", "range|400|1000"),
        ("rangecount|Austin|Camry", "rangecount|2|3"),
        ("least|Repair|Austin|Camry", "least|400|1|4|Dallas|Camry"),
        ("greatest|Repair|TX|Camry", "greatest|1050|1|4|Austin|Camry"),
        ("greatest|Repair|Austin|Camry", "greatest|1000|1|4|Austin|Camry"),
        ("least|Repair|TX|Camry", "least|1050|1|4|Austin|Camry"),
        ("greatest|Repair|Dallas|Camry", "greatest|650|1|4|Dallas|Camry"),
        # No world has fact 4 in California. It stands in its first cell then, as no cell serves better than another.
        ("range|Repair|CA|All", "range|0|0"),
        ("rangecount|CA|All", "rangecount|0|0"),
        ("greatest|Repair|CA|All", "greatest|0|1|4|Austin|Camry"),
    ]),
    ("a value below 0 lowers the sum where it is inside", CARS, [
        *put_with(-600),
        ("range|Repair|Austin|Camry", "range|-200|400"),
        ("least|Repair|Austin|Camry", "least|-200|1|4|Austin|Camry"),
        ("greatest|Repair|Austin|Camry", "greatest|400|1|4|Dallas|Camry"),
        ("rangecount|Dallas|All", "rangecount|1|2"),
    ]),
    ("a value of 0 is picked in its first cell", CARS, [
        *put_with(0),
        ("least|Repair|Dallas|Camry", "least|50|1|4|Austin|Camry"),
        ("greatest|Repair|Dallas|Camry", "greatest|50|1|4|Austin|Camry"),
        ("rangecount|Dallas|Camry", "rangecount|1|2"),
    ]),
    ("an imprecise fact of one row is picked there", CARS, [
        ("insert|1|Austin|Camry|5", "ok|1"),
        ("insert|4|TX|Camry|600", "ok|1"),
        ("least|Repair|Austin|Camry", "least|605|1|4|Austin|Camry"),
        ("rangecount|Austin|Camry", "rangecount|2|2"),
        ("greatest|Repair|Dallas|All", "greatest|0|1|4|Austin|Camry"),
    ]),
    ("the ends of no fact", CARS, [
        ("range|Repair|All|All", "range|0|0"),
        ("rangecount|All|All", "rangecount|0|0"),
        ("least|Repair|All|All", "least|0|0"),
        ("greatest|Repair|All|All", "greatest|0|0"),
    ]),
    # Dallas weighs as much as fact 3 says. Once that is 0, all of fact 4 lies in Austin.
    ("ends by the sums of cells, and after a growth", BY_REPAIRS, [
        *PUT[:3],
        ("insert|4|TX|Camry|600", "ok|1"),
        ("range|Repair|Dallas|Camry", "range|50|650"),
        ("change|3|Dallas|Camry|0", "ok|1"),
        ("range|Repair|Dallas|Camry", "range|0|0"),
        ("grow|Place|Dallas|North", "ok|0"),
        ("range|Repair|Austin|Camry", "range|1000|1000"),
        # Fact 3 is somewhere in Dallas now, evenly, as nothing is known there.
        ("grow|Place|Dallas|South", "ok|1"),
        ("rangecount|South|Camry", "rangecount|0|1"),
        ("least|Repair|North|All", "least|0|2|3|North|Camry|4|Austin|Camry"),
    ]),
    ("each refusal of an end", CARS, [
        ("range|Price|Waco|Camry", "error|node"),
        ("range|Price|Austin|Camry", "error|measure"),
        ("least|Price|Austin|Camry", "error|measure"),
        ("greatest|Repair|Austin|Austin", "error|node"),
        ("rangecount|Waco|Camry", "error|node"),
        ("least|Repair|Austin", "error|fields"),
        ("rangecount|Repair|Austin|Camry", "error|fields"),
        ("Range|Repair|Austin|Camry", "error|command"),
    ]),
    ("a distribution has no ends", QUALITY, [
        ("insert|1|TX|50:50", "ok|1"),
        ("range|Quality|All", "error|measure"),
        ("greatest|Quality|All", "error|measure"),
        ("rangecount|Austin", "rangecount|0|1"),
    ]),
    # Two thirds of 2^20 units, rounded down, are 699,050: with facts 1 and 2 in Austin 2,796,202.
    ("a round by what is known", CARS, [
        *PUT,
        ("iterate|1|Austin|Camry", "iterate|2796202|838860400"),
        ("component|4", "component|1|4"),
        ("component|1", "component|1|1"),
    ]),
    rounds_under("policy|count"),
    rounds_under("policy|uniform"),
    rounds_under("policy|weight|Repair"),
    crossing(5),
    ("rounds in which facts draw on each other", CARS, [
        ("insert|1|Austin|Camry|0", "ok|1"),
        ("insert|2|CA|Camry|0", "ok|1"),
        ("insert|3|All|Camry|0", "ok|1"),
        ("iterate|1|LA|Camry", "iterate|524288|0"),
        ("iterate|2|LA|Camry", "iterate|699050|0"),
        ("iterate|2|Austin|Camry", "iterate|1747626|0"),
        ("component|2", "component|2|2|3"),
    ]),
    ("thirds are rounded down, in each round alike", CARS, [
        ("insert|1|TX|Camry|7", "ok|1"),
        ("insert|2|CA|Camry|-3", "ok|1"),
        ("iterate|1|Austin|Camry", "iterate|349525|2446675"),
        ("iterate|32|TX|Sedan", "iterate|1048575|7340025"),
        ("component|1", "component|1|1"),
        ("component|2", "component|1|2"),
    ]),
    # Fact 1 shares a cell with fact 2 and another with fact 9. In the second round it has 436,906 units in Austin and fact 2 655,359
    # and 393,216.
    ("a chain of facts", CARS, [
        ("insert|1|TX|Camry|7", "ok|1"),
        ("insert|2|Austin|Sedan|-3", "ok|1"),
        ("insert|9|Dallas|Sedan|1", "ok|1"),
        ("insert|3|CA|Truck|1", "ok|1"),
        ("component|9", "component|3|1|2|9"),
        ("component|3", "component|1|3"),
        ("iterate|2|Austin|All", "iterate|1485481|-87383"),
        ("withdraw|1", "ok|0"),
        ("component|9", "component|1|9"),
        ("iterate|2|Austin|All", "iterate|1048576|-3145728"),
    ]),
    ("what is known draws all of it", CARS, [
        ("insert|1|Houston|Camry|5", "ok|1"),
        ("insert|2|TX|Sedan|9", "ok|1"),
        ("insert|3|Houston|Sedan|1", "ok|1"),
        ("insert|4|LA|All|1", "ok|1"),
        ("iterate|3|Houston|Camry", "iterate|3145728|15728640"),
        ("component|3", "component|2|2|3"),
        ("grow|Place|Houston|Midtown", "ok|0"),
        ("iterate|3|Midtown|Camry", "iterate|3145728|15728640"),
    ]),
    ("rounds of no fact", CARS, [("iterate|3|All|All", "iterate|0|0")]),
    ("each refusal of rounds and components", CARS, [
        *PUT,
        ("iterate|0|Waco|All", "error|number"),
        ("iterate|33|Waco|Camry", "error|number"),
        ("iterate|01|Austin|Camry", "error|number"),
        ("iterate|1|Waco|Camry", "error|node"),
        ("iterate|1|Austin", "error|fields"),
        ("component|0", "error|id"),
        ("component|7", "error|missing"),
        ("component", "error|fields"),
    ]),
]
