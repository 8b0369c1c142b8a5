"""Schemas of examples that are worked out by hand, and what an example is: see plain_model_rows.py and plain_table_rows.py"""
from typing import NamedTuple


class Example(NamedTuple):
    name: str
    text: bytes
    ends: tuple  # what is written, the status, and what is said on standard error


def encoded(lines, behind="\n"):
    """A text of lines. Bytes that are no UTF-8 are written as surrogates."""
    return "".join(line.replace("|", "\t") + behind for line in lines).encode("utf-8", "surrogateescape")


def lines_in(text):
    return text.strip().split("\n")


def script_example(name, schema, rows):
    """An example of a script: its lines, each with its reply, or none where it is passed over."""
    lines = schema + [line for line, _ in rows]
    replies = [reply for _, reply in rows if reply is not None]
    refused = any(reply.startswith("error|") for reply in replies)
    return Example(name, encoded(lines), (encoded(replies), int(refused), b""))


CARS = lines_in("""
cube|1
policy|count
number|Repair
dimension|Place
node|0|All
node|1|TX
node|2|Austin
node|2|Dallas
node|2|Houston
node|1|CA
node|2|LA
node|2|SF
dimension|Auto
node|0|All
node|1|Sedan
node|2|Camry
node|2|Civic
node|1|Truck
node|2|F150
node|2|Sierra
view|state|1|1
end
""")

# A state with two cities, and a district without one, which is a leaf like them.
UNEVEN = lines_in("""
cube|1
policy|count
dimension|Place
node|0|All
node|1|NV
node|2|Reno
node|2|Elko
node|1|DC
view|all|0
view|deep|2
view|states|1
end
""")

# Two states, of which the first has the greater number.
EXCHANGED = lines_in("""
cube|2
policy|count
dimension|Place
node|0|All|0
node|1|TX|2
node|1|NV|1
view|states|1
end
""")

# Nevada has one city alone.
ONE_CITY = lines_in("""
cube|1
policy|count
dimension|Place
node|0|All
node|1|NV
node|2|Reno
node|1|TX
node|2|Austin
node|2|Dallas
end
""")

# The cars weighed by their repairs.
BY_REPAIRS = [line.replace("policy|count", "policy|weight|Repair") for line in CARS]

# A distribution for each fact.
QUALITY = lines_in("""
cube|1
policy|uniform
parts|Quality|100|good|bad
dimension|Place
node|0|All
node|1|TX
node|2|Austin
node|2|Dallas
node|1|CA
node|2|LA
end
""")

# Nodes with numbers of their own: Waco came last.
NUMBERED = lines_in("""
cube|2
policy|count
dimension|Place
node|0|All|0
node|1|TX|1
node|2|Austin|2
node|2|Waco|5
node|1|CA|3
node|2|LA|4
end
""")

# Nodes of each depth.
CHAIN = ["cube|1", "policy|uniform", "dimension|D", *(f"node|{k}|n{k}" for k in range(9)), "end"]

# Four models in two cities, where a cell weighs as much as its facts say.
SHARES = lines_in("""
cube|1
policy|weight|Weight
number|Weight
number|Value
dimension|City
node|0|All
node|1|a
node|1|b
dimension|Model
node|0|All
node|1|m1
node|1|m2
node|1|m3
node|1|m4
end
""")

# Two leaves with equal shares, and two that weigh as much as they have facts.
EVEN_LEAVES = lines_in("cube|1\npolicy|uniform\ndimension|Place\nnode|0|All\nnode|1|a\nnode|1|b\nend")
COUNTED_LEAVES = lines_in("cube|1\npolicy|count\ndimension|Place\nnode|0|All\nnode|1|a\nnode|1|b\nend")

# Primes just below 10^12.
PRIMES = [999_999_999_989, 999_999_999_961, 999_999_999_959, 999_999_999_937]

# Two cities, and a hundred models that are sold in both.
MODELS = [
    *lines_in("cube|1\npolicy|count\ndimension|City\nnode|0|All\nnode|1|a\nnode|1|b\ndimension|Model\nnode|0|All"),
    *(f"node|1|m{k}" for k in range(1, 101)),
    "end",
]

# 1,024 x 1,025 cells, of which 2^20 are at (L, S).
GRID = [
    *lines_in("cube|1\npolicy|count\ndimension|Left\nnode|0|L"),
    *(f"node|1|l{k}" for k in range(1, 1025)),
    *lines_in("dimension|Right\nnode|0|R\nnode|1|S"),
    *(f"node|2|s{k}" for k in range(1, 1025)),
    *lines_in("node|1|t\nend"),
]

REPAIRS = [
    ("insert|1|Austin|Camry|100", "ok|1"),
    ("insert|2|Austin|Camry|300", "ok|1"),
    ("insert|3|Dallas|Camry|50", "ok|1"),
    ("insert|4|TX|Camry|600", "ok|1"),
    ("rows|4", "rows|3|2|Austin|Camry|2|Dallas|Camry|1"),
]


def shares_of_primes():
    """For each prime a fact of weight 1 in a, one of the rest in b, and one in either city."""
    for k, prime in enumerate(PRIMES):
        yield f"insert|{3 * k + 1}|a|m{k + 1}|1|-3", "ok|1"
        yield f"insert|{3 * k + 2}|b|m{k + 1}|{prime - 1}|5", "ok|1"
        yield f"insert|{3 * k + 3}|All|m{k + 1}|0|-1000000000000", "ok|1"
