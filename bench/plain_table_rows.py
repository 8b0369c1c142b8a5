"""Examples of tables, and of what `ask` and `rows` write, worked out by hand: plain_model_rows.py runs them"""
import plain_model
from plain_row_schemas import (
    BY_REPAIRS,
    CARS,
    EXCHANGED,
    NUMBERED,
    ONE_CITY,
    QUALITY,
    REPAIRS,
    SHARES,
    UNEVEN,
    encoded,
    lines_in,
    shares_of_primes,
)

# Austin has facts 1 and 2 and two thirds of fact 4: 8/3, and 400 + 400. Dallas has fact 3 and the rest: 4/3, and 50 + 200.
AUSTIN_AND_DALLAS = "counts|2|Austin|All|2.666666666|2.666666667|8/3|Dallas|All|1.333333333|1.333333334|4/3"

# Scripts: a name, a schema, and each line with its reply.
SCRIPTS = [
    ("cities of a state", CARS, [
        *REPAIRS,
        ("counts|2|0|TX|All", AUSTIN_AND_DALLAS),
        ("sums|Repair|2|0|TX|All", "sums|2|Austin|All|800.000000000|800.000000000|800|Dallas|All|250.000000000|250.000000000|250"),
        ("avgs|Repair|2|0|TX|All", "avgs|2|Austin|All|300.000000000|300.000000000|300|Dallas|All|187.500000000|187.500000000|375/2"),
        ("counts|0|0|All|All", "counts|1|All|All|4.000000000|4.000000000|4"),
    ]),
    ("states by kinds, where one region has facts", CARS, [
        *REPAIRS,
        ("sums|Repair|1|1|All|All", "sums|1|TX|Sedan|1050.000000000|1050.000000000|1050"),
        ("avgs|Repair|1|1|All|All", "avgs|1|TX|Sedan|262.500000000|262.500000000|525/2"),
    ]),
    ("a cut above the node that is asked has this node", CARS, [
        *REPAIRS,
        ("counts|1|0|Dallas|All", "counts|1|Dallas|All|1.333333333|1.333333334|4/3"),
        ("counts|0|0|Dallas|Camry", "counts|1|Dallas|Camry|1.333333333|1.333333334|4/3"),
        ("sums|Repair|0|2|Austin|Sedan", "sums|1|Austin|Camry|800.000000000|800.000000000|800"),
        ("avgs|Repair|1|0|Austin|Camry", "avgs|1|Austin|Camry|300.000000000|300.000000000|300"),
        ("counts|1|1|TX|Sedan", "counts|1|TX|Sedan|4.000000000|4.000000000|4"),
        ("counts|0|0|Houston|Camry", "counts|0"),
    ]),
    ("a cut below the tree has its leaves", CARS, [
        *REPAIRS,
        ("counts|8|0|TX|All", AUSTIN_AND_DALLAS),
        ("sums|Repair|8|8|Dallas|All", "sums|1|Dallas|Camry|250.000000000|250.000000000|250"),
        ("counts|3|8|All|All", AUSTIN_AND_DALLAS.replace("All", "Camry")),
    ]),
    ("regions without facts are not listed", CARS, [
        *REPAIRS,
        ("counts|2|1|CA|All", "counts|0"),
        ("sums|Repair|0|0|LA|All", "sums|0"),
        ("avgs|Repair|1|0|CA|All", "avgs|0"),
        ("avg|Repair|CA|All", "error|undefined"),
        ("counts|2|2|TX|Truck", "counts|0"),
    ]),
    ("tables of no fact", CARS, [
        ("counts|0|0|All|All", "counts|0"),
        ("counts|2|2|All|All", "counts|0"),
        ("sums|Repair|1|1|All|All", "sums|0"),
        ("avgs|Repair|1|1|All|All", "avgs|0"),
        ("pools|Repair|1|1|All|All", "error|measure"),
    ]),
    ("a region whose sum is 0 is listed", CARS, [
        ("insert|1|LA|Civic|-5", "ok|1"),
        ("insert|2|LA|Civic|5", "ok|1"),
        ("sums|Repair|2|1|CA|All", "sums|1|LA|Sedan|0.000000000|0.000000000|0"),
        ("avgs|Repair|2|1|CA|All", "avgs|1|LA|Sedan|0.000000000|0.000000000|0"),
    ]),
    ("the first dimension of a table is slowest", CARS, [
        ("insert|1|LA|F150|7", "ok|1"),
        ("insert|2|SF|Civic|5", "ok|1"),
        ("insert|3|Austin|Sierra|3", "ok|1"),
        # No fact is precise in these cells, so each truck has half of it.
        ("insert|4|Dallas|Truck|-1", "ok|1"),
        ("counts|1|1|All|All", "counts|3|TX|Truck|2.000000000|2.000000000|2|CA|Sedan|1.000000000|1.000000000|1|CA|Truck|1.000000000|1.000000000|1"),
        ("sums|Repair|1|2|All|Truck", "sums|3|TX|F150|-0.500000000|-0.500000000|-1/2|TX|Sierra|2.500000000|2.500000000|5/2|CA|F150|7.000000000|7.000000000|7"),
        ("avgs|Repair|1|2|TX|Truck", "avgs|2|TX|F150|-1.000000000|-1.000000000|-1|TX|Sierra|1.666666666|1.666666667|5/3"),
    ]),
    ("a leaf less deep than the cut", UNEVEN, [
        ("insert|1|Reno", "ok|1"),
        ("insert|2|DC", "ok|1"),
        # Reno alone weighs anything in Nevada.
        ("insert|3|NV", "ok|1"),
        ("counts|2|All", "counts|2|Reno|2.000000000|2.000000000|2|DC|1.000000000|1.000000000|1"),
        ("counts|1|All", "counts|2|NV|2.000000000|2.000000000|2|DC|1.000000000|1.000000000|1"),
        ("counts|0|All", "counts|1|All|3.000000000|3.000000000|3"),
        ("counts|2|NV", "counts|1|Reno|2.000000000|2.000000000|2"),
        ("counts|8|DC", "counts|1|DC|1.000000000|1.000000000|1"),
        ("counts|0|DC", "counts|1|DC|1.000000000|1.000000000|1"),
        ("counts|1|Elko", "counts|0"),
    ]),
    ("a node with one node below it", ONE_CITY, [
        ("insert|1|NV", "ok|1"),
        ("counts|1|All", "counts|1|NV|1.000000000|1.000000000|1"),
        ("counts|2|NV", "counts|1|Reno|1.000000000|1.000000000|1"),
        ("counts|1|NV", "counts|1|NV|1.000000000|1.000000000|1"),
        ("counts|1|Reno", "counts|1|Reno|1.000000000|1.000000000|1"),
    ]),
    ("a table has the order of the lines, not of the numbers", EXCHANGED, [
        ("insert|1|NV", "ok|1"),
        ("insert|2|TX", "ok|1"),
        ("counts|1|All", "counts|2|TX|1.000000000|1.000000000|1|NV|1.000000000|1.000000000|1"),
    ]),
    ("a leaf that came last stands among its siblings", NUMBERED, [
        ("insert|1|Waco", "ok|1"),
        ("insert|2|LA", "ok|1"),
        ("insert|3|Austin", "ok|1"),
        ("counts|2|All", "counts|3|Austin|1.000000000|1.000000000|1|Waco|1.000000000|1.000000000|1|LA|1.000000000|1.000000000|1"),
    ]),
    ("tables of distributions", QUALITY, [
        ("pools|Quality|2|All", "pools|0"),
        ("insert|1|Austin|80:20", "ok|1"),
        ("insert|2|TX|50:50", "ok|1"),
        # Austin has 3/2 facts, of which 80 + 25 are good; Dallas has 1/2, of which 25 are.
        ("pools|Quality|2|TX", "pools|2|Austin|0.700000000|0.700000000|7/10|0.300000000|0.300000000|3/10|Dallas|0.500000000|0.500000000|1/2|0.500000000|0.500000000|1/2"),
        ("pools|Quality|1|All", "pools|1|TX|0.650000000|0.650000000|13/20|0.350000000|0.350000000|7/20"),
        ("counts|2|All", "counts|2|Austin|1.500000000|1.500000000|3/2|Dallas|0.500000000|0.500000000|1/2"),
        ("pools|Quality|1|CA", "pools|0"),
        ("pool|Quality|CA", "error|undefined"),
        ("sums|Quality|1|All", "error|measure"),
        ("avgs|Quality|1|All", "error|measure"),
        ("pools|Repair|1|All", "error|measure"),
    ]),
    ("tables after a growth", CARS, [
        *REPAIRS,
        ("grow|Place|Austin|North", "ok|0"),
        ("counts|2|0|TX|All", AUSTIN_AND_DALLAS),
        ("counts|3|0|TX|All", AUSTIN_AND_DALLAS.replace("Austin", "North")),
        ("counts|2|0|North|All", "counts|1|North|All|2.666666666|2.666666667|8/3"),
        # Facts 1 and 2 are spread evenly now, and fact 4 lies in Dallas, where the one precise fact is. Dallas has another place.
        ("grow|Place|Austin|South", "ok|4"),
        ("counts|3|0|TX|All", "counts|3|North|All|1.000000000|1.000000000|1|South|All|1.000000000|1.000000000|1|Dallas|All|2.000000000|2.000000000|2"),
        ("sums|Repair|3|0|TX|All", "sums|3|North|All|200.000000000|200.000000000|200|South|All|200.000000000|200.000000000|200|Dallas|All|650.000000000|650.000000000|650"),
        ("counts|2|0|TX|All", "counts|2|Austin|All|2.000000000|2.000000000|2|Dallas|All|2.000000000|2.000000000|2"),
    ]),
    ("a weight of 0 in a table", BY_REPAIRS, [
        ("insert|1|Austin|Camry|0", "ok|1"),
        ("insert|2|Dallas|Camry|5", "ok|1"),
        # All of it lies in Dallas, since Austin weighs 0.
        ("insert|3|TX|Camry|7", "ok|1"),
        ("counts|2|0|TX|All", "counts|2|Austin|All|1.000000000|1.000000000|1|Dallas|All|2.000000000|2.000000000|2"),
        ("sums|Repair|2|0|TX|All", "sums|2|Austin|All|0.000000000|0.000000000|0|Dallas|All|12.000000000|12.000000000|12"),
        ("withdraw|1", "ok|0"),
        ("counts|2|0|TX|All", "counts|1|Dallas|All|2.000000000|2.000000000|2"),
    ]),
    # Of each prime, its part of a fact in a is 1 over it, and that in b the rest: 0.999999999 at least.
    ("bounds in a table", SHARES, [
        *shares_of_primes(),
        ("counts|1|0|All|All", "counts|2|a|All|4.000000000|4.000000004|wide|b|All|7.999999996|8.000000000|wide"),
        ("sums|Value|1|0|a|All", "sums|1|a|All|-16.000000004|-16.000000000|wide"),
        ("avgs|Value|0|0|a|All", "avgs|1|a|All|-4.000000001|-3.999999996|wide"),
        ("sums|Weight|1|0|a|All", "sums|1|a|All|4.000000000|4.000000000|4"),
    ]),
    ("each refusal of a table", CARS, [
        ("counts|" + "x" * 4090, "error|long"),
        ("counts|1|0|TX|A\x01ll", "error|text"),
        ("counts|1|0|TX|\udcff", "error|text"),
        ("Counts|1|0|TX|All", "error|command"),
        ("count s|1|0|TX|All", "error|command"),
        ("counts", "error|fields"),
        ("counts|1|0|TX", "error|fields"),
        ("counts|TX|All", "error|fields"),
        ("counts|1|0|TX|All|All", "error|fields"),
        ("counts|Repair|1|0|TX|All", "error|fields"),
        ("sums|1|0|TX|All", "error|fields"),
        ("pools|Repair|1|0|TX|All|", "error|fields"),
        *((f"counts|{depth}|0|TX|All", "error|number") for depth in ["9", "01", "00", "", "-1", "+1", "1.0", "x", " 1", "18446744073709551616"]),
        ("counts|1|9|TX|All", "error|number"),
        ("counts|TX|All|1|0", "error|number"),
        ("counts|1|0|Waco|All", "error|node"),
        ("counts|1|0|TX|Waco", "error|node"),
        ("counts|1|0||All", "error|node"),
        ("counts|2|2|Camry|Austin", "error|node"),
        ("sums|Price|1|0|TX|All", "error|measure"),
        ("avgs|Price|1|0|TX|All", "error|measure"),
        ("pools|Price|1|0|TX|All", "error|measure"),
        ("pools|Repair|1|0|TX|All", "error|measure"),
        ("sums||1|0|TX|All", "error|measure"),
        ("sums|Place|1|0|TX|All", "error|measure"),
        ("counts|8|8|TX|All\r", "counts|0"),
    ]),
    ("the first of two refusals of a table", CARS, [
        ("Counts|\x01" + "x" * 4090, "error|long"),
        ("Counts|1|\x01", "error|text"),
        ("Counts|9|Waco", "error|command"),
        ("counts|9|Waco", "error|fields"),
        ("sums|Price|9|0|TX", "error|fields"),
        ("counts|9|0|Waco|All", "error|number"),
        ("counts|0|01|TX|Waco", "error|number"),
        ("sums|Price|9|0|TX|All", "error|number"),
        ("pools|Repair|9|0|Waco|All", "error|number"),
        ("sums|Price|1|0|Waco|All", "error|node"),
        ("pools|Repair|1|0|TX|Waco", "error|node"),
    ]),
]

# What `ask` writes over the repairs: the words behind its name, the reply or none, and the status.
ASKED = [
    (["count", "Austin", "Camry"], "count|2.666666666|2.666666667|8/3", 0),
    (["counts", "2", "0", "TX", "All"], AUSTIN_AND_DALLAS, 0),
    (["insert", "5", "LA", "Civic", "7"], "ok|1", 0),
    (["grow", "Place", "CA", "SJ"], "ok|0", 0),
    (["count", "Waco", "All"], "error|node", 1),
    (["count"], "error|fields", 1),
    (["count", "", "All"], "error|node", 1),
    (["count", "TX|All"], "count|4.000000000|4.000000000|4", 0),
    (["count|TX", "All"], "count|4.000000000|4.000000000|4", 0),
    (["count", "TX", "All\r"], "count|4.000000000|4.000000000|4", 0),
    (["count", "TX", "All\n"], "error|text", 1),
    (["count", "TX", "All\ncount"], "error|text", 1),
    (["count", "TX\r", "All"], "error|text", 1),
    (["x" * 4096], "error|command", 1),
    (["x" * 4097], "error|long", 1),
    (["x" * 4000, "x" * 95], "error|command", 1),
    (["x" * 4000, "x" * 96], "error|long", 1),
    ([""], None, 0),
    (["\r"], None, 0),
    (["#", "count"], None, 0),
    (["#" + "x" * 5000], None, 0),
    (["", ""], "error|command", 1),
]

# Names and values that a file of rows must quote, which come in another order than that of their ids.
QUOTED = lines_in("""
cube|1
policy|uniform
parts|good, or not|2|yes|no
number|"net"
dimension|Town, State
node|0|All
node|1|Paris, TX
node|1|the "Hub"
end
""")

# The file of rows that facts come to: a schema, a script, and the lines of the file.
ROWS_FILES = [
    (CARS, [], ["id,Place,Auto,weight,of,Repair"]),
    (CARS, [line for line, _ in REPAIRS[:4]], lines_in("""
id,Place,Auto,weight,of,Repair
1,Austin,Camry,1,1,100
2,Austin,Camry,1,1,300
3,Dallas,Camry,1,1,50
4,Austin,Camry,2,3,600
4,Dallas,Camry,1,3,600
""")),
    (UNEVEN, ["insert|1|Reno", "insert|2|All", "grow|Place|Reno|South"], lines_in("""
id,Place,weight,of
1,South,1,1
2,South,1,1
""")),
    (QUOTED, ["insert|7|All|0:2|-5", "insert|2|Paris, TX|1:1|3"], lines_in('''
id,"Town, State",weight,of,"good, or not","""net"""
2,"Paris, TX",1,1,1:1,3
7,"Paris, TX",1,2,0:2,-5
7,"the ""Hub""",1,2,0:2,-5
''')),
]


def cube_of(schema, script):
    first, _ = plain_model.read_schema(plain_model.lines_of(encoded(schema)))
    _, _, later, facts = plain_model.do_lines(first, [], plain_model.lines_of(encoded(script)))
    return later, facts


def is_same(what, found, wanted):
    """Whether the model says what the example says. Where it does not, both are printed."""
    if found != wanted:
        print(f"{what}: the model has\n{found}\nand the example\n{wanted}")
    return found == wanted


def asked_holds(words, reply, status):
    fields = [encoded([word], "") for word in words]
    found = plain_model.ask(*cube_of(CARS, [line for line, _ in REPAIRS]), fields)
    return is_same(f"ask {words[0][:20]!a}", found[:2], (encoded([] if reply is None else [reply]), status))


def file_holds(schema, script, lines):
    return is_same("rows", plain_model.rows_file(*cube_of(schema, script)), encoded(lines))


def held():
    """For each example of a command whether it holds."""
    return [asked_holds(*row) for row in ASKED] + [file_holds(*row) for row in ROWS_FILES]
