#!/usr/bin/env python3
"""What stock SQLite adds up over the files that `rows` writes, beside the answers: row_sums.py PROGRAM CASES SEED

Each case is a store after a random script. SQLite's shell reads the file of its rows. It groups these by their leaves and adds up
`1.0 * weight / "of"`, and `1.0 * value * weight / "of"` for each number measure. The groups must be the regions that `counts` and `sums`
list where all dimensions are cut at their leaves, with the same numbers to a float's digits. So must be what all rows add up to, and
an example worked out by hand. With `-` for PROGRAM the file is the plain model's, without a store. The status is 1 at the first difference.
"""
import json
import math
import shutil
import subprocess
import sys
import tempfile
from pathlib import Path
from random import Random

sys.dont_write_bytecode = True

import differential
import plain_model
import plain_table_rows
from calls import want_words
from stores import Wrong, call, must

SQLITE = shutil.which("sqlite3")
LEAVES = b"8"  # no tree is deeper
DIGITS = 1e-9  # of a float, by which sums of some rows may differ, beside what their amounts without signs add up to


# SQLite.


def quoted(name):
    return '"' + name.replace('"', '""') + '"'


def share(value=None):
    return f"sum({part(value)})"


def part(value=None):
    factors = ["1.0", *([] if value is None else [quoted(value)]), "weight"]
    return f'{" * ".join(factors)} / "of"'


def selected(folder, text, query):
    """What SQLite's shell selects from the table that it makes of a file of rows."""
    path = Path(folder) / "rows.csv"
    path.write_bytes(text)
    script = f".mode csv\n.import {path} rows\n.mode json\n{query};\n"
    done = subprocess.run([SQLITE], input=script.encode(), capture_output=True, check=True, cwd=folder)
    must(done.stderr, b"", "SQLite's shell")
    return [list(row.values()) for row in json.loads(done.stdout or b"[]")]


def added_up(folder, text, names, values):
    """For each group of leaves the sums of the weights and of the values, those over all rows, and the same of amounts without signs over all rows."""
    sums = ", ".join(f"{share(value)} AS sum{k}" for k, value in enumerate([None, *values]))
    columns = ", ".join(f"{quoted(name)} AS leaf{k}" for k, name in enumerate(names))
    groups = selected(folder, text, f"SELECT {columns}, {sums} FROM rows GROUP BY {', '.join(map(quoted, names))}")
    whole = selected(folder, text, f"SELECT {sums} FROM rows")
    amounts = ", ".join(f"sum(abs({part(value)})) AS amount{k}" for k, value in enumerate([None, *values]))
    most = selected(folder, text, f"SELECT {amounts} FROM rows")
    return {tuple(row[: len(names)]): row[len(names) :] for row in groups}, whole[0], most[0]


# The answers.


def told(schema, facts, *fields):
    return plain_model.do_line(schema, facts, b"\t".join(fields))[0].removesuffix(b"\n").decode().split("\t")[1:]


def middle(low, high, exact):
    """The number of three fields: bounds that are nine decimals apart, and the fraction where it is told."""
    numerator, _, denominator = exact.partition("/")
    return (float(low) + float(high)) / 2 if exact == "wide" else int(numerator) / int(denominator or 1)


def answers(schema, facts, values):
    """For each region of leaves the count and the sums; and those of the whole."""
    roots = [dim.names[0] for dim in schema.dimensions]
    cuts = [LEAVES] * len(roots)
    asked = [((b"counts", *cuts), (b"count",)), *(((b"sums", value, *cuts), (b"sum", value)) for value in values)]
    groups = {}
    for table, _ in asked:
        _, *items = told(schema, facts, *table, *roots)
        for start in range(0, len(items), len(roots) + 3):
            region, numbers = items[start : start + len(roots)], items[start + len(roots) : start + len(roots) + 3]
            groups.setdefault(tuple(region), []).append(middle(*numbers))
    return groups, [middle(*told(schema, facts, *question, *roots)) for _, question in asked]


# The comparison.


def must_agree(found, wanted, most, what):
    must(len(found), len(wanted), f"numbers of {what}")
    for number, right, amount in zip(found, wanted, most):
        within = DIGITS * max(amount, 1)
        must(math.isclose(number, right, rel_tol=DIGITS, abs_tol=within), True, f"{number} for {right} in {what}")


def rows_text(program, folder, number, schema, script):
    """The file of the rows that a script leaves, with the schema and the facts then."""
    first, _ = plain_model.read_schema(schema)
    _, _, later, facts = plain_model.do_lines(first, [], script)
    if program == "-":
        return plain_model.rows_file(later, facts), later, facts
    path = str(Path(folder) / f"{number}.cube")
    must(call(program, ["init", path], b"\n".join(schema) + b"\n")[1], 0, "init")
    call(program, ["run", path], b"".join(line + b"\n" for line in script))
    written, status, said = call(program, ["rows", path])
    must((status, said), (0, b""), "rows")
    Path(path).unlink()
    return written, later, facts


def compare_case(program, folder, seed, number):
    """Whether there was anything to add up, which is alike. A table wants columns of different names."""
    made = differential.Made(Random(f"row sums {seed} {number}"))
    try:
        text, schema, facts = rows_text(program, folder, number, made.schema, made.script)
    except plain_model.SchemaFault:
        return False
    names = [name.decode() for name in schema.names]
    values = [m.name for m in schema.measures if m.scale is None]
    header = ["id", *names, "weight", "of", *(m.name.decode() for m in schema.measures)]
    if not facts or len({name.lower() for name in header}) < len(header):
        return False
    groups, whole, most = added_up(folder, text, names, [value.decode() for value in values])
    wanted, all_wanted = answers(schema, facts, values)
    must(sorted(groups), sorted(wanted), "regions")
    for region, numbers in wanted.items():
        must_agree(groups[region], numbers, most, f"region {region}")
    must_agree(whole, all_wanted, most, "the whole")
    return True


# Repairs in two cities, of which the last lies two thirds in Austin and one third in Dallas: what SQLite makes of their rows. Whole
# numbers are cut off where they are divided.
SUMS = f"{share()}, {share('Repair')}"
WORKED = [
    (f'SELECT "Place", {SUMS} FROM rows GROUP BY "Place"', [["Austin", 8 / 3, 800.0], ["Dallas", 4 / 3, 250.0]]),
    (f"SELECT {SUMS} FROM rows", [[4.0, 1050.0]]),
    ('SELECT sum(weight / "of") FROM rows', [[3]]),
]


def compare_worked(program, folder):
    schema = plain_model.lines_of(plain_table_rows.encoded(plain_table_rows.CARS))
    script = plain_model.lines_of(plain_table_rows.encoded([line for line, _ in plain_table_rows.REPAIRS[:4]]))
    text = rows_text(program, folder, "worked", schema, script)[0]
    for query, wanted in WORKED:
        found = selected(folder, text, query)
        must([row[:-2] for row in found], [row[:-2] for row in wanted], query)
        for row, right in zip(found, wanted):
            must_agree(row[-2:], right[-2:], [0, 0], query)


def main():
    want_words(3, __doc__)
    program, cases, seed = sys.argv[1], int(sys.argv[2]), int(sys.argv[3])
    if SQLITE is None:
        print("SQLite's shell is not there: nothing was added up")
        return 1
    done = 0
    with tempfile.TemporaryDirectory() as folder:
        number = "worked"
        try:
            compare_worked(program, folder)
            for number in range(cases):
                done += compare_case(program, folder, seed, number)
        except Wrong as wrong:
            print(f"case {number}: {wrong}")
            return 1
    print(f"{done} files of rows, of {cases} cases, and {len(WORKED)} worked sums add up to the answers")
    return 0


if __name__ == "__main__":
    sys.exit(main())
