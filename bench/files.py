#!/usr/bin/env python3
"""Files of facts, through the built program and the plain model: files.py PROGRAM CASES SEED

Each case is a store over a random schema, into which random files are imported, clean and damaged ones, and from which all facts are
exported. Compared are each byte of standard output, the status and standard error. What was exported is read by Python, goes through
stock SQLite where its shell is there, and is imported again. The status is 1 at the first difference.
"""
import csv
import io
import shutil
import subprocess
import sys
import tempfile
from collections import Counter
from pathlib import Path
from random import Random

sys.dont_write_bytecode = True

import differential
import plain_model
from calls import want_words
from stores import Wrong, call, must

differential.NAMES += [b"Paris, TX", b'the "Hub"', b'"', b'""', b",", b"a,b,c", b"'", b"a\\b", b" x", "Île, São".encode()]

SQLITE = shutil.which("sqlite3")
SQLITE_EACH = 20  # one case of so many goes through its shell


# Files.


def spelled(random, field):
    """A field as a file may have it: in quotes where it must be, and now and then where it need not."""
    must_quote = any(byte in field for byte in b'",\r\n') or field == b""
    if must_quote or random.random() < 0.1:
        return b'"' + field.replace(b'"', b'""') + b'"'
    return field


def made_records(random, made):
    """The records of a file over a made schema, mostly right ones, with ids in no order."""
    names = [line.split(b"\t")[1] for line in made.schema if line.startswith(b"dimension\t")]
    header = [b"id", *names, *(measure.name for measure in made.measures)]
    ids = random.sample([b"%d" % n for n in range(1, 40)], random.choice([0, 1, 3, 8, 20]))
    records = [[id, *(tree.node(random) for tree in made.trees), *(measure.value() for measure in made.measures)] for id in ids]
    return header, records


def damage(random, records):
    """Makes a record wrong, drops or doubles one."""
    place = random.randrange(len(records))
    kind = random.randrange(8)
    if kind == 0:
        records.insert(place, list(random.choice(records)))
    elif kind == 1:
        records.insert(place, [b""])
    elif kind == 2:
        records[place] = records[place][: random.randint(1, len(records[place]))]
    elif kind == 3:
        at = random.randrange(len(records[place]))
        records[place][at] += random.choice(differential.HOSTILE)
    else:
        differential.spoil(random, records[place])


def made_file(random, made, damaged=0.4):
    """A file over a made schema, in which so many of all have a wrong record."""
    header, records = made_records(random, made)
    if random.random() < 0.05:
        header = list(header)
        differential.spoil(random, header)
    if records and random.random() < damaged:
        for _ in range(random.choice([1, 1, 2])):
            damage(random, records)
    ends = random.choice([[b"\n"], [b"\n"], [b"\r\n"], [b"\r"], [b"\n", b"\r\n", b"\n\n", b"\r\n\r\n"]])
    text = b"".join(b",".join(spelled(random, field) for field in row) + random.choice(ends) for row in [header, *records])
    text = plain_model.MARK * random.choice([0, 0, 0, 0, 1, 1, 2]) + text
    if random.random() < 0.1:
        text = text.rstrip(b"\r\n")
    if random.random() < 0.15:
        at = random.randint(0, len(text))
        text = text[:at] + random.choice([b'"', b'"', b",", b"\n", b"\r", b'""', b"\x00", b"\xff"]) + text[at + random.randint(0, 1) :]
    return text[: random.randint(0, len(text))] if random.random() < 0.03 else text


# The comparison.


def wanted_import(schema, facts, text):
    """What the program is to answer to a file, and the facts after it."""
    try:
        reply, facts = plain_model.import_file(schema, facts, text)
    except plain_model.BadRecord as bad:
        return (b"", 11, f"cube: record {bad.index}: {bad.code}\n".encode()), facts, bad.code
    return (reply, 0, b""), facts, "imported"


def state_of(schema, facts):
    rows = sum(len(lies.rows) for _, lies in plain_model.extended(schema, facts))
    return f"sound\t{len(facts)}\t{rows}\n".encode()


def through_sqlite(folder, text):
    """The file as SQLite's shell writes it that has read it."""
    path = Path(folder) / "facts.csv"
    path.write_bytes(text)
    script = f".mode csv\n.import {path} facts\n.headers on\nSELECT * FROM facts;\n"
    done = subprocess.run([SQLITE], input=script.encode(), capture_output=True, check=True, cwd=folder)
    must(done.stderr, b"", "SQLite's shell")
    return done.stdout


def compare_case(program, folder, seed, number, came):
    random = Random(f"files {seed} {number}")
    made = differential.Made(random)
    try:
        schema, _ = plain_model.read_schema(made.schema)
    except plain_model.SchemaFault:
        came["no schema"] += 1
        return
    path, again = Path(folder) / f"{number}.cube", Path(folder) / f"{number}.again"
    head = b"\n".join(made.schema) + b"\n"
    must(call(program, ["init", str(path)], head)[1], 0, "init")
    facts = []
    for k in range(random.choice([1, 1, 2, 3])):
        text = made_file(random, made)
        wanted, facts, code = wanted_import(schema, facts, text)
        came[code] += 1
        must(call(program, ["import", str(path)], text), wanted, f"import of file {k}, {text!r}")
        must(call(program, ["check", str(path)]), (state_of(schema, facts), 0, b""), f"check after file {k}")
    exported = plain_model.export_file(schema, facts)
    must(call(program, ["export", str(path)], b"not read"), (exported, 0, b""), "export")
    read = list(csv.reader(io.StringIO(exported.decode("latin-1"), newline="")))
    must(len(read), len(facts) + 1, "records that Python reads")
    must(call(program, ["init", str(again)], head)[1], 0, "init of the second store")
    if SQLITE and number % SQLITE_EACH == 0 and len(set(map(str.lower, read[0]))) == len(read[0]) and facts:
        came["through SQLite"] += 1
        exported = through_sqlite(folder, exported)
    must(call(program, ["import", str(again)], exported)[:2], (f"imported\t{len(facts)}\t{len(facts)}\n".encode(), 0), "import of what was exported")
    must(call(program, ["export", str(again)]), (plain_model.export_file(schema, facts), 0, b""), "second export")
    path.unlink()
    again.unlink()


def main():
    want_words(3, __doc__)
    program, cases, seed = sys.argv[1], int(sys.argv[2]), int(sys.argv[3])
    came = Counter()
    with tempfile.TemporaryDirectory() as folder:
        for number in range(cases):
            try:
                compare_case(program, folder, seed, number, came)
            except Wrong as wrong:
                print(f"case {number}: {wrong}")
                return 1
    print(f"{cases} cases of files alike:", ", ".join(f"{code} {count}" for code, count in came.most_common()))
    return 0


if __name__ == "__main__":
    sys.exit(main())
