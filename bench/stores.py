#!/usr/bin/env python3
"""Stores in files, through the built program and through stock SQLite: stores.py PROGRAM CASES SEED

Stores are made by hand through SQLite, and read and grown by the program; damaged ones, files that are none, and files that cannot be read
or written are refused. Then random scripts are done over a store in pieces, each by a call of its own, one of which ends behind each growth,
and compared with the plain model: the replies, the status, and after each piece the answer of `check` and what another reader finds in the
tables, the text of the schema too. The status is 1 at the first difference.

In these, `ask` does some of the lines, and `schema` and `rows` write what the store holds. Each reason of a fault that the system lets be
made is told in its words, no command that is refused or reads alone leaves a file, and a store is exchanged under an open `run` in several ways:
between two edits and after the last, also where it was opened by a symbolic link, and while a batch is synced.
"""
import errno
import os
import re
import shutil
import sqlite3
import struct
import subprocess
import sys
import tempfile
from itertools import pairwise, product
from pathlib import Path
from random import Random

sys.dont_write_bytecode = True

import differential
import plain_model
import plain_store
import plain_table_rows
from calls import want_words
from plain_store import TABLES, numbers, packed

SECONDS = 60
FAILED = 8  # the status where a store fails


def call(program, words, text=b""):
    """What the program writes, its status, and what it says on standard error, without the line that says why a store failed."""
    done = subprocess.run([program, *words], input=text, capture_output=True, timeout=SECONDS)
    said = done.stderr
    if done.returncode == FAILED:
        reason, said = said.split(b"\n", 1)
        must(reason.startswith(b"cube: %b: " % words[1].encode()), True, f"reason in {reason!r}")
    return done.stdout, done.returncode, said


def told(program, words, text=b"", **settings):
    """What the program writes, its status, and all that it says on standard error."""
    done = subprocess.run([program, *words], input=text, capture_output=True, timeout=SECONDS, env=os.environ | settings)
    return done.stdout, done.returncode, done.stderr


def fault_of(path, reason, line=0):
    """What is said on standard error where a store fails."""
    return b"cube: %b: %b\ncube: store fault after line %d\n" % (path.encode(), reason, line)


def table_calls(path):
    """The words of commands over a store that read no input."""
    return [["ask", path, "withdraw", "1"], ["schema", path], ["rows", path]]


class Wrong(Exception):
    pass


def must(found, wanted, what):
    if found != wanted:
        raise Wrong(f"{what}: {found!r} instead of {wanted!r}")


# Tables by another reader.


def tables(path):
    """The schema's text, the facts and the rows of a file, by its tables, which must be whole."""
    base = sqlite3.connect(f"file:{path}?mode=ro", uri=True)
    must(base.execute("PRAGMA integrity_check").fetchall(), [("ok",)], "integrity")
    names = [name for (name,) in base.execute("SELECT name FROM sqlite_master WHERE type = 'table' ORDER BY name")]
    must(names, ["alloc", "cube", "fact"], "tables")
    ((key, text),) = base.execute("SELECT k, body FROM cube").fetchall()
    must(key, 1, "key of the schema")
    facts = [(i, numbers(nodes, ">I"), numbers(cols, ">q")) for i, nodes, cols in base.execute("SELECT id, nodes, cols FROM fact ORDER BY id")]
    rows = [(i, den, list(struct.iter_unpack(">QQ", body))) for i, den, body in base.execute("SELECT id, den, body FROM alloc ORDER BY id")]
    base.close()
    return text, facts, rows


def wanted_tables(schema, facts):
    """The text, the facts and the rows that a store is to hold."""
    return tuple(plain_store.content_of(schema, facts))


NOT_READ = b"withdraw\t1\n"  # the input of a command that reads none


def must_hold(program, path, schema, facts, when):
    """What `check` says of a store, and what its tables are."""
    text, kept, rows = wanted_tables(schema, facts)
    count = sum(len(r) for _, _, r in rows)
    must(call(program, ["check", path]), (b"sound\t%d\t%d\n" % (len(kept), count), 0, b""), f"check after {when}")
    found_text, found, found_rows = tables(path)
    must(found_text, text, f"text of the schema after {when}")
    must(found, kept, f"facts of the tables after {when}")
    must(found_rows, rows, f"rows of the tables after {when}")
    must(call(program, ["schema", path], NOT_READ), (text, 0, b""), f"schema after {when}")
    must(call(program, ["rows", path], NOT_READ), (plain_model.rows_file(schema, facts), 0, b""), f"rows after {when}")


# Random scripts in pieces.


def places_behind_growths(script):
    return {place for place, line in enumerate(script, 1) if line.startswith(b"grow\t")}


def asked(program, path, schema, facts, lines):
    """The schema and the facts after lines that `ask` does, each in a call of its own."""
    for line in lines:
        wanted, status, schema, facts = plain_model.ask(schema, facts, line.split(b"\t"))
        must(call(program, ["ask", path, *line.split(b"\t")], NOT_READ), (wanted, status, b""), f"ask {line!r}")
    return schema, facts


def askable(random, piece):
    """How many lines at the front of a piece `ask` is to do: few, since each is a call, and none that no word can hold."""
    most = random.randint(0, 4)
    return next((k for k, line in enumerate(piece[:most]) if b"\0" in line or not plain_model.is_utf8(line)), len(piece[:most]))


def compare_case(program, folder, seed, number):
    """One script over a store, in pieces."""
    random = Random(f"stores {seed} {number}")
    text = differential.made_text(random)
    lines = plain_model.lines_of(text)
    try:
        schema, script = plain_model.read_schema(lines)
    except plain_model.SchemaFault as fault:
        path = Path(folder) / f"{number}.cube"
        must(call(program, ["init", str(path)], text)[:2], (b"", 3), f"init refused {fault.code}")
        must(call(program, ["check", str(path)])[:2], (b"", 4), "check after a refused init")
        return
    path = Path(folder) / f"{number}.cube"
    size = len(lines) - len(script)
    head = b"\n".join(lines[:size]) + b"\n"
    for words in [["run", str(path)], *table_calls(str(path))]:
        must(call(program, words), (b"", 4, b"cube: no cube\n"), f"{words[0]} without a store")
    must(call(program, ["init", str(path)], head), (b"ok\t0\n", 0, b""), "init")
    must(call(program, ["init", str(path)], head), (b"", 4, b"cube: cube exists\n"), "second init")
    facts = []
    must_hold(program, str(path), schema, facts, "init")
    cuts = {random.randint(0, len(script)) for _ in range(random.randint(0, 3))} | places_behind_growths(script)
    for start, end in pairwise(sorted(cuts | {0, len(script)})):
        count = askable(random, script[start:end])
        schema, facts = asked(program, str(path), schema, facts, script[start : start + count])
        piece = script[start + count : end]
        replies, refusals, schema, facts = plain_model.do_lines(schema, facts, piece)
        must(call(program, ["run", str(path)], b"".join(line + b"\n" for line in piece)), (replies, 1 if refusals else 0, b""), f"lines {start} to {end}")
        must_hold(program, str(path), schema, facts, f"lines {start} to {end}")
    os.remove(path)


def compare_cases(program, folder, cases, seed):
    for number in range(cases):
        try:
            compare_case(program, folder, seed, number)
        except Wrong as wrong:
            raise Wrong(f"case {number}: {wrong}") from None
    print(f"{cases} scripts over stores alike")


# A store by hand.

SCHEMA = b"cube\t1\npolicy\tcount\nnumber\tRepair\ndimension\tPlace\nnode\t0\tAll\nnode\t1\tTX\nnode\t2\tAustin\nnode\t2\tDallas\nnode\t2\tHouston\nend\n"
FACTS = [(1, [2], [100]), (2, [2], [300]), (3, [3], [50]), (4, [1], [600])]
ROWS = [(1, 1, [(0, 1)]), (2, 1, [(0, 1)]), (3, 1, [(1, 1)]), (4, 3, [(0, 2), (1, 1)])]
ROWS_FILE = b"id,Place,weight,of,Repair\n1,Austin,1,1,100\n2,Austin,1,1,300\n3,Dallas,1,1,50\n4,Austin,2,3,600\n4,Dallas,1,3,600\n"


def hand_made(path, schema=SCHEMA, facts=FACTS, rows=ROWS, tables=TABLES, more=()):
    base = sqlite3.connect(path)
    for table in tables:
        base.execute(table)
    if schema is not None:
        base.execute("INSERT INTO cube VALUES (1, ?)", (schema,))
    for i, nodes, cols in facts:
        base.execute("INSERT INTO fact VALUES (?, ?, ?)", (i, packed(">I", nodes), packed(">q", cols)))
    for i, den, body in rows:
        base.execute("INSERT INTO alloc VALUES (?, ?, ?)", (i, den, b"".join(struct.pack(">QQ", *row) for row in body)))
    for line in more:
        base.execute(line)
    base.commit()
    base.close()


def compare_hand_made(program, folder):
    """Stores that SQLite wrote, sound and not."""
    cases = [
        ("sound", {}, (b"sound\t4\t5\n", 0, b"")),
        ("remark before the schema", {"schema": b"# made by hand\n" + SCHEMA}, (b"sound\t4\t5\n", 0, b"")),
        ("schema cut", {"schema": SCHEMA.removesuffix(b"end\n")}, (b"", 5, b"cube: bad store: schema line 10: cut\n")),
        ("line behind the schema", {"schema": SCHEMA + b"x\n"}, (b"", 5, b"cube: bad store: schema line 11: tail\n")),
        ("no schema", {"schema": None}, (b"", 5, b"cube: bad store: schema line 1: cut\n")),
        ("id 0", {"facts": [(0, [2], [1]), *FACTS[1:]]}, (b"", 5, b"cube: bad store: fact 0 at place 0: id\n")),
        ("no node", {"facts": [*FACTS[:2], (3, [5], [50]), FACTS[3]]}, (b"", 5, b"cube: bad store: fact 3 at place 2: node\n")),
        ("two nodes", {"facts": [*FACTS[:2], (3, [3, 0], [50]), FACTS[3]]}, (b"", 5, b"cube: bad store: fact 3 at place 2: node\n")),
        ("no value", {"facts": [*FACTS[:3], (4, [1], [])]}, (b"", 5, b"cube: bad store: fact 4 at place 3: value\n")),
        ("large value", {"facts": [*FACTS[:3], (4, [1], [10**12 + 1])]}, (b"", 5, b"cube: bad store: fact 4 at place 3: value\n")),
        ("rows missing", {"rows": ROWS[:3]}, (b"", 5, b"cube: bad store: rows differ at place 3\n")),
        ("rows too many", {"rows": [*ROWS, (9, 1, [(0, 1)])]}, (b"", 5, b"cube: bad store: rows differ at place 4\n")),
        ("rows over a double", {"rows": [*ROWS[:3], (4, 6, [(0, 4), (1, 2)])]}, (b"", 5, b"cube: bad store: rows differ at place 3\n")),
    ]
    for name, changes, wanted in cases:
        path = str(Path(folder) / f"hand {name}.cube")
        hand_made(path, **changes)
        before = Path(path).read_bytes()
        must(call(program, ["check", path]), wanted, f"check of {name}")
        if wanted[1] == 0:
            must(call(program, ["schema", path]), (SCHEMA, 0, b""), f"schema of {name}")
            must(call(program, ["rows", path]), (ROWS_FILE, 0, b""), f"rows of {name}")
            must(call(program, ["rebuild", path]), (b"rebuilt\t4\t5\t0\n", 0, b""), f"rebuild of {name}")
        if wanted[1] == 5:
            for words in [["run", path], *table_calls(path)]:
                must(call(program, words, b"withdraw\t1\n"), wanted, f"{words[0]} over {name}")
            if "rows" not in changes:
                must(call(program, ["rebuild", path]), wanted, f"rebuild of {name}")
            must(tables_alone(path), tables_alone_of(before, folder), f"tables of {name} afterwards")
    print(f"{len(cases)} stores by hand alike")


def altered(random, rows):
    """Rows of which some are others, some are missing, and some have ids without a fact; and how many entries are put right."""
    kept, changed = [], 0
    for i, den, body in rows:
        how = random.choice(("as it is", "missing", "denominator", "weight", "cell", "empty"))
        changed += how != "as it is"
        if how == "denominator":
            den += 1
        elif how == "weight":
            body = [(cell, weight + (place == 0)) for place, (cell, weight) in enumerate(body)]
        elif how == "cell":
            body = [(cell + 7, weight) for cell, weight in body]
        elif how == "empty":
            body = []
        if how != "missing":
            kept.append((i, den, body))
    for i in random.sample((0, 5, 9, 2**62), random.randrange(4)):
        kept.append((i, 1, [(0, 1)]))
        changed += 1
    return kept, changed


def compare_rebuilt(program, folder):
    """Stores by hand whose rows are altered, put right: twice in turn, the second time without anything to do."""
    random = Random("rebuilt")
    right = str(Path(folder) / "right.cube")
    hand_made(right)
    count = 100
    for number in range(count):
        path = str(Path(folder) / f"altered {number}.cube")
        rows, changed = altered(random, ROWS)
        hand_made(path, rows=rows)
        must(call(program, ["rebuild", path]), (b"rebuilt\t4\t5\t%d\n" % changed, 0, b""), f"rebuild of {rows}")
        must(call(program, ["rebuild", path]), (b"rebuilt\t4\t5\t0\n", 0, b""), f"rebuild after {rows}")
        must(call(program, ["check", path]), (b"sound\t4\t5\n", 0, b""), f"check after {rows}")
        must(tables_alone(path), tables_alone(right), f"tables after {rows}")
    print(f"{count} stores rebuilt")


# The nodes of that schema, as a query of docs/STORE.md tells them.
NODES = [(0, 0, 0, "All"), (0, 1, 1, "TX"), (0, 2, 2, "Austin"), (0, 3, 2, "Dallas"), (0, 4, 2, "Houston")]


def compare_queries(folder):
    """The queries of docs/STORE.md, in their order, over the store by hand."""
    page = (Path(__file__).resolve().parent.parent / "docs/STORE.md").read_text(encoding="utf-8")
    queries = [text for text in re.findall(r"^```sql\n(.*?)^```", page, re.M | re.S) if text.startswith(("SELECT", "WITH"))]
    path = str(Path(folder) / "asked.cube")
    hand_made(path)
    base = sqlite3.connect(path)
    found = [base.execute(query).fetchall() for query in queries]
    base.close()
    wanted = [
        [(SCHEMA.decode(),)],
        [(i, place, node) for i, nodes, _ in FACTS for place, node in enumerate(nodes)],
        [(i, column, value) for i, _, cols in FACTS for column, value in enumerate(cols, 1)],
        [(i, cell, weight, den) for i, den, rows in ROWS for cell, weight in rows],
        NODES,
    ]
    must(found, wanted, "queries of docs/STORE.md")
    print(f"{len(queries)} queries alike")


# What a growth keeps of the store by hand, over a text that is not as the program writes it: a leaf behind all others, one between, two
# under a leaf that facts are in, and one that is refused.
GROWTHS = [
    (b"grow\tPlace\tTX\tWaco\n", b"ok\t0\n", 0, SCHEMA.replace(b"end\n", b"node\t2\tWaco\nend\n"), ROWS),
    (
        b"grow\tPlace\tAustin\tNorth\n",
        b"ok\t0\n",
        0,
        b"cube\t2\npolicy\tcount\nnumber\tRepair\ndimension\tPlace\nnode\t0\tAll\t0\nnode\t1\tTX\t1\nnode\t2\tAustin\t2\nnode\t3\tNorth\t5\n"
        b"node\t2\tDallas\t3\nnode\t2\tHouston\t4\nend\n",
        ROWS,
    ),
    (
        b"grow\tPlace\tAustin\tNorth\ngrow\tPlace\tAustin\tSouth\n",
        b"ok\t0\nok\t4\n",
        0,
        b"cube\t2\npolicy\tcount\nnumber\tRepair\ndimension\tPlace\nnode\t0\tAll\t0\nnode\t1\tTX\t1\nnode\t2\tAustin\t2\nnode\t3\tNorth\t5\n"
        b"node\t3\tSouth\t6\nnode\t2\tDallas\t3\nnode\t2\tHouston\t4\nend\n",
        [(1, 2, [(0, 1), (1, 1)]), (2, 2, [(0, 1), (1, 1)]), (3, 1, [(2, 1)]), (4, 1, [(2, 1)])],
    ),
    (b"grow\tPlace\tTX\tDallas\n", b"error\tname\n", 1, b"# made by hand\n" + SCHEMA, ROWS),
]


def compare_grown(program, folder):
    """Stores that SQLite wrote, and the program grows: no fact changes."""
    for number, (lines, replies, status, text, rows) in enumerate(GROWTHS):
        path = str(Path(folder) / f"grown {number}.cube")
        hand_made(path, schema=b"# made by hand\n" + SCHEMA)
        must(call(program, ["run", path], lines), (replies, status, b""), f"growth {number}")
        must(tables(path), (text, FACTS, rows), f"tables after growth {number}")
        count = sum(len(r) for _, _, r in rows)
        must(call(program, ["check", path]), (b"sound\t4\t%d\n" % count, 0, b""), f"check after growth {number}")
    print(f"{len(GROWTHS)} grown stores alike")


def made_store(program, path, schema, script):
    """A store of a schema after a script, with the schema and the facts that the model has of it."""
    must(call(program, ["init", path], plain_table_rows.encoded(schema))[1], 0, "init of an example")
    must(call(program, ["run", path], plain_table_rows.encoded(script))[1], 0, "run of an example")
    return plain_table_rows.cube_of(schema, script)


def compare_table_rows(program, folder):
    """What is worked out by hand of `ask` and `rows`, each over a store of its own."""
    for number, (words, reply, status) in enumerate(plain_table_rows.ASKED):
        path = str(Path(folder) / f"asked {number}.cube")
        schema, facts = made_store(program, path, plain_table_rows.CARS, [line for line, _ in plain_table_rows.REPAIRS])
        fields = [plain_table_rows.encoded([word], "") for word in words]
        written = plain_table_rows.encoded([] if reply is None else [reply])
        must(call(program, ["ask", path, *fields], NOT_READ), (written, status, b""), f"ask {words}")
        must_hold(program, path, *plain_model.ask(schema, facts, fields)[2:], f"ask {words}")
    for number, (schema, script, lines) in enumerate(plain_table_rows.ROWS_FILES):
        path = str(Path(folder) / f"rows {number}.cube")
        made_store(program, path, schema, script)
        must(call(program, ["rows", path], NOT_READ), (plain_table_rows.encoded(lines), 0, b""), f"rows {number}")
    print(f"{len(plain_table_rows.ASKED)} lines asked and {len(plain_table_rows.ROWS_FILES)} files of rows alike")


def tables_alone(path):
    base = sqlite3.connect(f"file:{path}?mode=ro", uri=True)
    found = [base.execute(f"SELECT * FROM {table}").fetchall() for table in ("cube", "fact", "alloc")]
    base.close()
    return found


def tables_alone_of(content, folder):
    path = Path(folder) / "before.cube"
    path.write_bytes(content)
    return tables_alone(str(path))


STORE_FAULT = b"cube: store fault after line 0\n"


def compare_damaged(program, folder):
    """Files that are no stores, tables that are not as they must be, and files that cannot be read or written."""
    random = Random("damaged")
    done = 0

    def faulty(name, path):
        nonlocal done
        table_words = [(words, b"") for words in table_calls(path)]
        for words, text in ((["check", path], b""), (["run", path], b"withdraw\t1\n"), (["init", path], SCHEMA), *table_words):
            must(call(program, words, text), (b"", 8, STORE_FAULT), f"{words[0]} of {name}")
        done += 1

    def kept(name):
        return str(Path(folder) / f"damaged {name}.cube")

    Path(kept("random")).write_bytes(bytes(random.randrange(256) for _ in range(5000)))
    faulty("random bytes", kept("random"))
    os.mkdir(kept("folder"))
    faulty("a folder", kept("folder"))
    faulty("a file in no folder", str(Path(folder) / "none" / "x.cube"))
    for name, tables in (
        ("a view for a table", [*TABLES[:2], "CREATE VIEW alloc AS SELECT 1 AS id, 1 AS den, x'' AS body"]),
        ("a column of another name", [TABLES[0].replace("body", "text"), *TABLES[1:]]),
        ("a column too many", [TABLES[0], TABLES[1].replace("cols BLOB NOT NULL", "cols BLOB NOT NULL, x BLOB"), TABLES[2]]),
    ):
        hand_made(kept(name), schema=None, facts=[], rows=[], tables=tables)
        faulty(name, kept(name))
    for name, line in (
        ("an odd blob of nodes", "UPDATE fact SET nodes = x'000001' WHERE id = 3"),
        ("an odd blob of values", "UPDATE fact SET cols = x'00000001' WHERE id = 3"),
        ("an odd blob of rows", "UPDATE alloc SET body = x'0000000000000000' WHERE id = 3"),
        ("a text for a blob", "UPDATE fact SET nodes = 'abcd' WHERE id = 3"),
        ("a denominator below 0", "UPDATE alloc SET den = -1 WHERE id = 3"),
        ("a negative id", "UPDATE fact SET id = -3 WHERE id = 3"),
        ("a second schema", "INSERT INTO cube VALUES (2, x'00')"),
    ):
        hand_made(kept(name), more=[line])
        faulty(name, kept(name))
    hand_made(kept("truncated"))
    content = Path(kept("truncated")).read_bytes()
    for size in (50, 100, 1000, len(content) // 2, len(content) - 1):
        Path(kept("truncated")).write_bytes(content[:size])
        written, status, said = call(program, ["check", kept("truncated")])
        must((written, status in (5, 8)), (b"", True), f"check of {size} bytes")
        done += 1
    hand_made(kept("locked"))
    base = sqlite3.connect(kept("locked"), isolation_level=None)
    base.execute("BEGIN EXCLUSIVE")
    must(call(program, ["run", kept("locked")], b"withdraw\t1\n"), (b"", 8, STORE_FAULT), "run of a locked file")
    base.execute("ROLLBACK")
    base.close()
    must(call(program, ["run", kept("locked")], b"withdraw\t1\n")[:2], (b"ok\t1\n", 0), "run of the file afterwards")
    print(f"{done + 1} damaged stores refused")


IN_USE = b"in use by another process: wait until it has ended"
NO_PERMISSION = b"no permission to read and write it, or its disk is read-only"
DISK_FULL = b"the disk is full"
LOG_ALONE = b"a log with content stands beside no store: put the store back beside it, or remove the log"
EXCHANGED = b"it was exchanged, or changed by another, while it was open"
UNREADABLE = b"it holds what cannot be read here, or rows that break its own schema"
DAMAGED_PAGE = b"a page of it or of its log is damaged"


def table_reason(name):
    return b"its table %b is not laid out as a store's" % name


def bound_reason(name):
    return b"its table %b has a trigger, or an index with an expression or a WHERE" % name


# What is done to a store by hand, and the reason that is told then.
ALTERED = [
    ("a constraint that checks", TABLES[:1] + [TABLES[1].replace("cols BLOB NOT NULL", "cols BLOB NOT NULL CHECK (id < 9)")] + TABLES[2:], [], table_reason(b"fact")),
    ("unique values", TABLES[:1] + [TABLES[1].replace("cols BLOB NOT NULL", "cols BLOB NOT NULL UNIQUE")] + TABLES[2:], [], table_reason(b"fact")),
    ("a reference", TABLES[:2] + [TABLES[2].replace("id INTEGER PRIMARY KEY", "id INTEGER PRIMARY KEY REFERENCES fact (id)")], [], table_reason(b"alloc")),
    ("a default", TABLES[:2] + [TABLES[2].replace("den INTEGER NOT NULL", "den INTEGER NOT NULL DEFAULT 1")], [], table_reason(b"alloc")),
    ("a rule for conflicts", TABLES[:2] + [TABLES[2].replace("den INTEGER NOT NULL", "den INTEGER NOT NULL ON CONFLICT IGNORE")], [], table_reason(b"alloc")),
    ("a negative id", TABLES, ["UPDATE fact SET id = -3 WHERE id = 3"], b"a row of its tables holds what no edit writes"),
    ("a virtual table", TABLES, ["CREATE VIRTUAL TABLE other USING fts5(a)"], UNREADABLE),
    ("a trigger on a table of the store", TABLES, ["CREATE TRIGGER t AFTER INSERT ON fact BEGIN SELECT 1; END"], bound_reason(b"fact")),
    ("an index with an expression", TABLES, ["CREATE INDEX i ON cube (k + 1)"], bound_reason(b"cube")),
    ("a partial index", TABLES, ["CREATE INDEX i ON alloc (den) WHERE id > 1"], bound_reason(b"alloc")),
    ("auto-vacuum", ["PRAGMA auto_vacuum = FULL", *TABLES], [], DAMAGED_PAGE),
    ("UTF-16", ["PRAGMA encoding = 'UTF-16le'", *TABLES], [], DAMAGED_PAGE),
]


def compare_reasons(program, folder):
    """The reasons of faults, each in its words, and what stays as it was."""
    done = 0

    def fails(path, reason, what):
        nonlocal done
        commands = [[word, path] for word in ("init", "run", "import", "export", "check", "rebuild")] + table_calls(path)
        for words in commands:
            must(told(program, words, SCHEMA if words[0] == "init" else NOT_READ), (b"", FAILED, fault_of(path, reason)), f"{words[0]} of {what}")
        done += 1

    for name, tables, lines, reason in ALTERED:
        path = str(Path(folder) / f"reason {name}.cube")
        hand_made(path, tables=tables, more=lines)
        fails(path, reason, name)
    for name, content in (("no", None), ("an empty", b""), ("a one-byte", b"S")):
        path = Path(folder) / f"reason {name}.cube"
        Path(f"{path}-wal").write_bytes(b"a log")
        if content is not None:
            path.write_bytes(content)
        fails(str(path), LOG_ALONE, f"a log beside {name} file")
        left = path.read_bytes() if path.exists() else None
        must((left, Path(f"{path}-wal").read_bytes()), (content, b"a log"), f"{name} file and its log")
    for name, content in (("no", None), ("an empty", b""), ("a one-byte", b"S")):
        target = Path(folder) / f"target {name}.cube"
        Path(f"{target}-wal").write_bytes(b"a log")
        if content is not None:
            target.write_bytes(content)
        path = Path(folder) / f"link {name}.cube"
        path.symlink_to(target)
        fails(str(path), b"not a plain file" if content is None else LOG_ALONE, f"a link to {name} file beside a log")
        must(Path(f"{target}-wal").read_bytes(), b"a log", f"the log beside {name} file of a link")
    path = str(Path(folder) / "reason used.cube")
    hand_made(path)
    base = sqlite3.connect(path, isolation_level=None)
    base.execute("BEGIN EXCLUSIVE")
    fails(path, IN_USE, "a store in use")
    base.execute("ROLLBACK")
    base.close()
    print(f"{done} reasons told")


def compare_no_files(program, folder):
    """Commands that are refused or read alone, where nothing was kept: no file is made."""
    place = Path(folder) / "nothing"
    place.mkdir()
    path = str(place / "s.cube")
    reading = [[word, path] for word in ("run", "import", "export", "check", "rebuild")] + table_calls(path)
    for words in reading:
        must(told(program, words, b"id\n"), (b"", 4, b"cube: no cube\n"), f"{words[0]} where nothing was kept")
    must(told(program, ["init", path], b"cube\t3\n")[1], 3, "a refused init")
    for words in (["--help"], ["--version"], [path], ["check"], ["init"], ["rebuild", path, path]):
        must(told(program, words)[1], 2, f"words {words}")
    must(list(place.iterdir()), [], "files that were made")
    hand_made(path)
    questions = [[word, path] for word in ("run", "export", "check", "rebuild", "schema", "rows")] + [["ask", path, "count", "All"]]
    for words in questions:
        must(told(program, words, b"count\tAll\nwithdraw\t9\n")[1], words[0] == "run", f"{words[0]} over a store")
        must(list(place.iterdir()), [Path(path)], f"files beside a store after {words[0]}")
    print(f"{len(reading) + 7 + len(questions)} commands that make no file")


def emptied(path):
    os.truncate(path, 0)


def copied_over(path):
    """Another file's bytes in the place of those of this one."""
    Path(path).write_bytes(Path(f"{path} other").read_bytes() + bytes(4096))


WAYS = {
    "a file moved over it": lambda path: os.replace(f"{path} other", path),
    "removed": os.remove,
    "moved away": lambda path: os.rename(path, f"{path} away"),
    "emptied": emptied,
    "copied over": copied_over,
    "its log removed": lambda path: os.remove(f"{path}-wal"),
    "its log emptied": lambda path: emptied(f"{path}-wal"),
}


def exchanged(program, name, exchange, after=b"withdraw\t2\n", **settings):
    """What a run over a name that is answered one edit writes and says, where the store is exchanged before what comes after that."""
    run = subprocess.Popen([program, "run", name], stdin=subprocess.PIPE, stdout=subprocess.PIPE, stderr=subprocess.PIPE, env=os.environ | settings)
    run.stdin.write(b"withdraw\t1\n")
    run.stdin.flush()
    first = run.stdout.readline()
    exchange()
    written, said = run.communicate(after, timeout=SECONDS)
    return first + written, run.returncode, said


# What comes after an edit, and how many lines are done if the store was exchanged: at the next edit, or at the end.
AFTER = {"before an edit": (b"withdraw\t2\n", 1), "at the end": (b"", 1), "after a comment": (b"# done", 2)}


def compare_exchanged(program, folder):
    """Stores that are exchanged under an open run, by their names and by links: the next edit is refused, and where there is none the end."""
    for number, ((way, exchange), kind, (place, (after, done))) in enumerate(product(WAYS.items(), ("", " by a link"), AFTER.items())):
        path = str(Path(folder) / f"exchanged {number}.cube")
        hand_made(path)
        hand_made(f"{path} other")
        name = path
        if kind:
            name = f"{path} link"
            os.symlink(path, name)
        found = exchanged(program, name, lambda: exchange(path), after)
        must(found, (b"ok\t1\n", FAILED, fault_of(name, EXCHANGED, done)), f"a store {way}{kind} {place}")
    path = str(Path(folder) / "questions alone.cube")
    hand_made(path)
    found = told(program, ["run", path], b"count\tAll\n")
    asked = subprocess.Popen([program, "run", path], stdin=subprocess.PIPE, stdout=subprocess.PIPE, stderr=subprocess.PIPE)
    asked.stdin.write(b"# is read\n" * 10000)
    asked.stdin.flush()
    os.remove(path)
    written, said = asked.communicate(b"count\tAll\n", timeout=SECONDS)
    must((written, asked.returncode, said), found, "a store removed where no edit was done")
    print(f"{len(WAYS) * 2 * len(AFTER) + 1} stores exchanged under a run")


IO_ERROR = b"the system reported an I/O error"


def compare_failing(program, folder):
    """A store that is exchanged as a batch is synced: it is not answered. A disk that fails then: the batch may be there or not, and the store is
    sound."""
    if shutil.which("cc") is None:
        print("no C compiler (cc): a failing disk was not tried")
        return
    library = str(Path(folder) / "fail_sync.so")
    subprocess.run(["cc", "-O1", "-shared", "-fPIC", "-o", library, Path(__file__).with_name("fail_sync.c")], check=True)
    for what in ("", "-wal"):
        path = str(Path(folder) / f"exchanged at a sync{what}.cube")
        hand_made(path)
        # The library moves the other file over it at the first sync behind this.
        found = exchanged(program, path, lambda: hand_made(f"{path} other"), LD_PRELOAD=library, FROM=f"{path} other", TO=f"{path}{what}")
        must(found, (b"ok\t1\n", FAILED, fault_of(path, EXCHANGED, 1)), f"run where {path}{what} is exchanged at a sync")
    for error, reason in ((errno.EIO, IO_ERROR), (errno.ENOSPC, DISK_FULL)):
        path = str(Path(folder) / f"failing {error}.cube")
        hand_made(path)
        found = told(program, ["run", path], b"withdraw\t1\n", LD_PRELOAD=library, FAIL=str(error))
        must(found, (b"", FAILED, fault_of(path, reason)), f"run where a sync fails with {errno.errorcode[error]}")
        written, status, _ = told(program, ["check", path])
        must((written in (b"sound\t4\t5\n", b"sound\t3\t4\n"), status), (True, 0), f"check after {errno.errorcode[error]}")
    print("a disk that fails, one that is full, and a store that is exchanged, at a sync")


def mounted(*words):
    """Whether the system lets this be mounted, which asks for a superuser."""
    return subprocess.run(["mount", *words], capture_output=True).returncode == 0


def compare_full(program, folder):
    """A disk that becomes full, and one that may not be written."""
    disk = Path(folder) / "disk"
    disk.mkdir()
    if not mounted("-t", "tmpfs", "-o", "size=400k", "tmpfs", str(disk)):
        print("no disk could be mounted: a full disk was not tried")
        return
    try:
        path = str(disk / "s.cube")
        must(call(program, ["init", path], SCHEMA)[:2], (b"ok\t0\n", 0), "init on a small disk")
        script = b"".join(b"insert\t%d\tAustin\t%d\n" % (i, i) for i in range(1, 5001))
        written, status, said = told(program, ["run", path], script)
        answered = written.count(b"\n")
        must((status, said, written), (FAILED, fault_of(path, DISK_FULL, answered), b"ok\t1\n" * answered), "run on a disk that becomes full")
        must(mounted("-o", "remount,size=20m", str(disk)), True, "larger disk")
        written, status, said = call(program, ["check", path])
        must((written in (b"sound\t%d\t%d\n" % (n, n) for n in (answered, answered + 1)), status), (True, 0), "check on the larger disk")
        must(mounted("-o", "remount,ro", str(disk)), True, "disk that may not be written")
        for word in ("check", "run"):
            must(told(program, [word, path], b"withdraw\t1\n"), (b"", FAILED, fault_of(path, NO_PERMISSION)), f"{word} where nothing may be written")
        must(mounted("-o", "remount,rw", str(disk)), True, "disk that may be written again")
        must(call(program, ["check", path])[1], 0, "check afterwards")
        print(f"a disk that was full after {answered} edits, and one that may not be written")
    finally:
        subprocess.run(["umount", str(disk)], capture_output=True)


def main():
    want_words(3, __doc__)
    program, cases, seed = sys.argv[1], int(sys.argv[2]), int(sys.argv[3])
    with tempfile.TemporaryDirectory() as folder:
        try:
            compare_hand_made(program, folder)
            compare_rebuilt(program, folder)
            compare_queries(folder)
            compare_grown(program, folder)
            compare_table_rows(program, folder)
            compare_damaged(program, folder)
            compare_reasons(program, folder)
            compare_no_files(program, folder)
            compare_exchanged(program, folder)
            compare_failing(program, folder)
            compare_full(program, folder)
            compare_cases(program, folder, cases, seed)
        except Wrong as wrong:
            print(wrong)
            return 1
    return 0


if __name__ == "__main__":
    sys.exit(main())
