"""Stores of the plain model: what a file of a store holds, read and written by Python's sqlite3, and what is found in it

It is a part of the model, and shares nothing with the program.
"""
import sqlite3
import struct
from pathlib import Path
from typing import NamedTuple

import plain_model
from plain_feed import Store

TABLES = [
    "CREATE TABLE cube (k INTEGER PRIMARY KEY, body BLOB NOT NULL)",
    "CREATE TABLE fact (id INTEGER PRIMARY KEY, nodes BLOB NOT NULL, cols BLOB NOT NULL)",
    "CREATE TABLE alloc (id INTEGER PRIMARY KEY, den INTEGER NOT NULL, body BLOB NOT NULL)",
]


class Content(NamedTuple):
    text: bytes | None  # of the schema
    facts: list  # of an id, the numbers of its nodes, and its values
    rows: list  # of an id, the denominator, and each cell with its weight


class Unsound(Exception):
    """What is found first in a content."""


def numbers(blob, item):
    return [value for (value,) in struct.iter_unpack(item, blob)]


def packed(item, values):
    return b"".join(struct.pack(item, value) for value in values)


# What a content is to be.


def numbers_of(schema, region):
    """The numbers of a region's nodes, which the model knows by their places."""
    return [dim.numbers[node] for dim, node in zip(schema.dimensions, region)]


def fact_entries(schema, facts):
    facts = sorted(facts, key=lambda fact: fact.id)
    return [(f.id, numbers_of(schema, f.region), [value for values in f.values for value in values]) for f in facts]


def row_entries(schema, facts):
    return [
        (fact.id, lies.denominator, sorted((plain_model.cell_code(schema, cell), weight) for cell, weight in lies.rows))
        for fact, lies in plain_model.extended(schema, facts)
    ]


def content_of(schema, facts, text=None):
    """What a store is to hold: the text that is written of the schema, where it has no other one, the facts and the rows."""
    return Content(text or plain_model.schema_text(schema), fact_entries(schema, facts), row_entries(schema, facts))


# Files.


def read_content(path):
    """The content of a file whose tables are as they must be, or None where nothing is kept there."""
    if not Path(path).exists() or Path(path).stat().st_size < 2:
        return None
    base = sqlite3.connect(f"file:{path}?mode=ro", uri=True)
    there = {name for (name,) in base.execute("SELECT name FROM sqlite_master")}
    text, facts, rows = (
        base.execute(f"SELECT * FROM {table} ORDER BY 1").fetchall() if table in there else [] for table in ("cube", "fact", "alloc")
    )
    base.close()
    if not text and not facts and not rows:
        return None
    return Content(
        text[0][1] if text else None,
        [(id, numbers(nodes, ">I"), numbers(cols, ">q")) for id, nodes, cols in facts],
        [(id, den, list(struct.iter_unpack(">QQ", body))) for id, den, body in rows],
    )


def write_content(path, content):
    """Puts a content in the place of what is kept there, in one transaction. It need not outlive the machine."""
    base = sqlite3.connect(path, isolation_level=None)
    base.execute("PRAGMA synchronous = OFF")
    base.execute("BEGIN EXCLUSIVE")
    for table in TABLES:
        base.execute(table.replace("TABLE", "TABLE IF NOT EXISTS"))
    for table in ("cube", "fact", "alloc"):
        base.execute(f"DELETE FROM {table}")
    base.execute("INSERT INTO cube VALUES (1, ?)", (content.text,))
    for id, nodes, cols in content.facts:
        base.execute("INSERT INTO fact VALUES (?, ?, ?)", (id, packed(">I", nodes), packed(">q", cols)))
    for id, den, body in content.rows:
        base.execute("INSERT INTO alloc VALUES (?, ?, ?)", (id, den, b"".join(struct.pack(">QQ", *row) for row in body)))
    base.execute("COMMIT")
    base.close()


# What is found in a content. The first that is found is told.


def read_text(text):
    """The schema of a text with nothing behind it."""
    schema, rest = plain_model.read_schema(plain_model.lines_of(text))
    first = len(plain_model.lines_of(text)) - len(rest) + 1
    for line, behind in enumerate(rest, first):
        if not plain_model.is_skipped(behind):
            raise plain_model.SchemaFault(line, "tail")
    return schema


def is_value(schema, place, value):
    least = 0 if place == schema.weight_measure else -plain_model.MAX_VALUE
    return least <= value <= plain_model.MAX_VALUE


def parted(schema, cols):
    """The values of each measure, by its columns."""
    cols = iter(cols)
    return tuple([next(cols) for _ in range(measure.columns)] for measure in schema.measures)


def read_entry(schema, facts, entry):
    """The fact of an entry that stands behind those of these facts."""
    id, nodes, cols = entry
    plain_model.refuse_where(not 1 <= id <= plain_model.MAX_ID or (facts != [] and id <= facts[-1].id), "id")
    are_nodes = len(nodes) == len(schema.dimensions) and all(n in dim.numbers for n, dim in zip(nodes, schema.dimensions))
    plain_model.refuse_where(not are_nodes, "node")
    plain_model.refuse_where(len(cols) != sum(measure.columns for measure in schema.measures), "value")
    values, measures = parted(schema, cols), schema.measures
    plain = [(place, vs[0]) for place, (measure, vs) in enumerate(zip(measures, values)) if measure.scale is None]
    plain_model.refuse_where(not all(is_value(schema, *value) for value in plain), "value")
    parts = [(measure.scale, vs) for measure, vs in zip(measures, values) if measure.scale is not None]
    plain_model.refuse_where(any(min(vs) < 0 or sum(vs) != scale for scale, vs in parts), "parts")
    fact = plain_model.Fact(id, tuple(dim.numbers.index(n) for n, dim in zip(nodes, schema.dimensions)), values)
    plain_model.refuse_where(plain_model.cell_count(schema, fact.region) > plain_model.MAX_CELLS, "region")
    plain_model.refuse_where(len(facts) >= plain_model.MAX_FACTS, "facts")
    return fact


def read_facts(content):
    """The schema and the facts of a content, whatever its rows are."""
    try:
        schema = read_text(content.text or b"")
    except plain_model.SchemaFault as fault:
        raise Unsound(f"schema line {fault.line}: {fault.code}") from None
    facts = []
    for place, entry in enumerate(content.facts):
        try:
            facts.append(read_entry(schema, facts, entry))
        except plain_model.Refused as refused:
            raise Unsound(f"fact {entry[0]} at place {place}: {refused.code}") from None
    return schema, facts


def read_store(content):
    """The store of a content, where it is sound."""
    schema, facts = read_facts(content)
    rows = row_entries(schema, facts)
    count = sum(len(body) for _, _, body in rows)
    if count > plain_model.MAX_ROWS:
        raise Unsound(f"{count} rows")
    if rows != content.rows:
        both = zip(rows, content.rows)
        raise Unsound(f"rows differ at place {next((k for k, (a, b) in enumerate(both) if a != b), min(len(rows), len(content.rows)))}")
    return Store(content.text, schema, facts)
