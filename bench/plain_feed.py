"""A plain model of feeds, what `lead` writes and `follow` takes: see plain_model.py

A feed begins with its base: the schema and the facts of a store. Behind it stands a batch for each accepted edit or growth: the line, the
rows of the facts that it refreshed, and `done`. A follower does each line over its own store, and takes a batch only where the feed says
the same rows as it finds itself.

It is a part of the model, and shares nothing with the program.
"""
from contextlib import contextmanager
from typing import NamedTuple

import plain_model
from plain_model import (
    Refused,
    Schema,
    SchemaFault,
    cell_count,
    cell_names,
    coded,
    do_line,
    extended,
    fields_of,
    is_clean,
    is_skipped,
    lines_of,
    number_in,
    read_fact,
    read_schema,
    refuse_where,
    reply_line,
    schema_text,
    values_text,
)

VERSION = b"1"
MAX_NUMBER = 2**64 - 1  # of a batch
EDITS = (b"insert", b"change", b"withdraw", b"grow")  # words of the lines that have a batch

# Statuses.
BAD_FEED, WRONG_BATCH, OTHER_BASE, OTHER_ROWS = range(13, 17)


class Store(NamedTuple):
    text: bytes  # of the schema, as it is kept
    schema: Schema
    facts: list


class Stopped(Exception):
    """A feed is followed no further, with this status, and this is said of it."""

    def __init__(self, status, said):
        super().__init__(status, said)
        self.status = status
        self.said = said


# What a feed says. Lines are without their LF.


def line_of(*items):
    return b"\t".join(item if isinstance(item, bytes) else b"%d" % item for item in items)


def text_of(lines):
    return b"".join(line + b"\n" for line in lines)


def fact_line(schema, fact):
    values = [values_text(values).encode() for values in fact.values]
    return line_of(b"fact", fact.id, *cell_names(schema, fact.region), *values)


def base_lines(schema, facts):
    head = [line_of(b"feed", VERSION), *lines_of(schema_text(schema))]
    return [*head, *(fact_line(schema, fact) for fact in facts), b"based"]


def refreshed(schema, facts, later, there):
    """Each fact that is new or lies otherwise than before, with how it lies. A cell is known by its place among all cells."""
    before, after = coded(schema, extended(schema, facts)), extended(later, there)
    now = coded(later, after)
    return [(fact, lies) for fact, lies in after if before.get(fact.id) != now[fact.id]]


def behind_lines(schema, facts, later, there):
    """The lines behind the one of a batch, which leads from a schema and facts to others."""
    lines = []
    for fact, lies in refreshed(schema, facts, later, there):
        lines.append(line_of(b"rows", fact.id, lies.denominator, len(lies.rows)))
        lines += [line_of(b"row", *cell_names(later, cell), weight) for cell, weight in lies.rows]
    return [*lines, b"done"]


def lead(schema, facts, script):
    """The lines of a feed of a script, how many of the script's lines were refused, and the schema and the facts after them."""
    feed, number, refusals = base_lines(schema, facts), 0, 0
    for line in script:
        if is_skipped(line):
            continue
        try:
            _, later, there = do_line(schema, facts, line)
        except Refused:
            refusals += 1
            continue
        fields = fields_of(line)
        if fields[0] in EDITS:
            # A number has one spelling, so the line says it as it is to be said.
            number += 1
            feed += [line_of(b"batch", number, *fields), *behind_lines(schema, facts, later, there)]
        schema, facts = later, there
    return feed, refusals, schema, facts


# How a feed is followed. Lines count from 1.


@contextmanager
def judged(number):
    """What is refused within is refused at this line of the feed."""
    try:
        yield
    except Refused as refused:
        raise Stopped(BAD_FEED, f"feed line {number}: {refused.code}") from None


def line_at(feed, number):
    refuse_where(number > len(feed), "cut")
    return feed[number - 1]


def refuse_unclean(line):
    """No CR is dropped."""
    refuse_where(len(line) > plain_model.MAX_LINE, "long")
    refuse_where(not is_clean(line), "text")


def fields_at(feed, number, words):
    """The fields of a line, where one of these words may stand."""
    line = line_at(feed, number)
    refuse_unclean(line)
    fields = line.split(b"\t")
    refuse_where(fields[0] not in words, "order")
    return fields


def read_head(feed):
    with judged(1):
        fields = fields_at(feed, 1, [b"feed"])
        refuse_where(len(fields) != 2, "fields")
        refuse_where(fields[1] != VERSION, "number")


def read_based_schema(feed):
    """The schema behind the head, and the number of the line behind it. Its lines are those of any schema."""
    try:
        schema, rest = read_schema(feed[1:])
    except SchemaFault as fault:
        raise Stopped(BAD_FEED, f"feed line {1 + fault.line}: {fault.code}") from None
    return schema, len(feed) - len(rest) + 1


def read_based_fact(schema, facts, fields):
    """The fact of a line of the base, behind these facts."""
    refuse_where(len(fields) != 2 + len(schema.dimensions) + len(schema.measures), "fields")
    fact = read_fact(schema, *fields[1:])
    refuse_where(facts != [] and fact.id <= facts[-1].id, "exists")
    refuse_where(cell_count(schema, fact.region) > plain_model.MAX_CELLS, "region")
    refuse_where(len(facts) >= plain_model.MAX_FACTS, "facts")
    return fact


def read_base(feed):
    """The schema and the facts of the base, and the number of the line behind it."""
    read_head(feed)
    schema, number = read_based_schema(feed)
    facts = []
    while True:
        with judged(number):
            fields = fields_at(feed, number, [b"fact", b"based"])
            if fields[0] == b"based":
                refuse_where(len(fields) != 1, "fields")
                rows = sum(len(lies.rows) for _, lies in extended(schema, facts))
                refuse_where(rows > plain_model.MAX_ROWS, "rows")
                return schema, facts, number + 1
            facts.append(read_based_fact(schema, facts, fields))
        number += 1


def is_based_on(store, schema, facts):
    return schema_text(store.schema) == schema_text(schema) and store.facts == facts


def read_said(store, feed, number, wanted):
    """The line that a batch does, where this is the number that is wanted, and the schema and the facts after it."""
    with judged(number):
        fields = fields_at(feed, number, [b"batch"])
        refuse_where(len(fields) < 3, "fields")
        got = number_in(0, MAX_NUMBER, fields[1])
        refuse_where(got is None, "number")
        if got != wanted:
            raise Stopped(WRONG_BATCH, f"batch {got} where {wanted} is next")
        refuse_where(fields[2] not in EDITS, "command")
        _, later, there = do_line(store.schema, store.facts, b"\t".join(fields[2:]))
    return fields[2], later, there


def read_batch(store, feed, first, wanted):
    """The store after the batch that begins at a line, and the number of the line behind it."""
    word, later, there = read_said(store, feed, first, wanted)
    behind = behind_lines(store.schema, store.facts, later, there)
    for number, line in enumerate(behind, first + 1):
        with judged(number):
            found = line_at(feed, number)
            if found != line:
                refuse_unclean(found)
                raise Stopped(OTHER_ROWS, f"batch {wanted} differs at line {number}")
    text = schema_text(later) if word == b"grow" else store.text
    return Store(text, later, there), first + 1 + len(behind)


def followed(store, feed):
    """The store at the end of the base, with 0, and then behind each batch, with its number. None is a store without anything."""
    schema, facts, line = read_base(feed)
    if store is None:
        store = Store(schema_text(schema), schema, facts)
    elif not is_based_on(store, schema, facts):
        raise Stopped(OTHER_BASE, "base differs")
    number = 0
    yield number, store
    while line <= len(feed):
        number += 1
        store, line = read_batch(store, feed, line, number)
        yield number, store


def follow(store, feed):
    """What is written for the lines of a feed over a store, the status, what is said, and the store after it."""
    applied, status, said = 0, plain_model.FINISHED, b""
    try:
        for applied, store in followed(store, feed):
            pass
    except Stopped as stopped:
        status, said = stopped.status, f"cube: {stopped.said}\n".encode()
    return b"".join(reply_line(b"applied", number) for number in range(1, applied + 1)), status, said, store
