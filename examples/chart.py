#!/usr/bin/env python3
"""Draws the reply to a `view`, `counts`, `sums`, `avgs` or `pools` line as an SVG: bars for one dimension, a heat map for two.

    python3 examples/chart.py SCHEMA WORDS.. < REPLY > PICTURE.svg

SCHEMA is a store, or a file that begins with the schema, as a script for `try` does. REPLY is one line, TAB separated. WORDS say what
is drawn, as in a script: `count`, `sum MEASURE`, `avg MEASURE`, or `pool MEASURE OUTCOME`. A view has all of these, a reply
to `sums` has sums alone.

A dimension that has one node in the whole reply is not drawn. Values are exact fractions, and each shape has its value as a
title, which a browser shows under the pointer. Where a reply has bounds alone, the middle is drawn, and the title has both.
"""
import re
import sys
from fractions import Fraction
from itertools import product
from pathlib import Path
from typing import NamedTuple
from xml.sax.saxutils import escape

sys.dont_write_bytecode = True
sys.path.insert(0, str(Path(__file__).resolve().parent.parent / "tools"))

from facts import STORE_MAGIC, Misuse, read_store

USAGE = "usage: chart.py SCHEMA count | sum MEASURE | avg MEASURE | pool MEASURE OUTCOME"

# Pixels.
LETTER = 9  # of a label, at most on average
LINE = 24  # from one bar to the next
BAR = 16
LENGTH = 420  # of the longest bar
CELL = 72, 32  # of a heat map
GAP = 8

DARK = 8, 81, 156  # red, green and blue of the greatest value; the least is white
HALF = Fraction(1, 2)  # of the way there the ink turns white

COUNT = "count"  # the name of column 0
TABLES = {"counts": "count", "sums": "sum", "avgs": "avg", "pools": "pool"}  # words of replies, by what they have of each region


BOUND = re.compile(r"-?[0-9]{1,60}\.[0-9]{9}")
EXACT = re.compile(r"-?[0-9]{1,60}(/[1-9][0-9]{0,60})?")


class Fault(Exception):
    """Why nothing can be drawn."""


class Measure(NamedTuple):
    column: int  # the first of its own, where the count is column 0
    scale: int | None  # of a distribution; None for whole numbers
    outcomes: list


class Schema(NamedTuple):
    dimensions: dict  # by its name, the names of its nodes in order, as the keys of a dict
    measures: dict  # by its name
    columns: list  # their names, the count first


class Value(NamedTuple):
    number: Fraction | None  # none where nothing bounds it
    said: str


class Entry(NamedTuple):
    nodes: tuple  # a name for each dimension
    value: Value


# Reading.


def schema_text(path):
    """The text of a file that begins with a schema, or that of a store's schema."""
    with open(path, "rb") as file:
        front = file.read(len(STORE_MAGIC))
        text = read_store(path)[0] if front == STORE_MAGIC else front + file.read()
    return text.decode("utf-8")


def number_of(text):
    try:
        return int(text)
    except ValueError:
        raise Fault(f"not a number: {text!r}") from None


def read_schema(lines):
    """The dimensions and measures that the lines up to `end` name."""
    schema = Schema({}, {}, [COUNT])
    for line in lines:
        word, *fields = line.rstrip("\r\n").split("\t")
        if word == "end":
            return schema
        try:
            read_schema_line(schema, word, fields)
        except IndexError:
            raise Fault(f"this line of the schema has too few fields: {line!r}") from None
    raise Fault("no line `end`: the first file must begin with the schema, its fields between TABs")


def read_schema_line(schema, word, fields):
    if word == "dimension":
        schema.dimensions[fields[0]] = {}
    elif word == "node":
        list(schema.dimensions.values())[-1][fields[1]] = None
    elif word == "number":
        add_measure(schema, fields[0], None, [])
    elif word == "parts":
        add_measure(schema, fields[0], number_of(fields[1]), fields[2:])


def add_measure(schema, name, scale, outcomes):
    schema.measures[name] = Measure(len(schema.columns), scale, outcomes)
    schema.columns.extend(outcomes or [name])


def read_terms(fields, columns):
    """The sum of each column over the terms that come next: a denominator and as many numerators for each."""
    sums = [Fraction(0)] * columns
    for _ in range(number_of(next(fields))):
        denominator = number_of(next(fields))
        if denominator < 1:
            raise Fault(f"a denominator is {denominator}: is the schema that of the reply?")
        sums = [total + Fraction(number_of(next(fields)), denominator) for total in sums]
    return sums


def read_value(fields):
    """The value that two bounds and a fraction tell: the middle of the bounds where the fraction is too wide."""
    low, high, exact = [next(fields) for _ in range(3)]
    if exact == "wide" and low == high == "-":
        return Value(None, "not bounded")
    if exact == "wide" and BOUND.fullmatch(low) and BOUND.fullmatch(high):
        return Value((Fraction(low) + Fraction(high)) / 2, f"{low} to {high}")
    if not EXACT.fullmatch(exact):
        raise Fault(f"no two bounds and a number: {low!r}, {high!r}, {exact!r}: is the schema that of the reply?")
    return Value(Fraction(exact), exact)


def read_entry(fields, schema, read):
    nodes = tuple([next(fields) for _ in schema.dimensions])
    for node, names in zip(nodes, schema.dimensions.values()):
        if node not in names:
            raise Fault(f"the schema has no node {node!r} there: is it that of the reply?")
    return Entry(nodes, read(fields))


def read_reply(line, schema, words):
    """The entries of a reply, each with the value that the words ask for."""
    fields = iter(line.rstrip("\r\n").split("\t"))
    read = reader(schema, words, next(fields))
    try:
        entries = [read_entry(fields, schema, read) for _ in range(number_of(next(fields)))]
    except StopIteration:
        raise Fault("the reply ends too early: is the schema that of the reply?") from None
    if list(fields):
        raise Fault("the reply has more fields than its entries: is the schema that of the reply?")
    return entries


# What is drawn.


def measure_of(schema, name, is_distribution):
    measure = schema.measures.get(name)
    if measure is None or (measure.scale is not None) != is_distribution:
        kind = "distribution" if is_distribution else "number measure"
        raise Fault(f"the schema has no {kind} {name!r}")
    return measure


def outcome_place(measure, name, outcome):
    if outcome not in measure.outcomes:
        raise Fault(f"{name!r} has no outcome {outcome!r}")
    return measure.outcomes.index(outcome)


def value_of_sums(schema, words):
    """What gives the value that the words ask for, from the sums of each column, the count first."""
    match words:
        case ["count"]:
            return lambda sums: sums[0]
        case ["sum", name]:
            column = measure_of(schema, name, False).column
            return lambda sums: sums[column]
        case ["avg", name]:
            column = measure_of(schema, name, False).column
            return lambda sums: sums[column] / sums[0]
        case ["pool", name, outcome]:
            measure = measure_of(schema, name, True)
            column = measure.column + outcome_place(measure, name, outcome)
            return lambda sums: sums[column] / (sums[0] * measure.scale)
    raise Fault(USAGE)


def value_in_table(schema, words):
    """Which value of an entry the words ask for, and how many values an entry of the reply has."""
    if words[0] != "pool":
        return 0, 1
    measure = schema.measures[words[1]]
    return outcome_place(measure, words[1], words[2]), len(measure.outcomes)


def reader(schema, words, word):
    """What reads the value of an entry, in a reply that begins with a word."""
    value_of = value_of_sums(schema, words)
    if word == "view":
        return lambda fields: exactly(value_of(read_terms(fields, len(schema.columns))))
    if word not in TABLES:
        raise Fault(f"the reply begins with {word!r} and not with {', '.join(TABLES)} or view")
    if TABLES[word] != words[0]:
        raise Fault(f"the reply has {word}, and {words[0]!r} asks for another: give {TABLES[word]!r}")
    place, count = value_in_table(schema, words)
    return lambda fields: [read_value(fields) for _ in range(count)][place]


def exactly(number):
    return Value(number, str(number))


def drawn_dimensions(schema, entries):
    """The places of the dimensions of which the entries have several nodes, and else the first."""
    if not entries:
        raise Fault("the reply has no entry, so there is nothing to draw")
    several = [place for place in range(len(schema.dimensions)) if len({entry.nodes[place] for entry in entries}) > 1]
    if len(several) > 2:
        raise Fault(f"the reply goes along {len(several)} dimensions, and a picture has two")
    return several or [0]


def nodes_along(schema, entries, place):
    """The nodes that the entries have of a dimension, in the order of the schema."""
    there = {entry.nodes[place] for entry in entries}
    return [node for node in list(schema.dimensions.values())[place] if node in there]


def short(value):
    """A whole number, or two digits behind the point: the nearest, and of two the even one."""
    number = value.number
    if number is None:
        return "?"
    return str(number) if number.denominator == 1 else f"{round(number * 100) / 100:.2f}"


# Drawing.


def text_at(x, y, text, anchor="start", fill="black"):
    return f'<text x="{x}" y="{y}" text-anchor="{anchor}" fill="{fill}">{escape(text)}</text>'


def box(x, y, width, height, fill, title):
    size = f'x="{x}" y="{y}" width="{width}" height="{height}"'
    return f'<rect {size} fill="{fill}" stroke="#999999"><title>{escape(title)}</title></rect>'


def rgb(red, green, blue):
    return f"#{red:02x}{green:02x}{blue:02x}"


def picture(width, height, shapes):
    head = f'<svg xmlns="http://www.w3.org/2000/svg" width="{width}" height="{height}" font-family="sans-serif" font-size="13">'
    return "\n".join([head, f'<rect width="{width}" height="{height}" fill="white"/>', *shapes, "</svg>"]) + "\n"


def label_width(labels):
    return 2 * GAP + LETTER * max(map(len, labels))


def range_of(values):
    """The least value, 0 being among them, and how far the greatest is above it, or 1 where they are equal."""
    numbers = [0, *(value.number for value in values if value.number is not None)]
    return min(numbers), (max(numbers) - min(numbers)) or 1


def bar(left, y, label, value, unit):
    """A bar that begins at the left end of those above 0, and the value at its end."""
    number = value.number or 0
    length = round(abs(number) * unit)
    x, end, anchor = (left, left + length + 4, "start") if number >= 0 else (left - length, left - length - 4, "end")
    yield text_at(GAP, y, label)
    yield box(x, y - BAR + 4, length, BAR, rgb(*DARK), f"{label}: {value.said}")
    yield text_at(end, y, short(value), anchor)


def bars(values, title):
    """A bar for each label. Values below 0 go to the left of those above."""
    least, span = range_of(values.values())
    unit = LENGTH / span
    room = label_width(map(short, values.values()))
    left = label_width(values) + (room if least < 0 else 0)
    zero = left + round(-least * unit)
    shapes = [text_at(GAP, LINE - GAP, title)]
    for place, (label, value) in enumerate(values.items(), 2):
        shapes += bar(zero, place * LINE, label, value, unit)
    width = max(left + LENGTH + room, label_width([title]))
    return picture(width, (len(values) + 2) * LINE, shapes)


def shade(part):
    """A colour between white, for 0, and the dark one, for 1."""
    return rgb(*(round(255 + (dark - 255) * part) for dark in DARK))


def field(x, y, width, label, value, part):
    """A field with its value, which is such a part of the way from the least to the greatest; or an empty one."""
    if value is None:
        yield box(x, y, width, CELL[1], "none", f"{label}: no fact")
        return
    yield box(x, y, width, CELL[1], shade(part), f"{label}: {value.said}")
    yield text_at(x + width // 2, y + 20, short(value), "middle", "white" if part > HALF else "black")


def heat_map(values, rows, columns, title):
    """A field for each pair of labels. A pair without a value has an empty field."""
    least, span = range_of(values.values())
    cell_width, left, top = max(CELL[0], label_width(columns)), label_width(rows), 2 * LINE + GAP
    shapes = [text_at(GAP, LINE - GAP, title)]
    shapes += [text_at(GAP, top + i * CELL[1] + 20, row) for i, row in enumerate(rows)]
    middle = left + cell_width // 2
    shapes += [text_at(middle + j * cell_width, top - GAP, column, "middle") for j, column in enumerate(columns)]
    for (i, row), (j, column) in product(enumerate(rows), enumerate(columns)):
        value = values.get((row, column))
        part = 0 if value is None or value.number is None else (value.number - least) / span
        shapes += field(left + j * cell_width, top + i * CELL[1], cell_width, f"{row}, {column}", value, part)
    width = max(left + len(columns) * cell_width + GAP, label_width([title]))
    return picture(width, top + len(rows) * CELL[1] + GAP, shapes)


def chart(schema, entries, words):
    """The text of the picture."""
    places = drawn_dimensions(schema, entries)
    names = [list(schema.dimensions)[place] for place in places]
    title = f"{' '.join(words)} by {' and '.join(names)}"
    values = {tuple(entry.nodes[place] for place in places): entry.value for entry in entries}
    labels = [nodes_along(schema, entries, place) for place in places]
    if len(places) == 1:
        return bars({label: values[label,] for label in labels[0]}, title)
    return heat_map(values, *labels, title)


def main():
    if len(sys.argv) < 3:
        sys.exit(USAGE)
    sys.stdin.reconfigure(encoding="utf-8")
    sys.stdout.reconfigure(encoding="utf-8")
    path, *words = sys.argv[1:]
    read = path
    try:
        schema = read_schema(schema_text(path).split("\n"))
        read = "the reply"
        sys.stdout.write(chart(schema, read_reply(sys.stdin.readline(), schema, words), words))
    except (Fault, Misuse) as fault:
        sys.exit(f"chart.py: {fault}")
    except OSError as fault:
        sys.exit(f"chart.py: {read}: {fault.strerror}")
    except UnicodeDecodeError:
        sys.exit(f"chart.py: {read}: it is not UTF-8")


if __name__ == "__main__":
    main()
