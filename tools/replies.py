"""Replies of the program, read as tables: what tools/table prints

A reply says neither of which measure it is nor how many dimensions there are. The schema does, where one is given; else the number of its
fields tells the dimensions, unless it is a reply to `view` or `pools`.
"""
import re
from fractions import Fraction
from typing import NamedTuple

from facts import Misuse, plain_model, shown, text_of

WHOLE = re.compile(r"0|[1-9][0-9]{0,60}")
SIGNED = re.compile(r"0|-?[1-9][0-9]{0,60}")
BOUND = re.compile(r"-?(0|[1-9][0-9]{0,60})\.[0-9]{9}")
EXACT = re.compile(r"(0|-?[1-9][0-9]{0,60})(/[1-9][0-9]{0,60})?")

REGIONS = {"counts": "count", "sums": "sum", "avgs": "avg", "pools": "pool"}  # of tables, by the question that each region is asked
WORDS = ["count", "sum", "avg", "pool", *REGIONS, "rows", "view"]
OTHER_SCHEMA = "is the schema that of the reply?"


class Unread(Exception):
    """Why a reply cannot be read: its line, field and value, and what is wrong."""


class Number(NamedTuple):
    """A number by its bounds and its fraction. One that is too wide has no fraction, and one that nothing bounds has neither."""

    low: Fraction | None
    high: Fraction | None
    exact: Fraction | None

    def over(self, scale):
        return Number(*(None if part is None else part / scale for part in self))


class Table(NamedTuple):
    headers: list
    rows: list  # each has a cell for each header: a name, a whole number, or a Number


def exactly(fraction):
    return Number(fraction, fraction, fraction)


# The schema, and what the options say of measures.


class Known(NamedTuple):
    """What is known of the cube: the schema or none, the measure that replies are of or none, and the scales by measure."""

    schema: plain_model.Schema | None
    measure: str | None
    scales: dict

    def dimensions(self):
        """The names of the dimensions, each with its nodes."""
        return [(text_of(name), {text_of(node) for node in dim.names}) for name, dim in zip(self.schema.names, self.schema.dimensions)]

    def measures(self, is_distribution):
        """The measures of a kind, by their names."""
        return {text_of(m.name): m for m in self.schema.measures if (m.scale is not None) == is_distribution}

    def judge(self):
        """Refuses options that name what there is not."""
        numbers = {} if self.schema is None else self.measures(False)
        if self.schema is None:
            unknown = [name for name in self.scales if self.measure not in (None, name)]
            what = "it is not --measure, and no --schema has others"
        else:
            unknown = [name for name in self.scales if name not in numbers]
            what = f"the schema has no number measure of this name; it has {', '.join(numbers) or 'none'}"
        if unknown:
            raise Misuse(f"--scale {shown(unknown[0])}: {what}")
        if self.schema and self.measure not in (None, *numbers, *self.measures(True)):
            raise Misuse(f"--measure {shown(self.measure)}: the schema has no measure of this name")

    def measure_of(self, reply):
        """The name of the measure that a reply is of, or none where it is not known."""
        is_distribution = reply.question() == "pool"
        names = [] if self.schema is None else list(self.measures(is_distribution))
        if self.measure is not None or self.schema is None:
            if self.schema and self.measure not in names:
                raise Misuse(f"--measure {shown(self.measure)}: {reply.where}: field 1: {shown(reply.word)}: no such reply is of this measure")
            return self.measure
        if not names:
            reply.fault(f"the schema has no {'distribution' if is_distribution else 'number measure'}: {OTHER_SCHEMA}")
        return names[0] if len(names) == 1 else None

    def outcomes_of(self, name):
        return [text_of(outcome) for outcome in self.measures(True)[name].outcomes]

    def scale_of(self, name, reply):
        """By how much a sum or a mean of the measure is divided."""
        if name is None and self.scales:
            raise Misuse(f"--scale: {reply.where}: field 1: {shown(reply.word)}: of which measure it is must be named by --measure, or be the only one of --schema")
        return self.scales.get(name, 1)


# Fields.


class Reply:
    """The fields of a reply, which are taken one after another."""

    def __init__(self, where, line):
        self.where, self.fields, self.place = where, line.split("\t"), 0
        self.word = self.take("word")

    def question(self):
        return REGIONS.get(self.word, self.word)

    def fault(self, what):
        """Tells what is wrong with the field that was taken last."""
        raise Unread(f"{self.where}: field {self.place}: {shown(self.fields[self.place - 1])}: {what}")

    def take(self, what):
        if self.place == len(self.fields):
            raise Unread(f"{self.where}: field {self.place + 1}: no {what}: the reply ends too early")
        self.place += 1
        return self.fields[self.place - 1]

    def left(self):
        return len(self.fields) - self.place

    def whole(self, what, least=0):
        text = self.take(what)
        if not WHOLE.fullmatch(text) or int(text) < least:
            self.fault(f"no {what}, a whole number from {least}")
        return int(text)

    def signed(self, what):
        text = self.take(what)
        if not SIGNED.fullmatch(text):
            self.fault(f"no {what}, a whole number")
        return int(text)

    def node(self, dimension):
        name, nodes = dimension
        text = self.take(f"node of {name}")
        if nodes is not None and text not in nodes:
            self.fault(f"no node of {name}: {OTHER_SCHEMA}")
        return text

    def bound(self, what):
        text = self.take(what)
        if text != "-" and not BOUND.fullmatch(text):
            self.fault(f"no {what}, a number with nine decimals or -")
        return None if text == "-" else Fraction(text)

    def number(self):
        """Two bounds and a fraction."""
        low, high = self.bound("lower bound"), self.bound("upper bound")
        if (low is None) != (high is None) or (low is not None and high < low):
            self.fault("no upper bound of the lower one before it")
        text = self.take("exact number")
        if text == "wide":
            return Number(low, high, None)
        if not EXACT.fullmatch(text):
            self.fault("no exact number, a fraction, a whole number or wide")
        exact = Fraction(text)
        if low is None or not low <= exact <= high:
            self.fault("it does not lie between the bounds before it")
        return Number(low, high, exact)

    def end(self):
        if self.left():
            self.take("")
            self.fault(f"one field too many: {OTHER_SCHEMA}")


# Tables of replies.


def dimensions_of(reply, known, count, others):
    """Each dimension with its nodes, or none where no schema says them. Behind the names of an entry stand so many other fields."""
    if known.schema:
        return known.dimensions()
    width, rest = divmod(reply.left(), count) if count else (others, reply.left())
    if rest or width < others + bool(count):
        reply.fault(f"the number of fields behind it, {reply.left()}, is not that of so many entries")
    return [(f"dimension {place}", None) for place in range(1, width - others + 1)]


def headers_of_numbers(reply, known, measure):
    """The headers of the numbers that each region has."""
    question = reply.question()
    if question == "count":
        return ["count"]
    if question != "pool":
        return [question if measure is None else f"{question} {measure}"]
    if known.schema and measure is None:
        raise Misuse(f"{reply.where}: field 1: {shown(reply.word)}: of which measure it is must be named by --measure: {', '.join(known.measures(True))}")
    if known.schema:
        return known.outcomes_of(measure)
    if reply.word == "pools":
        raise Misuse(f'{reply.where}: field 1: "pools": how many outcomes there are is said by --schema alone')
    return [f"outcome {place}" for place in range(1, reply.left() // 3 + 1)] or ["outcome 1"]


def numbers_of(reply, headers, scale):
    return [reply.number().over(scale) for _ in headers]


def table_of_numbers(reply, known):
    """The table of a reply to a question of one region or of many."""
    question = reply.question()
    measure = None if question == "count" else known.measure_of(reply)
    scale = known.scale_of(measure, reply) if question in ("sum", "avg") else 1
    headers = headers_of_numbers(reply, known, measure)
    if reply.word not in REGIONS:
        return Table(headers, [numbers_of(reply, headers, scale)])
    count = reply.whole("number of regions")
    dimensions = dimensions_of(reply, known, count, 3 * len(headers))
    rows = [[*map(reply.node, dimensions), *numbers_of(reply, headers, scale)] for _ in range(count)]
    return Table([name for name, _ in dimensions] + headers, rows)


def table_of_rows(reply, known):
    """The table of how a fact is spread."""
    of, count = reply.whole("denominator", 1), reply.whole("number of rows", 1)
    dimensions = dimensions_of(reply, known, count, 1)
    rows = []
    for _ in range(count):
        leaves, weight = [*map(reply.node, dimensions)], reply.whole("weight", 1)
        rows.append([*leaves, weight, of, exactly(Fraction(weight, of))])
    return Table([name for name, _ in dimensions] + ["weight", "of", "share"], rows)


def sums_of_terms(reply, columns):
    """The sums of the count and of each column, over the terms that come next."""
    sums = [Fraction(0)] * columns
    for _ in range(reply.whole("number of terms", 1)):
        denominator = reply.whole("denominator", 1)
        sums = [total + Fraction(reply.signed("numerator"), denominator) for total in sums]
    if sums[0] <= 0:
        reply.fault(f"the terms that end here have no count above 0: {OTHER_SCHEMA}")
    return sums


def columns_of_view(known):
    """The header of each number of a region of a view, and what makes it of the sums of the count and of the columns."""
    columns, place = [("count", lambda sums: sums[0])], 1
    for measure in known.schema.measures:
        name, at = text_of(measure.name), place
        if measure.scale is None:
            scale = known.scales.get(name, 1)
            columns.append((f"sum {name}", lambda sums, at=at, scale=scale: sums[at] / scale))
            columns.append((f"avg {name}", lambda sums, at=at, scale=scale: sums[at] / sums[0] / scale))
        for k, outcome in enumerate(measure.outcomes):
            columns.append((f"{name} {text_of(outcome)}", lambda sums, at=at + k, scale=measure.scale: sums[at] / sums[0] / scale))
        place += measure.columns
    return columns


def table_of_view(reply, known):
    if known.schema is None:
        raise Misuse(f'{reply.where}: field 1: "view": which dimensions and measures there are is said by --schema alone')
    columns, dimensions = columns_of_view(known), known.dimensions()
    width = 1 + sum(measure.columns for measure in known.schema.measures)
    rows = []
    for _ in range(reply.whole("number of regions")):
        nodes, sums = [*map(reply.node, dimensions)], sums_of_terms(reply, width)
        rows.append(nodes + [exactly(value(sums)) for _, value in columns])
    return Table([name for name, _ in dimensions] + [header for header, _ in columns], rows)


def table_of(where, line, known):
    """The table of a reply, whose headers are all different."""
    reply = Reply(where, line)
    if reply.word == "error":
        reply.take("code")
        reply.fault("the line was refused, so there is no table")
    if reply.word not in WORDS:
        reply.fault(f"no reply that is a table; these are {', '.join(WORDS)}")
    make = {"rows": table_of_rows, "view": table_of_view}.get(reply.word, table_of_numbers)
    table = make(reply, known)
    reply.end()
    return table._replace(headers=distinct(table.headers))


def distinct(headers):
    """The headers, of which one that stands before has a number behind it."""
    made = []
    for header in headers:
        name, number = header, 2
        while name in made:
            name, number = f"{header} {number}", number + 1
        made.append(name)
    return made
