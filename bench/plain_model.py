#!/usr/bin/env python3
"""A plain model of `cube try`, and of files of facts, to compare the program with: plain_model.py try <INPUT

It is the definitions made literal: lists, filters and sums over whole numbers of any size, cells listed one by one, and
every fact allocated anew at each line. It shares nothing with the program, is slow, and is meant to be read.

Left out are faults of the streams, want of memory, and the limit on the bytes of the input. Lines, names and schemas stand in
plain_schema.py, feeds in plain_feed.py. Words of schemas and scripts that the program does not have yet are refused here as any unknown word is.
"""
import csv
import io
import sys
from fractions import Fraction
from itertools import product
from math import ceil, floor, lcm, prod
from typing import NamedTuple

sys.dont_write_bytecode = True

# Some of these are for the scripts that use the model.
from plain_schema import (
    MAX_DEPTH,
    MAX_LINE,
    MAX_NODES,
    MAX_PRODUCT,
    MAX_VALUE,
    Dimension,
    Refused,
    Schema,
    SchemaFault,
    fields_of,
    is_clean,
    is_name,
    is_skipped,
    is_utf8,
    leaves_under,
    lines_of,
    number_in,
    parents_of,
    read_schema,
    refuse_where,
    schema_text,
    value_in,
)

# Limits.
MAX_ID = 2**63 - 1
MAX_CELLS = 2**20  # of a fact's region
MAX_FACTS = 2**20
MAX_ROWS = 2**21  # of all facts
MAX_WORLDS = 65_536  # that are listed
MAX_MASS = 2**60  # of the worlds that are listed
MAX_ROUNDS = 32  # in which imprecise facts are shared
MAX_SHARED = 2**21  # cells of all imprecise facts, those of each counted, where these are shared in rounds
WIDE = 2**120  # the largest denominator and sum of absolute values of a fraction that is told as such
UNITS = 10**9  # of a bound, in one
WHOLE = 2**20  # units of a fact that is shared in rounds
FEW_WORLDS = 4096  # of which the least and the greatest sum are looked for one by one

# Statuses.
FINISHED, FINISHED_WITH_REFUSALS, USAGE, SCHEMA_REFUSED = range(4)

USAGE_TEXT = "usage: cube try, init NAME, run NAME, check NAME, import NAME, export NAME, drill N, lead NAME, follow NAME, ask NAME WORD.., schema NAME, rows NAME, rebuild NAME"


# Facts, and how they lie.


class Fact(NamedTuple):
    id: int
    region: tuple  # a node of each dimension
    values: tuple  # of each measure a list: one whole number, or a part for each outcome


class Allocation(NamedTuple):
    denominator: int
    rows: list  # of a cell and its weight, which is at least 1


def cell_count(schema, region):
    return prod(len(dim.leaves_under[node]) for dim, node in zip(schema.dimensions, region))


def cells_of(schema, region):
    """The cells of a region: each tuple of a leaf under its node in every dimension, the first dimension slowest."""
    return list(product(*(dim.leaves_under[node] for dim, node in zip(schema.dimensions, region))))


def is_inside(schema, cell, region):
    return all(leaf in dim.leaves_under[node] for dim, leaf, node in zip(schema.dimensions, cell, region))


def precise_cells(schema, facts):
    """Each fact whose region is one cell alone: that cell, and the fact's value of the weight measure, or 0."""
    place = schema.weight_measure
    return [
        (cells_of(schema, fact.region)[0], 0 if place is None else fact.values[place][0])
        for fact in facts
        if cell_count(schema, fact.region) == 1
    ]


def weight_of(schema, precise, cell):
    there = [value for place, value in precise if place == cell]
    return schema.weight(len(there), sum(there))


def evenly(cells):
    return Allocation(len(cells), [(cell, 1) for cell in cells])


def allocate(schema, precise, fact):
    """One cell has the whole fact. More cells share it by their weights, and evenly where none weighs anything."""
    cells = cells_of(schema, fact.region)
    if len(cells) == 1:
        return evenly(cells)
    rows = [(cell, weight_of(schema, precise, cell)) for cell in cells]
    total = sum(weight for _, weight in rows)
    if total == 0:
        return evenly(cells)
    return Allocation(total, [(cell, weight) for cell, weight in rows if weight > 0])


def extended(schema, facts):
    """Every fact with its allocation among the facts."""
    precise = precise_cells(schema, facts)
    return [(fact, allocate(schema, precise, fact)) for fact in facts]


def refreshed(before, after):
    """The facts of the later table that are new or lie otherwise than in the earlier one."""
    lay = {fact.id: lies for fact, lies in before}
    return [fact for fact, lies in after if lay.get(fact.id) != lies]


def weight_inside(schema, allocation, region):
    return sum(weight for cell, weight in allocation.rows if is_inside(schema, cell, region))


def answer(schema, facts, region):
    """What the facts add up to inside a region: for each denominator, ascending, the count and each column's sum."""
    table = extended(schema, facts)
    terms = []
    for denominator in sorted({allocation.denominator for _, allocation in table}):
        over = [(fact, weight_inside(schema, a, region)) for fact, a in table if a.denominator == denominator]
        count = sum(weight for _, weight in over)
        sums = [sum(column) for column in zip(*([w * v for vs in f.values for v in vs] for f, w in over))]
        if count != 0:
            terms.append([denominator, count, *sums])
    return terms


# Fractions. Those of Python are in lowest terms, and 0 is 0 over 1.


class Told(NamedTuple):
    """What a reply tells of a number: the fraction itself where it is told as one, and whole numbers of units about it."""

    low: int | None
    high: int | None
    exact: Fraction | None


def fractions_of(terms, column):
    return [Fraction(term[1 + column], term[0]) for term in terms]


def sum_over(multiple, fractions):
    return sum(f.numerator * (multiple // f.denominator) for f in fractions)


def is_wide(multiple, fractions):
    return multiple > WIDE or sum(abs(f.numerator) * (multiple // f.denominator) for f in fractions) > WIDE


def exactly(number):
    return Told(floor(number * UNITS), ceil(number * UNITS), number)


def total(terms, column):
    """The sum of a column, the count being column 0."""
    fractions = fractions_of(terms, column)
    multiple = lcm(*(f.denominator for f in fractions))
    if not is_wide(multiple, fractions):
        return exactly(Fraction(sum_over(multiple, fractions), multiple))
    return Told(sum(floor(f * UNITS) for f in fractions), sum(ceil(f * UNITS) for f in fractions), None)


def quotient(terms, column, scale):
    """The sum of a column over that of the count and a scale."""
    refuse_where(not terms, "undefined")
    sums, counts = fractions_of(terms, column), fractions_of(terms, 0)
    multiple = lcm(*(f.denominator for f in sums + counts))
    if not is_wide(multiple, sums) and not is_wide(multiple, counts):
        number = Fraction(sum_over(multiple, sums), sum_over(multiple, counts) * scale)
        if number.denominator <= WIDE:
            return exactly(number)
    return quotient_of_bounds(total(terms, column), total(terms, 0), scale)


def quotient_of_bounds(column, count, scale):
    if count.low == 0:
        return Told(None, None, None)
    least = Fraction(column.low, (count.high if column.low >= 0 else count.low) * scale)
    most = Fraction(column.high, (count.low if column.high >= 0 else count.high) * scale)
    return Told(floor(least * UNITS), ceil(most * UNITS), None)


def bound_text(units):
    """A number of units with nine digits behind the point."""
    if units is None:
        return "-"
    whole, rest = divmod(abs(units), UNITS)
    return f"{'-' if units < 0 else ''}{whole}.{rest:09}"


def told_fields(told):
    exact = "wide" if told.exact is None else str(told.exact)
    return [bound_text(told.low), bound_text(told.high), exact]


# Lines of a script.


def reply_line(word, *items):
    fields = [item if isinstance(item, bytes) else str(item).encode() for item in items]
    return b"\t".join([word, *fields]) + b"\n"


def read_id(text):
    id = number_in(1, MAX_ID, text)
    refuse_where(id is None, "id")
    return id


def read_region(schema, names):
    """The nodes of these names, one of each dimension."""
    refuse_where(any(name not in dim.names for dim, name in zip(schema.dimensions, names)), "node")
    return tuple(dim.names.index(name) for dim, name in zip(schema.dimensions, names))


def read_values(measure, text, is_weight):
    """The values of a measure that the text spells, if it spells any."""
    if measure.scale is None:
        value = value_in(text)
        return None if value is None or (is_weight and value < 0) else [value]
    parts = [number_in(0, measure.scale, part) for part in text.split(b":")]
    is_distribution = None not in parts and len(parts) == measure.columns and sum(parts) == measure.scale
    return parts if is_distribution else None


def read_fact(schema, id_text, *fields):
    """The fact of an id, a node of each dimension, and the values of each measure."""
    id = read_id(id_text)
    region = read_region(schema, fields[: len(schema.dimensions)])
    texts = zip(schema.measures, fields[len(schema.dimensions) :])
    values = [read_values(measure, text, k == schema.weight_measure) for k, (measure, text) in enumerate(texts)]
    wrong = [measure.scale is None for measure, found in zip(schema.measures, values) if found is None]
    refuse_where(True in wrong, "value")
    refuse_where(False in wrong, "parts")
    return Fact(id, region, tuple(values))


def has_id(facts, id):
    return any(fact.id == id for fact in facts)


def without(facts, id):
    return [fact for fact in facts if fact.id != id]


def with_fact(facts, new):
    """The facts ascending by id, with one whose id none of them has."""
    return [f for f in facts if f.id < new.id] + [new] + [f for f in facts if f.id > new.id]


def do_insert(schema, facts, *fields):
    fact = read_fact(schema, *fields)
    refuse_where(has_id(facts, fact.id), "exists")
    refuse_where(cell_count(schema, fact.region) > MAX_CELLS, "region")
    refuse_where(len(facts) >= MAX_FACTS, "facts")
    return edited(schema, facts, with_fact(facts, fact))


def do_change(schema, facts, *fields):
    fact = read_fact(schema, *fields)
    refuse_where(not has_id(facts, fact.id), "missing")
    refuse_where(cell_count(schema, fact.region) > MAX_CELLS, "region")
    return edited(schema, facts, with_fact(without(facts, fact.id), fact))


def do_withdraw(schema, facts, id_text):
    id = read_id(id_text)
    refuse_where(not has_id(facts, id), "missing")
    return edited(schema, facts, without(facts, id))


def edited(schema, facts, later):
    """An edit that leads from some facts to others is answered how many facts it refreshed."""
    after = extended(schema, later)
    refuse_where(sum(len(allocation.rows) for _, allocation in after) > MAX_ROWS, "rows")
    return reply_line(b"ok", len(refreshed(extended(schema, facts), after))), later


def grown(schema, place, parent, name):
    """The schema whose dimension of a place has a new leaf, the parent's last child, and where nodes stand then. Its
    number is how many nodes there were."""
    dim = schema.dimensions[place]
    behind = [n for n in range(parent + 1, len(dim.depths)) if dim.depths[n] <= dim.depths[parent]]
    at = behind[0] if behind else len(dim.depths)
    depths = dim.depths[:at] + [dim.depths[parent] + 1] + dim.depths[at:]
    names = dim.names[:at] + [name] + dim.names[at:]
    numbers = dim.numbers[:at] + [len(dim.numbers)] + dim.numbers[at:]
    later = Dimension(names, leaves_under(depths), depths, numbers)
    dimensions = schema.dimensions[:place] + [later] + schema.dimensions[place + 1 :]
    return schema._replace(dimensions=dimensions), lambda node: node + (node >= at)


def cell_code(schema, cell):
    """The place of a cell among all cells, the first dimension slowest."""
    code = 0
    for dim, leaf in zip(schema.dimensions, cell):
        code = code * len(dim.leaves_under[0]) + dim.leaves_under[0].index(leaf)
    return code


def coded(schema, table):
    """A table of facts by id, with the codes of their cells."""
    return {fact.id: (a.denominator, [(cell_code(schema, c), w) for c, w in a.rows]) for fact, a in table}


def do_grow(schema, facts, dimension, parent, name):
    """A dimension gets a leaf. It is answered how many facts lie otherwise then, and the schema is another after it."""
    refuse_where(dimension not in schema.names, "node")
    place = schema.names.index(dimension)
    dim = schema.dimensions[place]
    refuse_where(parent not in dim.names, "node")
    refuse_where(not is_name(name) or name in dim.names, "name")
    node = dim.names.index(parent)
    refuse_where(dim.depths[node] == MAX_DEPTH, "depth")
    refuse_where(len(dim.names) == MAX_NODES, "limit")
    later, moved_to = grown(schema, place, node, name)
    refuse_where(prod(len(dim.leaves_under[0]) for dim in later.dimensions) >= MAX_PRODUCT, "cells")
    refuse_where(prod(len(dim.names) for dim in later.dimensions) >= MAX_PRODUCT, "nodes")
    there = [
        f._replace(region=tuple(moved_to(n) if k == place else n for k, n in enumerate(f.region))) for f in facts
    ]
    refuse_where(any(cell_count(later, fact.region) > MAX_CELLS for fact in there), "region")
    after = extended(later, there)
    refuse_where(sum(len(allocation.rows) for _, allocation in after) > MAX_ROWS, "rows")
    before, now = coded(schema, extended(schema, facts)), coded(later, after)
    return reply_line(b"ok", sum(before[id] != lies for id, lies in now.items())), later, there


def do_terms(schema, facts, *names):
    found = answer(schema, facts, read_region(schema, names))
    return reply_line(b"terms", len(found), *(number for term in found for number in term)), facts


def do_count(schema, facts, *names):
    found = answer(schema, facts, read_region(schema, names))
    return reply_line(b"count", *told_fields(total(found, 0))), facts


def first_column(schema, place):
    """The column of the first value of a measure. Column 0 is the count."""
    return 1 + sum(measure.columns for measure in schema.measures[:place])


def read_measure(schema, name, is_distribution):
    """The place of the measure of this name, which is a distribution or not."""
    places = [k for k, m in enumerate(schema.measures) if m.name == name and (m.scale is not None) == is_distribution]
    refuse_where(not places, "measure")
    return places[0]


def do_sum(schema, facts, name, *names):
    region = read_region(schema, names)
    column = first_column(schema, read_measure(schema, name, False))
    return reply_line(b"sum", *told_fields(total(answer(schema, facts, region), column))), facts


def do_avg(schema, facts, name, *names):
    region = read_region(schema, names)
    column = first_column(schema, read_measure(schema, name, False))
    return reply_line(b"avg", *told_fields(quotient(answer(schema, facts, region), column, 1))), facts


def do_pool(schema, facts, name, *names):
    region = read_region(schema, names)
    place = read_measure(schema, name, True)
    terms, first, measure = answer(schema, facts, region), first_column(schema, place), schema.measures[place]
    outcomes = [quotient(terms, first + k, measure.scale) for k in range(measure.columns)]
    return reply_line(b"pool", *(field for told in outcomes for field in told_fields(told))), facts


def do_rows(schema, facts, id_text):
    id = read_id(id_text)
    refuse_where(not has_id(facts, id), "missing")
    [found] = [allocation for fact, allocation in extended(schema, facts) if fact.id == id]
    items = [item for cell, weight in found.rows for item in [*cell_names(schema, cell), weight]]
    return reply_line(b"rows", found.denominator, len(found.rows), *items), facts


def cut_of(dim, depth):
    """The nodes of this depth, and the leaves that lie less deep."""
    nodes = range(len(dim.depths))
    return [n for n in nodes if dim.depths[n] == depth or (dim.depths[n] < depth and dim.leaves_under[n] == [n])]


def do_view(schema, facts, name):
    """The regions where the cuts of the view meet, the first dimension slowest: those that have terms, with these."""
    views = [view for view in schema.views if view.name == name]
    refuse_where(not views, "name")
    regions = product(*(cut_of(dim, depth) for dim, depth in zip(schema.dimensions, views[0].depths)))
    entries = [(region, terms) for region in regions if (terms := answer(schema, facts, region))]
    items = [
        item
        for region, terms in entries
        for item in [*cell_names(schema, region), len(terms), *(number for term in terms for number in term)]
    ]
    return reply_line(b"view", len(entries), *items), facts


def lies_under(dim, node, upper):
    """Whether climbing from a node meets another. A node lies under itself."""
    parents = parents_of(dim.depths)
    while node is not None and node != upper:
        node = parents[node]
    return node == upper


def members_of(dim, depth, node):
    """The nodes of a cut that lie under a node; the node itself where it lies deeper than the cut."""
    if dim.depths[node] > depth:
        return [node]
    return [member for member in cut_of(dim, depth) if lies_under(dim, member, node)]


def do_table(schema, facts, word, question, measure, fields):
    """The regions into which others are cut, the first dimension slowest: those that have terms, each with what a question
    is answered of it. The fields are a depth for each dimension, then a node. The measure is the question's, or none."""
    depths = [number_in(0, MAX_DEPTH, text) for text in fields[: len(schema.dimensions)]]
    refuse_where(None in depths, "number")
    asked = read_region(schema, fields[len(schema.dimensions) :])
    for name in measure:
        read_measure(schema, name, word == b"pools")
    regions = product(*(members_of(*member) for member in zip(schema.dimensions, depths, asked)))
    there = [cell_names(schema, region) for region in regions if answer(schema, facts, region)]
    answers = [question(schema, facts, *measure, *names)[0].removesuffix(b"\n").split(b"\t")[1:] for names in there]
    items = [item for names, numbers in zip(there, answers) for item in [*names, *numbers]]
    return reply_line(word, len(there), *items), facts


def do_counts(schema, facts, *fields):
    return do_table(schema, facts, b"counts", do_count, [], fields)


def do_sums(schema, facts, name, *fields):
    return do_table(schema, facts, b"sums", do_sum, [name], fields)


def do_avgs(schema, facts, name, *fields):
    return do_table(schema, facts, b"avgs", do_avg, [name], fields)


def do_pools(schema, facts, name, *fields):
    return do_table(schema, facts, b"pools", do_pool, [name], fields)


def worlds_of(allocations):
    """All possible worlds: each fact stands in the cell of one of its rows, whose weights are multiplied."""
    for rows in product(*(allocation.rows for allocation in allocations)):
        yield prod(weight for _, weight in rows), [cell for cell, _ in rows]


def do_worlds(schema, facts, *names):
    region = read_region(schema, names)
    allocations = [allocation for _, allocation in extended(schema, facts)]
    refuse_where(prod(len(allocation.rows) for allocation in allocations) > MAX_WORLDS, "many")
    refuse_where(prod(allocation.denominator for allocation in allocations) > MAX_MASS, "wide")
    rows = [[1, *(value for values in fact.values for value in values)] for fact in facts]
    number, mass, totals = 0, 0, [0] * first_column(schema, len(schema.measures))
    for weight, cells in worlds_of(allocations):
        number, mass = number + 1, mass + weight
        for row, cell in zip(rows, cells):
            if is_inside(schema, cell, region):
                totals = [so_far + weight * value for so_far, value in zip(totals, row)]
    return reply_line(b"worlds", number, mass, *totals), facts


def column_values(schema, facts, place):
    """Each fact's value of a number measure; without a measure 1, as the count has it."""
    return [1 if place is None else fact.values[place][0] for fact in facts]


def picked_cell(schema, allocation, region, value, at_least):
    """The cell of the first row that is wanted for the least or the greatest sum, or of the first row where none is."""
    inside_serves = value < 0 if at_least else value > 0
    wanted = [cell for cell, _ in allocation.rows if value == 0 or is_inside(schema, cell, region) == inside_serves]
    return (wanted or [cell for cell, _ in allocation.rows])[0]


def sum_inside(schema, cells, values, region):
    return sum(value for cell, value in zip(cells, values) if is_inside(schema, cell, region))


def end_of(schema, facts, region, place, at_least):
    """The cells in which facts stand at an end of a region's sum of a measure, or of its count, and that sum. Where worlds are
    few, all of them are looked at too."""
    values = column_values(schema, facts, place)
    allocations = [allocation for _, allocation in extended(schema, facts)]
    picks = [picked_cell(schema, a, region, value, at_least) for a, value in zip(allocations, values)]
    end = sum_inside(schema, picks, values, region)
    if prod(len(allocation.rows) for allocation in allocations) <= FEW_WORLDS:
        sums = [sum_inside(schema, cells, values, region) for _, cells in worlds_of(allocations)]
        assert end == (min(sums) if at_least else max(sums))
    return picks, end


def do_range(schema, facts, name, *names):
    region = read_region(schema, names)
    place = read_measure(schema, name, False)
    return reply_line(b"range", *(end_of(schema, facts, region, place, end)[1] for end in (True, False))), facts


def do_rangecount(schema, facts, *names):
    region = read_region(schema, names)
    return reply_line(b"rangecount", *(end_of(schema, facts, region, None, end)[1] for end in (True, False))), facts


def do_end(schema, facts, word, name, names):
    """The sum at an end, and where each imprecise fact stands then."""
    region = read_region(schema, names)
    place = read_measure(schema, name, False)
    picks, end = end_of(schema, facts, region, place, word == b"least")
    there = [(fact.id, cell) for fact, cell in zip(facts, picks) if cell_count(schema, fact.region) > 1]
    items = [item for id, cell in there for item in [id, *cell_names(schema, cell)]]
    return reply_line(word, end, len(there), *items), facts


def do_least(schema, facts, name, *names):
    return do_end(schema, facts, b"least", name, names)


def do_greatest(schema, facts, name, *names):
    return do_end(schema, facts, b"greatest", name, names)


def share_of(level, cells, cell):
    """The units of a fact over cells that fall to one of them, as the cells stand, rounded down. Evenly where nothing stands."""
    mass = sum(level.get(other, 0) for other in cells)
    return WHOLE // len(cells) if mass == 0 else WHOLE * level.get(cell, 0) // mass


def levels_after(schema, facts, rounds):
    """How many units stand in each cell after so many rounds, where any do."""
    start, imprecise = {}, []
    for fact in facts:
        cells = cells_of(schema, fact.region)
        if len(cells) == 1:
            start[cells[0]] = start.get(cells[0], 0) + WHOLE
        else:
            imprecise.append(cells)
    level = start
    for _ in range(rounds):
        later = dict(start)
        for cells in imprecise:
            for cell in cells:
                later[cell] = later.get(cell, 0) + share_of(level, cells, cell)
        level = later
    return level


def refuse_many_cells(schema, facts):
    sizes = [cell_count(schema, fact.region) for fact in facts]
    refuse_where(sum(size for size in sizes if size > 1) > MAX_SHARED, "many")


def do_iterate(schema, facts, rounds_text, *names):
    """What all facts have in a region after so many rounds, column by column, in units. The last round's shares are taken."""
    rounds = number_in(1, MAX_ROUNDS, rounds_text)
    refuse_where(rounds is None, "number")
    region = read_region(schema, names)
    refuse_many_cells(schema, facts)
    before = levels_after(schema, facts, rounds - 1)
    totals = [0] * first_column(schema, len(schema.measures))
    for fact in facts:
        cells = cells_of(schema, fact.region)
        inside = [cell for cell in cells if is_inside(schema, cell, region)]
        units = WHOLE * len(inside) if len(cells) == 1 else sum(share_of(before, cells, cell) for cell in inside)
        row = [1, *(value for values in fact.values for value in values)]
        totals = [so_far + units * value for so_far, value in zip(totals, row)]
    return reply_line(b"iterate", *totals), facts


def do_component(schema, facts, id_text):
    """The ids of the facts that a chain of imprecise facts reaches, each of which shares a cell with the next."""
    id = read_id(id_text)
    refuse_where(not has_id(facts, id), "missing")
    refuse_many_cells(schema, facts)
    cells = {fact.id: set(cells_of(schema, fact.region)) for fact in facts}
    imprecise = [other for other, there in cells.items() if len(there) > 1]
    reached, waiting = {id}, [id] if id in imprecise else []
    while waiting:
        last = waiting.pop()
        touched = {other for other in imprecise if other not in reached and cells[other] & cells[last]}
        reached |= touched
        waiting += touched
    return reply_line(b"component", len(reached), *sorted(reached)), facts


def cell_names(schema, cell):
    return [dim.names[leaf] for dim, leaf in zip(schema.dimensions, cell)]


# Each command with what it does, which gives the reply and the facts after it, and whether its line has an id, a number of rounds or
# the name of a measure or of a view, how many fields it has for each dimension, and whether it has a value of each measure.
COMMANDS = {
    b"insert": (do_insert, True, 1, True),
    b"change": (do_change, True, 1, True),
    b"withdraw": (do_withdraw, True, 0, False),
    b"count": (do_count, False, 1, False),
    b"sum": (do_sum, True, 1, False),
    b"avg": (do_avg, True, 1, False),
    b"pool": (do_pool, True, 1, False),
    b"terms": (do_terms, False, 1, False),
    b"rows": (do_rows, True, 0, False),
    b"view": (do_view, True, 0, False),
    b"worlds": (do_worlds, False, 1, False),
    b"counts": (do_counts, False, 2, False),
    b"sums": (do_sums, True, 2, False),
    b"avgs": (do_avgs, True, 2, False),
    b"pools": (do_pools, True, 2, False),
    b"range": (do_range, True, 1, False),
    b"rangecount": (do_rangecount, False, 1, False),
    b"least": (do_least, True, 1, False),
    b"greatest": (do_greatest, True, 1, False),
    b"iterate": (do_iterate, True, 1, False),
    b"component": (do_component, True, 0, False),
}


def do_line(schema, facts, line):
    """The reply to a line that is not refused, and the schema and the facts after it."""
    word, *fields = fields_of(line)
    if word == b"grow":
        refuse_where(len(fields) != 3, "fields")
        return do_grow(schema, facts, *fields)
    refuse_where(word not in COMMANDS, "command")
    command, has_first, for_each_dimension, has_values = COMMANDS[word]
    count = has_first + for_each_dimension * len(schema.dimensions) + has_values * len(schema.measures)
    refuse_where(len(fields) != count, "fields")
    reply, later = command(schema, facts, *fields)
    return reply, schema, later


def do_lines(schema, facts, lines):
    """The replies to the lines, done one after the other, how many were refused, and the schema and the facts after them."""
    replies, refusals = [], 0
    for line in lines:
        if is_skipped(line):
            continue
        try:
            reply, schema, facts = do_line(schema, facts, line)
        except Refused as refused:
            reply = reply_line(b"error", refused.code)
            refusals += 1
        replies.append(reply)
    return b"".join(replies), refusals, schema, facts


# Files of facts. What a record is, Python's `csv` says.

MARK = b"\xef\xbb\xbf"  # of the order of bytes


class BadRecord(Exception):
    """The first record of a file that is refused, the header having index 0, and its code."""

    def __init__(self, index, code):
        super().__init__(index, code)
        self.index = index
        self.code = code


class TooManyRows(Exception):
    """All facts with those of a file would have so many rows."""

    def __init__(self, would):
        super().__init__(would)
        self.would = would


def records_of(file):
    """The records of a file behind one mark. An empty line is none. Bytes go through as characters of one byte each."""
    text = file.removeprefix(MARK).decode("latin-1")
    rows = csv.reader(io.StringIO(text, newline=""))
    return [[field.encode("latin-1") for field in row] for row in rows if row]


def header_of(schema):
    return [b"id", *schema.names, *(measure.name for measure in schema.measures)]


def read_record(schema, facts, record):
    """The fact of a record, which may be put where these are."""
    refuse_where(len(record) != len(header_of(schema)), "fields")
    refuse_where(not all(map(is_utf8, record)), "text")
    fact = read_fact(schema, *record)
    refuse_where(has_id(facts, fact.id), "exists")
    refuse_where(cell_count(schema, fact.region) > MAX_CELLS, "region")
    refuse_where(len(facts) >= MAX_FACTS, "facts")
    return fact


def import_file(schema, facts, file):
    """The reply to a file of facts, and the facts after it."""
    header, *records = records_of(file) or [[]]
    if header != header_of(schema):
        raise BadRecord(0, "header")
    later = facts
    for index, record in enumerate(records, 1):
        try:
            later = with_fact(later, read_record(schema, later, record))
        except Refused as refused:
            raise BadRecord(index, refused.code) from None
    after = extended(schema, later)
    would = sum(len(allocation.rows) for _, allocation in after)
    if would > MAX_ROWS:
        raise TooManyRows(would)
    return reply_line(b"imported", len(records), len(refreshed(extended(schema, facts), after))), later


def values_text(values):
    return ":".join(map(str, values))


def export_file(schema, facts):
    """The file of facts, in order of their ids."""
    out = io.StringIO(newline="")
    rows = csv.writer(out, lineterminator="\n")
    rows.writerow(field.decode("latin-1") for field in header_of(schema))
    for fact in sorted(facts, key=lambda fact: fact.id):
        nodes = [dim.names[node].decode("latin-1") for dim, node in zip(schema.dimensions, fact.region)]
        rows.writerow([fact.id, *nodes, *map(values_text, fact.values)])
    return out.getvalue().encode("latin-1")


def rows_file(schema, facts):
    """The file of the rows of all facts, in order of their ids, and of each fact's cells."""
    head, values = header_of(schema)[: 1 + len(schema.names)], header_of(schema)[1 + len(schema.names) :]
    out = io.StringIO(newline="")
    rows = csv.writer(out, lineterminator="\n")
    rows.writerow(field.decode("latin-1") for field in [*head, b"weight", b"of", *values])
    for fact, allocation in sorted(extended(schema, facts), key=lambda entry: entry[0].id):
        for cell, weight in sorted(allocation.rows, key=lambda row: cell_code(schema, row[0])):
            leaves = [name.decode("latin-1") for name in cell_names(schema, cell)]
            rows.writerow([fact.id, *leaves, weight, allocation.denominator, *map(values_text, fact.values)])
    return out.getvalue().encode("latin-1")


# The program.


def ask(schema, facts, words):
    """What is written for the words behind `ask NAME`, the status, and the schema and the facts after it."""
    replies, refusals, schema, facts = do_lines(schema, facts, [b"\t".join(words)])
    return replies, FINISHED_WITH_REFUSALS if refusals else FINISHED, schema, facts


def run(words, text):
    """What the program writes for the words of its command line and its input, its status, and its standard error."""
    if words != ["try"]:
        return b"", USAGE, f"cube: {USAGE_TEXT}\n".encode()
    try:
        schema, script = read_schema(lines_of(text))
    except SchemaFault as fault:
        return b"", SCHEMA_REFUSED, f"cube: schema line {fault.line}: {fault.code}\n".encode()
    replies, refusals, _, _ = do_lines(schema, [], script)
    return replies, FINISHED_WITH_REFUSALS if refusals else FINISHED, b""


def main():
    words = sys.argv[1:]
    written, status, said = run(words, sys.stdin.buffer.read() if words == ["try"] else b"")
    sys.stdout.buffer.write(written)
    sys.stderr.buffer.write(said)
    return status


if __name__ == "__main__":
    sys.exit(main())
