"""Lines, names, numbers and schemas of the plain model, and the trees that schemas make: see plain_model.py

It is a part of the model, and shares nothing with the program.
"""
from math import prod
from typing import Callable, NamedTuple

# Limits.
MAX_LINE = 4096  # bytes of a line, its CR counted and its LF not
MAX_NAME = 128  # bytes of a name
MAX_DIMENSIONS = 6
MAX_NODES = 65_536  # of a dimension
MAX_DEPTH = 8  # of a node; the root has 0
MAX_VALUES = 7  # of a fact, its count not among them
MAX_VALUE = 10**12  # absolute
MAX_SCALE = 10**6  # of a distribution
OUTCOMES = range(2, 8)  # how many a distribution may have
MAX_PRODUCT = 2**62  # the products of leaves and of nodes are below it
MAX_VIEWS = 4


class Refused(Exception):
    """A line is refused, and this code says why."""

    def __init__(self, code):
        super().__init__(code)
        self.code = code


class SchemaFault(Exception):
    """The first line of a schema that is refused, counted from 1, and its code."""

    def __init__(self, line, code):
        super().__init__(line, code)
        self.line = line
        self.code = code


def refuse_where(condition, code):
    """Refuses the line where the condition holds. Conditions are tried in order, so the first that holds is told."""
    if condition:
        raise Refused(code)


# Lines, fields, names and numbers.


def lines_of(text):
    """LF ends a line, and what is left behind the last LF is a line where it is not empty."""
    *lines, rest = text.split(b"\n")
    return lines + [rest] if rest else lines


def without_cr(line):
    """The line without one final CR."""
    return line[:-1] if line.endswith(b"\r") else line


def is_skipped(line):
    """Nothing stands in the line, or a comment, however long it is and whatever its bytes."""
    return without_cr(line) == b"" or line.startswith(b"#")


def is_utf8(text):
    try:
        text.decode("utf-8")
    except UnicodeDecodeError:
        return False
    return True


def is_control(byte):
    return byte < 32 or byte == 127


def is_clean(line):
    """The line is UTF-8 and has no control byte but TAB."""
    return is_utf8(line) and not any(is_control(byte) for byte in line.replace(b"\t", b""))


def is_name(text):
    return 1 <= len(text) <= MAX_NAME and is_utf8(text) and not any(is_control(byte) for byte in text)


def fields_of(line):
    """What stands between the TABs of a line that is neither too long nor unclean."""
    refuse_where(len(line) > MAX_LINE, "long")
    refuse_where(not is_clean(without_cr(line)), "text")
    return without_cr(line).split(b"\t")


def number_in(least, most, text):
    """The number of this range that the text spells, if it spells one: digits alone, and no 0 before another digit."""
    if not text.isdigit() or (text.startswith(b"0") and text != b"0"):
        return None
    return int(text) if least <= int(text) <= most else None


def value_in(text):
    """The value of a measure that the text spells, if it spells one: a number, or `-` and a number other than 0."""
    if not text.startswith(b"-"):
        return number_in(0, MAX_VALUE, text)
    size = number_in(1, MAX_VALUE, text[1:])
    return None if size is None else -size


# Schemas.


class Dimension(NamedTuple):
    """A tree. Nodes go by their places in the order of their lines, each parent before its children. No reply depends on
    their numbers: the text that is kept does, and the facts that are kept name them."""

    names: list  # of each node
    leaves_under: list  # of each node: the leaves that are it or lie below it, in order
    depths: list  # of each node
    numbers: list  # of each node


class Measure(NamedTuple):
    name: bytes
    scale: int | None  # of a distribution; None for whole numbers
    outcomes: tuple = ()  # of a distribution

    @property
    def columns(self):
        """How many values it has."""
        return 1 if self.scale is None else len(self.outcomes)


class View(NamedTuple):
    name: bytes
    depths: list  # of each dimension


class Schema(NamedTuple):
    policy: list  # the fields of its line
    names: list  # of the dimensions
    weight: Callable  # what a cell weighs by its number of precise facts, and by the sum of the weight measure over them
    weight_measure: int | None  # its place among the measures
    measures: list
    dimensions: list
    views: list


class Draft:
    """What the lines of a schema said so far."""

    def __init__(self):
        self.last_word = None
        self.has_numbers = False  # of its nodes, as in version 2
        self.policy = None  # the fields of its line
        self.weight = None
        self.weight_name = None  # of the measure by which cells weigh
        self.measures = []
        self.dimensions = []  # names
        self.depths = []  # of each dimension: the depths of its nodes
        self.names = []  # of each dimension: the names of its nodes, as the keys of a dict
        self.numbers = []  # of each dimension: the numbers of its nodes, as the keys of a dict
        self.views = []


POLICIES = {
    b"uniform": lambda count, total: 1,
    b"count": lambda count, total: count,
    b"weight": lambda count, total: total,
}


def read_version(draft, version):
    refuse_where(version not in (b"1", b"2"), "number")
    draft.has_numbers = version == b"2"


def read_policy(draft, policy, name=None):
    refuse_where(name is not None and not is_name(name), "name")
    refuse_where(policy not in POLICIES, "policy")
    draft.policy = [b"policy", policy] + ([] if name is None else [name])
    draft.weight, draft.weight_name = POLICIES[policy], name


def refuse_columns(draft, columns):
    refuse_where(sum(measure.columns for measure in draft.measures) + columns > MAX_VALUES, "limit")


def is_wrong_measure(draft, name):
    return not is_name(name) or any(measure.name == name for measure in draft.measures)


def read_number(draft, name):
    refuse_where(is_wrong_measure(draft, name), "name")
    refuse_columns(draft, 1)
    draft.measures.append(Measure(name, None))


def read_parts(draft, name, scale_text, *outcomes):
    are_names = all(map(is_name, outcomes)) and len(set(outcomes)) == len(outcomes)
    refuse_where(is_wrong_measure(draft, name) or not are_names, "name")
    scale = number_in(1, MAX_SCALE, scale_text)
    refuse_where(scale is None, "number")
    refuse_columns(draft, len(outcomes))
    draft.measures.append(Measure(name, scale, outcomes))


def read_dimension(draft, name):
    refuse_where(not is_name(name) or name in draft.dimensions, "name")
    refuse_broken_numbers(draft)
    refuse_where(len(draft.dimensions) == MAX_DIMENSIONS, "limit")
    draft.dimensions.append(name)
    draft.depths.append([])
    draft.names.append({})
    draft.numbers.append({})


def refuse_broken_numbers(draft):
    """The numbers of the dimension that ends are below their count, and each is above that of the node's parent."""
    numbers, depths = (list(draft.numbers[-1]), draft.depths[-1]) if draft.numbers else ([], [])
    for number, parent in zip(numbers, parents_of(depths)):
        refuse_where(number >= len(numbers), "number")
        refuse_where(parent is not None and numbers[parent] >= number, "number")


def read_node(draft, depth_text, name, number_text=None):
    depths, names, numbers = draft.depths[-1], draft.names[-1], draft.numbers[-1]
    refuse_where(not is_name(name) or name in names, "name")
    depth = number_in(0, MAX_DEPTH, depth_text)
    number = len(numbers) if number_text is None else number_in(0, MAX_NODES - 1, number_text)
    refuse_where(depth is None or number is None or number in numbers, "number")
    refuse_where(not may_follow(depths, depth), "depth")
    refuse_where(len(depths) == MAX_NODES, "limit")
    depths.append(depth)
    names[name] = len(names)
    numbers[number] = None


def read_view(draft, name, *depth_texts):
    refuse_where(not is_name(name) or any(view.name == name for view in draft.views), "name")
    depths = [number_in(0, MAX_DEPTH, text) for text in depth_texts]
    refuse_where(None in depths, "number")
    refuse_broken_numbers(draft)
    refuse_where(len(draft.views) == MAX_VIEWS, "limit")
    draft.views.append(View(name, depths))


def may_follow(depths, depth):
    """The first node of a dimension is the root, and no other is. A node lies at most one deeper than the one before."""
    return 1 <= depth <= depths[-1] + 1 if depths else depth == 0


def read_end(draft):
    refuse_broken_numbers(draft)
    refuse_where(draft.weight_name is not None and weight_measure_of(draft) is None, "policy")
    dimensions = dimensions_of(draft)
    refuse_where(prod(len(dim.leaves_under[0]) for dim in dimensions) >= MAX_PRODUCT, "cells")
    refuse_where(prod(len(dim.names) for dim in dimensions) >= MAX_PRODUCT, "nodes")


def weight_measure_of(draft):
    """The place of the measure of whole numbers by which cells weigh, if there is one."""
    places = [k for k, m in enumerate(draft.measures) if m.name == draft.weight_name and m.scale is None]
    return places[0] if places else None


class SchemaWord(NamedTuple):
    follows: tuple  # the words of the line before; None where there is none
    counts: Callable  # how many fields a line may have, the word counted
    read: Callable  # judges and adds the fields behind the word


SCHEMA_WORDS = {
    b"cube": SchemaWord((None,), lambda draft, fields: [2], read_version),
    b"policy": SchemaWord((b"cube",), lambda draft, fields: [3 if b"weight" in fields[1:2] else 2], read_policy),
    b"number": SchemaWord((b"policy", b"number", b"parts"), lambda draft, fields: [2], read_number),
    b"parts": SchemaWord((b"policy", b"number", b"parts"), lambda draft, fields: [3 + n for n in OUTCOMES], read_parts),
    b"dimension": SchemaWord((b"policy", b"number", b"parts", b"node"), lambda draft, fields: [2], read_dimension),
    b"node": SchemaWord((b"dimension", b"node"), lambda draft, fields: [3 + draft.has_numbers], read_node),
    b"view": SchemaWord((b"node", b"view"), lambda draft, fields: [2 + len(draft.dimensions)], read_view),
    b"end": SchemaWord((b"node", b"view"), lambda draft, fields: [1], read_end),
}


def read_schema_line(draft, line):
    """Judges a line that is not skipped, and adds what it says to the draft."""
    fields = fields_of(line)
    word = SCHEMA_WORDS.get(fields[0])
    refuse_where(word is None or draft.last_word not in word.follows, "order")
    refuse_where(len(fields) not in word.counts(draft, fields), "fields")
    word.read(draft, *fields[1:])
    draft.last_word = fields[0]


def read_schema(lines):
    """The schema with which the lines begin, and the lines behind it. Skipped lines count."""
    draft = Draft()
    for place, line in enumerate(lines, 1):
        try:
            if not is_skipped(line):
                read_schema_line(draft, line)
        except Refused as refused:
            raise SchemaFault(place, refused.code) from None
        if draft.last_word == b"end":
            measure = weight_measure_of(draft)
            dimensions = dimensions_of(draft)
            schema = Schema(draft.policy, draft.dimensions, draft.weight, measure, draft.measures, dimensions, draft.views)
            return schema, lines[place:]
    raise SchemaFault(len(lines) + 1, "cut")


def measure_fields(measure):
    if measure.scale is None:
        return [b"number", measure.name]
    return [b"parts", measure.name, b"%d" % measure.scale, *measure.outcomes]


def node_fields(dim, node, has_numbers):
    fields = [b"node", b"%d" % dim.depths[node], dim.names[node]]
    return fields + [b"%d" % dim.numbers[node]] if has_numbers else fields


def schema_text(schema):
    """The one text of a schema that is kept: of version 1 where the number of each node is its place."""
    has_numbers = any(dim.numbers != list(range(len(dim.numbers))) for dim in schema.dimensions)
    lines = [[b"cube", b"2" if has_numbers else b"1"], schema.policy, *map(measure_fields, schema.measures)]
    for name, dim in zip(schema.names, schema.dimensions):
        lines += [[b"dimension", name], *(node_fields(dim, node, has_numbers) for node in range(len(dim.names)))]
    lines += [[b"view", view.name, *(b"%d" % depth for depth in view.depths)] for view in schema.views]
    return b"".join(b"\t".join(line) + b"\n" for line in [*lines, [b"end"]])


# Trees.


def dimensions_of(draft):
    trees = zip(draft.names, draft.depths, draft.numbers)
    return [Dimension(list(names), leaves_under(depths), depths, list(numbers)) for names, depths, numbers in trees]


def parents_of(depths):
    """The parent of each node: the nearest node before it whose depth is one less. The root has none."""
    nearest = {}  # by depth
    parents = []
    for node, depth in enumerate(depths):
        parents.append(nearest.get(depth - 1))
        nearest[depth] = node
    return parents


def leaves_under(depths):
    """For each node, the leaves from which climbing meets it. A leaf is a node that is no node's parent."""
    parents = parents_of(depths)
    inner = set(parents)
    under = [[] for _ in depths]
    for leaf in range(len(depths)):
        node = None if leaf in inner else leaf
        while node is not None:
            under[node].append(leaf)
            node = parents[node]
    return under
