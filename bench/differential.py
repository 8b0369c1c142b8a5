#!/usr/bin/env python3
"""Compares the built program with the plain model on random inputs: differential.py PROGRAM CASES SEED

First come the worked examples, then so many cases. Compared are each byte of standard output, the status and standard
error. At the first difference the input is written to a file, and the status is 1. A case is made from the seed and its
number alone. At the end is printed how often each status and each code came.
"""
import re
import subprocess
import sys
import tempfile
from collections import Counter
from pathlib import Path
from random import Random

sys.dont_write_bytecode = True

import plain_drill
import plain_model
import plain_model_rows
from calls import want_words

SECONDS = 60  # that the program may take for an input
USAGE_EACH = 50  # one case of so many has words that are no command
DRILLS = [1, 2, 3, 4, 7, 16, 29, 52, 64, 81, 100, 150]  # facts; the plain model takes their square in time
WRONG_WORDS = [
    *([], [""], ["Try"], ["try", ""], ["try", "x"], ["try\n"], ["\udcff"]),
    *(["help"], ["--help"], ["run"], ["drill", "0"]),
    *(["ask"], ["ask", "s"], ["ask", "", "count"], ["Ask", "s", "count"], ["schema"], ["schema", "s", "t"], ["rows"], ["rows", "s", ""], ["rebuild"], ["rebuild", ""], ["rebuild", "s", "t"]),
    *(["lead"], ["lead", ""], ["lead", "s", "t"], ["follow"], ["follow", ""], ["follow", "s", "t"], ["Lead", "s"], ["feed", "s"]),
]
MOST_NODES = {1: 12, 2: 8, 3: 6, 4: 4, 6: 2, 7: 1}  # of a dimension, by how many there are; 7 are too many

NAMES = [
    *(b"a", b"b", b"c", b"d", b"All", b"TX", b"end", b"node", b"0", b"-1", b"#", b"x y", b" "),
    *("Zürich".encode(), "東".encode(), b"y" * 128),
]
WRONG_NAMES = [b"", b"A", b"a ", b"Waco", b"x" * 128, b"x" * 129, b"\xc3\xbc" * 64, b"\xc3\xbc" * 65]
VALUES = [b"0", b"1", b"2", b"-1", b"-3", b"7", b"100", b"1000000000000", b"-1000000000000"]
WRONG_VALUES = [
    *(b"", b"-", b"-0", b"+5", b"05", b"-05", b" 5", b"5 ", b"1.5", b"1e3", b"--1"),
    *(b"1000000000001", b"-1000000000001", b"9" * 40, "٣".encode(), b"1:1", b"50:50", b"100:0", b":", b"1:", b"0:1:0"),
]
IDS = [b"1", b"2", b"3", b"4", b"5", b"6", b"7", b"8", b"9223372036854775807"]
WRONG_IDS = [b"", b"0", b"-1", b"+1", b"01", b"9223372036854775808", b"18446744073709551617", b"x", b"1 "]
ROUNDS = [b"1", b"1", b"2", b"3", b"7", b"32"]
WRONG_ROUNDS = [b"0", b"33", b"01", b"", b"-1", b"x", b"4294967297"]
WRONG_DEPTHS = [b"", b"-1", b"01", b"9", b"10", b"x", b"256", b"4294967296"]
WRONG_LINES = [
    *(b"count", b"sum\ta", b"avg\ta\tb", b"pool\ta\tb", b"view", b"view\tx", b"view\tx\t1", b"view\tx\t1\t2", b"worlds"),
    *(b"Insert\t1\ta", b"insert", b"withdraw", b"rows", b"terms", b"\t", b"x", b"error\tid", b"end", b"node\t1\tz"),
    *(b"grow", b"grow\ta\tb", b"grow\ta\tb\tc", b"grow\ta\tb\tc\td", b"grow\tAll\tAll\tz", b"grow\t\t\t", b"Grow\ta\tb\tc"),
    *(b"counts", b"counts\t1", b"counts\t0\ta", b"sums\ta\t9\tb", b"avgs\t0\ta", b"pools\ta\t0\t1\tb\tc", b"Counts\t0\ta"),
    *(b"range", b"range\ta\tb", b"rangecount\ta", b"least\ta", b"greatest\ta\tb\tc", b"iterate\t1", b"iterate\ta", b"component", b"component\t1\t2"),
    *(b"parts\tQ\t100\tgood\tbad", b"parts\tQ\t0\tx\ty", b"parts\tQ\t1\tx\tx", b"parts\tQ\t1\tx", b"policy\tem", b"policy\tweight\ta", b"policy\tweight", b"cube\t2", b"cube\t3", b"node\t1\tz\t1", b"dimension\t", b"number\t"),
]
# Words of scripts, and how often they come.
WORDS = {
    **{b"insert": 12, b"change": 4, b"withdraw": 2, b"terms": 3, b"rows": 4},
    **{b"count": 3, b"sum": 3, b"avg": 4, b"pool": 3, b"worlds": 3, b"view": 3, b"grow": 3},
    **{b"counts": 3, b"sums": 3, b"avgs": 3, b"pools": 3},
    **{b"range": 3, b"rangecount": 2, b"least": 3, b"greatest": 3, b"iterate": 4, b"component": 3},
}
SKIPPED = [b"", b"\r", b"#", b"# insert\t1", b"#\xff\x00\r", b"#" + b"x" * 5000]
HOSTILE = [
    *(b"\xff", b"\xc3", b"\xed\xa0\x80", b"\xc0\xaf", b"\xf4\x90\x80\x80", b"\xef\xbb\xbf", b"\xe2\x82", b"\xc2\x80"),
    *(b"\x00", b"\x01", b"\x1f", b"\x7f", b"\x0b", b"\r", b"\t", b"\n", b"\r\n", b" "),
]


class Tree:
    """A dimension of a made schema: the depths and the names of its nodes."""

    def __init__(self, random, most):
        self.depths = [0]
        for _ in range(random.randrange(most)):
            self.depths.append(random.randint(1, min(self.depths[-1] + 1, plain_model.MAX_DEPTH)))
        self.names = random.sample(NAMES, len(self.depths))

    def lines(self, random=None):
        """The lines of the nodes, with numbers of their own where they are made at random: now and then wrong ones."""
        lines = [b"node\t%d\t%s" % node for node in zip(self.depths, self.names)]
        if random is None:
            return lines
        numbers = self.numbers(random)
        if random.random() < 0.05:
            numbers[random.randrange(len(numbers))] = random.choice([0, 1, len(numbers), 65_535, 65_536])
        return [b"%s\t%d" % line for line in zip(lines, numbers)]

    def numbers(self, random):
        """An order in which the nodes may have been made: each after its parent."""
        parents = plain_model.parents_of(self.depths)
        numbers, waiting = {}, {0}
        while waiting:
            node = random.choice(sorted(waiting))
            numbers[node] = len(numbers)
            waiting = waiting - {node} | {child for child, parent in enumerate(parents) if parent == node}
        return [numbers[node] for node in range(len(self.depths))]

    def node(self, random):
        """A name, mostly of a leaf, so that precise facts are frequent."""
        leaves = [name for name, here, below in zip(self.names, self.depths, [*self.depths[1:], 0]) if below <= here]
        return random.choice(leaves if random.random() < 0.5 else self.names)


class MadeMeasure:
    """A measure of a made schema: one of some four is a distribution."""

    def __init__(self, random, name):
        self.random = random
        self.name = name
        self.is_weight = False
        self.outcomes = random.sample(NAMES, random.choice([2, 2, 2, 3, 7])) if random.random() < 0.25 else []
        self.scale = random.choice([1, 2, 100, 1_000_000])

    def line(self):
        if not self.outcomes:
            return b"number\t" + self.name
        return b"\t".join([b"parts", self.name, b"%d" % self.scale, *self.outcomes])

    def value(self):
        """A value, mostly a right one."""
        if not self.outcomes:
            values = [value for value in VALUES if not value.startswith(b"-")] if self.is_weight else VALUES
            return self.random.choice(values if self.random.random() < 0.95 else VALUES)
        cuts = sorted(self.random.randint(0, self.scale) for _ in self.outcomes[1:])
        parts = [high - low for low, high in zip([0, *cuts], [*cuts, self.scale])]
        if self.random.random() < 0.08:
            parts[-1] += self.random.choice([-1, 1, self.scale])
        return b":".join(b"%d" % part for part in parts)


class Made:
    """A made input: the lines of a schema, and those of a script over it."""

    def __init__(self, random):
        self.random = random
        dimensions = random.choices(list(MOST_NODES), [20, 30, 20, 10, 1, 1])[0]
        self.trees = [Tree(random, MOST_NODES[dimensions]) for _ in range(dimensions)]
        names = random.sample(NAMES, random.choices([0, 1, 2, 3, 7, 8], [20, 20, 10, 10, 1, 1])[0])
        self.measures = [MadeMeasure(random, name) for name in names]
        self.ids = IDS[-random.choice([3, 6, 9]) :]
        self.views = random.sample(NAMES, random.choices([0, 1, 2, 4, 5], [20, 20, 10, 5, 1])[0])
        self.names = random.sample(NAMES, len(self.trees))
        self.schema = self.schema_lines()
        self.script = [line for _ in range(random.choice([0, 10, 20, 40])) for line in self.script_lines()]

    def schema_lines(self):
        has_numbers = self.random.random() < 0.3
        lines = [b"cube\t2" if has_numbers else b"cube\t1", b"policy\t" + self.policy()]
        lines += [measure.line() for measure in self.measures]
        for name, tree in zip(self.names, self.trees):
            lines += [b"dimension\t" + name, *tree.lines(self.random if has_numbers else None)]
        return [*lines, *map(self.view_line, self.views), b"end"]

    def view_line(self, name):
        """Cuts at any depths, mostly within the trees, since a view at the leaves of many dimensions is long."""
        depths = [self.random.choice([0, 0, 1, 1, 1, 2, 3, 8]) for _ in self.trees]
        return b"\t".join([b"view", name, *(b"%d" % depth for depth in depths)])

    def policy(self):
        """By a measure's sum where there is one that is not a distribution, and now and then by any name."""
        numbers = [measure.name for measure in self.measures if not measure.outcomes]
        if numbers and self.random.random() < 0.4:
            self.measures[[m.name for m in self.measures].index(numbers[0])].is_weight = True
            return b"weight\t" + numbers[0]
        return self.random.choice([b"uniform", b"count", b"weight\t" + self.random.choice(NAMES)] + [b"count"] * 20)

    def script_lines(self):
        """A line. Some that ask for rounds come for each number of them."""
        line = self.script_line()
        fields = line.split(b"\t")
        if fields[0] != b"iterate" or self.random.random() < 0.8:
            return [line]
        return [b"\t".join([fields[0], b"%d" % rounds, *fields[2:]]) for rounds in range(1, 33)]

    def script_line(self):
        """A line, one of some eight of which has a wrong field, or a field too many or too few."""
        fields = self.fields()
        if self.random.random() < 0.12:
            spoil(self.random, fields)
        return b"\t".join(fields)

    def often(self, word):
        """How often a word comes: seldom where no measure is of its kind, or no view is there."""
        kinds = {b"sum": False, b"avg": False, b"pool": True, b"range": False, b"least": False, b"greatest": False}
        kind = word.removesuffix(b"s")
        has_one = kind not in kinds or any(bool(m.outcomes) == kinds[kind] for m in self.measures)
        has_one = has_one and (word != b"view" or self.views != [])
        return WORDS[word] if has_one else 0.3

    def measure_name(self, is_distribution):
        """The name of a measure, mostly of one that is a distribution or is not, as it should be, where there is one."""
        right = [m.name for m in self.measures if bool(m.outcomes) == is_distribution]
        names = right if right and self.random.random() < 0.9 else [m.name for m in self.measures] + NAMES
        return self.random.choice(names)

    def depths(self):
        """A depth to cut each dimension at, mostly a right one."""
        depths = [b"%d" % self.random.choice([0, 1, 1, 2, 2, 3, 8]) for _ in self.trees]
        if self.random.random() < 0.05:
            depths[self.random.randrange(len(depths))] = self.random.choice(WRONG_DEPTHS)
        return depths

    def growth(self):
        """A dimension, a node of it, and a name, mostly a new one, which lines behind may ask for."""
        place = self.random.randrange(len(self.trees))
        tree = self.trees[place]
        parent = tree.node(self.random)
        name = self.random.choice(NAMES + [b"n%d" % k for k in range(6)])
        tree.names.append(name)
        return [self.names[place], parent, name]

    def fields(self):
        random = self.random
        word = random.choices(list(WORDS), [self.often(word) for word in WORDS])[0]
        id = [random.choice(self.ids)]
        nodes = [tree.node(random) for tree in self.trees]
        values = [measure.value() for measure in self.measures]
        if word in (b"count", b"terms", b"worlds", b"rangecount"):
            return [word, *nodes]
        if word == b"grow":
            return [word, *self.growth()]
        if word == b"view":
            return [word, random.choice(self.views if self.views and random.random() < 0.9 else NAMES)]
        if word == b"iterate":
            return [word, random.choice(ROUNDS if random.random() < 0.95 else WRONG_ROUNDS), *nodes]
        if word in (b"sum", b"avg", b"pool", b"range", b"least", b"greatest"):
            return [word, self.measure_name(word == b"pool"), *nodes]
        if word == b"counts":
            return [word, *self.depths(), *nodes]
        if word in (b"sums", b"avgs", b"pools"):
            return [word, self.measure_name(word == b"pools"), *self.depths(), *nodes]
        return [word, *id, *nodes, *values] if word in (b"insert", b"change") else [word, *id]


def spoil(random, fields):
    """Makes a field wrong, takes one out, or puts one in."""
    place = random.randrange(len(fields))
    kind = random.randrange(6)
    if kind == 0 and len(fields) > 1:
        del fields[place]
    elif kind == 1:
        fields.insert(place, random.choice(NAMES + VALUES))
    elif kind == 2:
        fields[-1] = random.choice(WRONG_VALUES)
    elif kind == 3 and len(fields) > 1:
        fields[1] = random.choice(WRONG_IDS + WRONG_DEPTHS)
    else:
        fields[place] = random.choice(WRONG_NAMES + WRONG_VALUES + WRONG_IDS)


# Changes of a list of lines, and of bytes.


def wrong_line(random, lines):
    lines.insert(random.randint(0, len(lines)), random.choice(WRONG_LINES))


def spoiled_line(random, lines):
    place = random.randrange(len(lines))
    fields = lines[place].split(b"\t")
    for _ in range(random.choice([1, 2])):
        spoil(random, fields)
    lines[place] = b"\t".join(fields)


def dropped_line(random, lines):
    del lines[random.randrange(len(lines))]


def doubled_line(random, lines):
    lines.insert(random.randint(0, len(lines)), random.choice(lines))


def exchanged_lines(random, lines):
    a, b = random.randrange(len(lines)), random.randrange(len(lines))
    lines[a], lines[b] = lines[b], lines[a]


def long_line(random, lines):
    """A line of about as many bytes as a line may have, in one field or in many."""
    place = random.randrange(len(lines))
    missing = plain_model.MAX_LINE + random.randint(-2, 2) - len(lines[place])
    lines[place] += random.choice([b"x", b"\t", b"0", b"\xff"]) * max(missing, 0)


def hostile_bytes(random, lines):
    place = random.randrange(len(lines))
    at = random.randint(0, len(lines[place]))
    lines[place] = lines[place][:at] + random.choice(HOSTILE) + lines[place][at + random.randint(0, 1) :]


def altered_byte(random, lines):
    place = random.randrange(len(lines))
    if lines[place]:
        at = random.randrange(len(lines[place]))
        lines[place] = lines[place][:at] + bytes([random.randrange(256)]) + lines[place][at + 1 :]


def cut_line(random, lines):
    place = random.randrange(len(lines))
    lines[place] = lines[place][: random.randint(0, len(lines[place]))]


CHANGES = [
    *(wrong_line, spoiled_line, dropped_line, doubled_line, exchanged_lines),
    *(long_line, hostile_bytes, altered_byte, cut_line),
]


def changed(random, lines):
    """The lines with one to three changes."""
    lines = list(lines)
    for _ in range(random.choice([1, 1, 2, 3])):
        if lines:
            random.choice(CHANGES)(random, lines)
    return lines


def with_skipped(random, lines):
    return [line for old in lines for line in [*random.choices(SKIPPED, k=int(random.random() < 0.2)), old]]


def joined(random, lines):
    """The text of the lines, whose ends are LF, CR LF, or either. The last may have none, and bytes may stand in front."""
    ends = random.choice([[b"\n"], [b"\n"], [b"\r\n"], [b"\n", b"\r\n"]])
    text = b"".join(line + random.choice(ends) for line in lines)
    text = random.choice(HOSTILE) + text if random.random() < 0.02 else text
    return text.removesuffix(random.choice([b"", b"", b"\n", b"\r\n"]))


def made_text(random):
    """A text, one of some five of which has a changed schema, and one of some three a changed script."""
    made = Made(random)
    schema = changed(random, made.schema) if random.random() < 0.2 else made.schema
    script = changed(random, made.script) if random.random() < 0.35 else made.script
    lines = schema + script
    if random.random() < 0.3:
        lines = with_skipped(random, lines)
    text = joined(random, lines)
    return text[: random.randint(0, len(text))] if random.random() < 0.03 else text


def made_case(seed, number):
    """The words and the input of a case."""
    random = Random(f"{seed} {number}")
    words = random.choice(WRONG_WORDS) if random.randrange(USAGE_EACH) == 0 else ["try"]
    return words, made_text(random)


# The comparison.


def program_ends(program, words, text):
    """What the program writes, its status, and what it says on standard error."""
    try:
        done = subprocess.run([program, *words], input=text, capture_output=True, timeout=SECONDS)
    except subprocess.TimeoutExpired:
        return b"", f"none within {SECONDS} seconds", b""
    return done.stdout, done.returncode, done.stderr


def first_other_line(found, wanted):
    """The place, from 1, of the first line in which two texts differ, with both lines."""
    found, wanted = found.split(b"\n"), wanted.split(b"\n")
    length = min(len(found), len(wanted))
    place = next((k for k in range(length) if found[k] != wanted[k]), length)
    return place + 1, found[place : place + 1], wanted[place : place + 1]


def tell(name, words, text, found, wanted):
    """Says how the ends of a case differ, and writes its input to a file."""
    path = Path(tempfile.gettempdir()) / f"differential-{re.sub(r'[^a-z0-9]+', '-', name.lower())}.input"
    path.write_bytes(text)
    print(f"difference at {name}, words {words}, input in {path}")
    for what, here, there in zip(("standard output", "status", "standard error"), found, wanted):
        if isinstance(here, bytes) and here != there:
            line, here, there = first_other_line(here, there)
            what = f"{what}, line {line}"
        if here != there:
            print(f"  {what}: the program has {here!r}, the model {there!r}")


def codes_of(ends):
    """The status, and each code of refusal that was answered."""
    written, status, said = ends
    refusals = re.findall(rb"^error\t(\w+)$", written, re.MULTILINE)
    faults = re.findall(rb"^cube: schema line \d+: (\w+)$", said)
    return [f"status {status}", *(c.decode() for c in refusals), *(f"schema {c.decode()}" for c in faults)]


def is_alike(program, name, words, text, wanted):
    found = program_ends(program, words, text)
    if found != wanted:
        tell(name, words, text, found, wanted)
    return found == wanted


def compare_examples(program):
    examples = plain_model_rows.examples() + plain_model_rows.slow_examples() + plain_model_rows.large_examples()
    return all(is_alike(program, f"example {e.name}", ["try"], e.text, e.ends) for e in examples)


def compare_drills(program):
    for number in DRILLS:
        line, refused = plain_drill.drill(number)
        ends = (line, 1 if refused else 0, b"")
        if not is_alike(program, f"drill {number}", ["drill", str(number)], b"", ends):
            return False
    print(f"{len(DRILLS)} drills are alike")
    return True


def compare_cases(program, cases, seed):
    seen = Counter()
    for number in range(1, cases + 1):
        words, text = made_case(seed, number)
        wanted = plain_model.run(words, text)
        if not is_alike(program, f"seed {seed} case {number}", words, text, wanted):
            return False
        seen.update(codes_of(wanted))
    print(f"{cases} cases of seed {seed} are alike")
    print(", ".join(f"{what} {count}" for what, count in sorted(seen.items())))
    return True


def main():
    want_words(3, __doc__)
    program, cases, seed = sys.argv[1], int(sys.argv[2]), int(sys.argv[3])
    done = compare_examples(program) and compare_drills(program) and compare_cases(program, cases, seed)
    return 0 if done else 1


if __name__ == "__main__":
    sys.exit(main())
