#!/usr/bin/env python3
"""Feeds from one store to another, through the built program and through the plain model: feeds.py PROGRAM CASES SEED

A random script is done over a store in two parts, by `run` and by `lead`. The feed that `lead` writes is followed whole: over nothing, over
what the leader began with, and over that with a text of its own. It is followed cut at lines of every kind and within them, and damaged at
random; and over other stores: of another schema, with a fact more or fewer, or with rows that are wrong. Compared with the model are the
output, the status, standard error, and what SQLite reads of both stores. The status is 1 at the first difference.

Besides, whatever the model says: what has followed a whole feed holds what the leader holds, byte for byte; what has followed a part of one
goes on with the rest, once its own base stands before it; and over a pipe the two programs end as apart.

Where PROGRAM is `-`, the plain model stands in its place too.
"""
import subprocess
import sys
import tempfile
from collections import Counter
from pathlib import Path
from random import Random

sys.dont_write_bytecode = True

import differential
import plain_feed
import plain_model
import plain_program
import plain_store
import stores
from calls import want_words
from plain_feed import Store, text_of
from stores import Wrong, must

MODEL = "-"
LENGTHS = [0, 10, 20, 40]  # of a script that is led
CUTS, DAMAGES = 6, 10  # of each feed
WRONG_NUMBERS = [b"0", b"01", b"", b"x", b"-1", b"18446744073709551615", b"18446744073709551616"]
WORDS = [b"feed", b"fact", b"based", b"batch", b"rows", b"row", b"done", b"end"]


def call(program, words, text=b""):
    return plain_program.run(words, text) if program == MODEL else stores.call(program, words, text)


# Leaders.


def script_lines(random, made, count):
    """Lines of a script, most of which are edits and growths, and some of which are wrong."""
    for _ in range(count):
        fields = made.fields()
        while fields[0] not in plain_feed.EDITS and random.random() < 0.8:
            fields = made.fields()
        if random.random() < 0.12:
            differential.spoil(random, fields)
        yield b"\t".join(fields)


def made_script(random, made, lengths):
    lines = list(script_lines(random, made, random.choice(lengths)))
    if random.random() < 0.2:
        lines = differential.changed(random, lines)
    return differential.joined(random, differential.with_skipped(random, lines))


def made_leader(random):
    """What makes the lines of a schema that is accepted, and a script that comes before, which may be none."""
    while True:
        made = differential.Made(random)
        try:
            plain_model.read_schema(made.schema)
        except plain_model.SchemaFault:
            continue
        return made, made_script(random, made, [0, 3, 10])


def led(program, path, made, before, script):
    """What a store holds at the start of a feed, the lines of the feed, and what it holds then."""
    schema, _ = plain_model.read_schema(made.schema)
    must(call(program, ["lead", path], script), (b"", 4, b"cube: no cube\n"), "lead without a store")
    must(call(program, ["init", path], text_of(made.schema)), (b"ok\t0\n", 0, b""), "init")
    replies, refusals, schema, facts = plain_model.do_lines(schema, [], plain_model.lines_of(before))
    must(call(program, ["run", path], before), (replies, int(refusals > 0), b""), "run")
    start = Store(plain_model.schema_text(schema), schema, facts)
    feed, refusals, schema, facts = plain_feed.lead(schema, facts, plain_model.lines_of(script))
    must(call(program, ["lead", path], script), (text_of(feed), int(refusals > 0), b""), "lead")
    after = Store(plain_model.schema_text(schema), schema, facts)
    must_keep(path, after, "lead")
    return start, feed, after


# What a store holds, by another reader.


def must_keep(path, store, when):
    """Where nothing is kept there is no file."""
    if store is None:
        must(Path(path).exists(), False, f"a file after {when}")
    else:
        must(stores.tables(path), tuple(plain_store.content_of(store.schema, store.facts, store.text)), f"tables after {when}")


def make(path, store):
    """Puts a store there by SQLite, or nothing."""
    for left in (path, f"{path}-wal", f"{path}-shm"):
        Path(left).unlink(missing_ok=True)
    if store is not None:
        plain_store.write_content(path, plain_store.content_of(store.schema, store.facts, store.text))


# Changes of a feed, as a list of lines.


def places(feed, *words):
    return [place for place, line in enumerate(feed) if line.split(b"\t")[0] in words]


def batches_of(feed):
    """The lines before the first batch, and those of each batch, as far as they look like it."""
    starts = places(feed, b"batch")
    return feed[: starts[0]] if starts else feed, [feed[a:b] for a, b in zip(starts, [*starts[1:], len(feed)])]


def changed_field(random, feed, words, field, values):
    there = [place for place in places(feed, *words) if feed[place].count(b"\t") >= field]
    if there:
        place = random.choice(there)
        fields = feed[place].split(b"\t")
        fields[field] = random.choice(values(fields[field]))
        feed[place] = b"\t".join(fields)


def next_to(number):
    return [b"%d" % (int(number) + step) for step in (-1, 1)] if number.isdigit() else [b"1"]


def other_number(random, feed):
    changed_field(random, feed, [b"batch"], 1, lambda number: [*WRONG_NUMBERS, *next_to(number), *next_to(number)])


def other_count(random, feed):
    changed_field(random, feed, [b"rows"], random.choice([1, 2, 3]), next_to)


def other_row(random, feed):
    changed_field(random, feed, [b"row"], random.choice([1, 2, 2]), lambda text: next_to(text) if text.isdigit() else differential.NAMES)


def other_fact(random, feed):
    changed_field(random, feed, [b"fact"], random.choice([1, 1, 2, 3]), lambda text: next_to(text) if text.isdigit() else differential.NAMES)


def other_word(random, feed):
    changed_field(random, feed, WORDS, 0, lambda word: WORDS)


def spoiled_edit(random, feed):
    there = places(feed, b"batch")
    if there:
        place = random.choice(there)
        fields = feed[place].split(b"\t")
        said = fields[2:] or [b""]
        differential.spoil(random, said)
        feed[place] = b"\t".join(fields[:2] + said)


def other_line(random, feed):
    """Another line of a script is what a batch does, a question say. Its number may be wrong too."""
    there = places(feed, b"batch")
    if there:
        said = random.choice([b"terms\tAll", b"rows\t1", b"withdraw\t1", b"#", *differential.WRONG_LINES])
        feed[random.choice(there)] = b"batch\t%d\t%b" % (random.choice([1, 1, 1, 2]), said)


def longer_line(random, feed):
    there = places(feed, random.choice(WORDS))
    if there:
        feed[random.choice(there)] += random.choice([b"\t", b"\tx"])


def moved_batches(random, feed):
    """A batch is gone, comes twice, or comes before another."""
    head, batches = batches_of(feed)
    if batches:
        place, other = random.randrange(len(batches)), random.randrange(len(batches))
        kind = random.choice(["gone", "twice", "exchanged"])
        if kind == "gone":
            del batches[place]
        elif kind == "twice":
            batches.insert(other, batches[place])
        else:
            batches[place], batches[other] = batches[other], batches[place]
        feed[:] = [*head, *(line for batch in batches for line in batch)]


def moved_lines(random, feed):
    """A line of the facts or rows is gone, comes twice, or changes its place with another."""
    there = places(feed, b"fact", b"rows", b"row", b"done", b"based")
    if there:
        place, other = random.choice(there), random.choice(there)
        kind = random.choice(["gone", "twice", "exchanged"])
        if kind == "gone":
            del feed[place]
        elif kind == "twice":
            feed.insert(place, feed[place])
        else:
            feed[place], feed[other] = feed[other], feed[place]


def skipped_line(random, feed):
    feed.insert(random.randint(0, len(feed)), random.choice(differential.SKIPPED))


def final_cr(random, feed):
    feed[random.randrange(len(feed))] += b"\r"


def any_change(random, feed):
    feed[:] = differential.changed(random, feed) or [b""]


CHANGES = [
    *(other_number, other_count, other_row, other_row, other_fact, other_word, spoiled_edit, spoiled_edit, other_line),
    *(longer_line, moved_batches, moved_lines, skipped_line, final_cr, any_change),
]


def damaged(random, feed):
    feed = list(feed)
    for _ in range(random.choice([1, 1, 1, 2])):
        random.choice(CHANGES)(random, feed)
    text = text_of(feed)
    return text.removesuffix(b"\n") if random.random() < 0.1 else text


def cuts(random, feed):
    """The feed cut before lines of different kinds, and within them. A batch of some length is cut in its rows most often."""
    by_word = {}
    for place, line in enumerate(feed):
        by_word.setdefault(line.split(b"\t")[0], []).append(place)
    for word in random.sample(sorted(by_word), min(CUTS, len(by_word))):
        place = random.choice(by_word[word])
        at = random.choice([0, 0, random.randint(0, len(feed[place])), len(feed[place])])
        yield text_of(feed[:place]) + feed[place][:at]


# Followers.


class Follower:
    """A second store at a path, and what it is to hold."""

    def __init__(self, program, path, seen):
        self.program, self.path, self.seen = program, path, seen
        self.store = None

    def is_now(self, store):
        make(self.path, store)
        self.store = store
        return self

    def follows(self, text, what):
        """The store follows a feed as the model does. Returns how many batches are applied, and the status."""
        *wanted, after = plain_feed.follow(self.store, plain_model.lines_of(text))
        must(call(self.program, ["follow", self.path], text), tuple(wanted), what)
        must_keep(self.path, after, what)
        self.store = after
        written, status, said = wanted
        self.seen[said_of(status, said)] += 1
        return written.count(b"\n"), status

    def goes_on(self, feed, applied, after, what):
        """Behind its own base the rest of a feed leads to what the leader holds."""
        base = call(self.program, ["lead", self.path])
        must(base, (text_of(plain_feed.base_lines(self.store.schema, self.store.facts)), 0, b""), f"base {what}")
        rest = rest_of(feed, applied)
        count = len(batches_of(feed)[1]) - applied
        must(self.follows(base[0] + text_of(rest), f"rest {what}"), (count, 0), f"end of the rest {what}")
        must(stores.tables(self.path), tuple(plain_store.content_of(after.schema, after.facts)), f"tables behind the rest {what}")


def said_of(status, said):
    """The status, with the code of a line of the feed."""
    text = said.decode().strip()
    return f"status {status}" + (f" {text.rsplit(' ', 1)[1]}" if status == plain_feed.BAD_FEED else "")


def rest_of(feed, applied):
    """The lines of the batches behind the first ones, with numbers from 1."""
    _, batches = batches_of(feed)
    rest = []
    for number, (first, *behind) in enumerate(batches[applied:], 1):
        fields = first.split(b"\t")
        rest += [b"\t".join([b"batch", b"%d" % number, *fields[2:]]), *behind]
    return rest


# Second stores.


def own_text(store):
    """The same store with a text that is not as it would be written."""
    return store._replace(text=b"# by hand\n" + store.text.replace(b"\n", b"\r\n"))


def edited(random, made, store, words):
    """The store after one more line that is accepted, if one is soon found."""
    for _ in range(30):
        fields = made.fields()
        if fields[0] in words:
            try:
                _, schema, facts = plain_model.do_line(store.schema, store.facts, b"\t".join(fields))
            except plain_model.Refused:
                continue
            return Store(plain_model.schema_text(schema), schema, facts)
    return None


def other_stores(random, made, start):
    """Stores that are not what the leader began with, or seldom."""
    yield edited(random, made, start, [b"insert", b"change", b"withdraw"])
    yield edited(random, made, start, [b"grow"])
    if start.facts:
        yield start._replace(facts=start.facts[:-1])
    other, _ = made_leader(random)
    schema, _ = plain_model.read_schema(other.schema)
    yield Store(plain_model.schema_text(schema), schema, [])


def wrong_rows(random, rows):
    """Rows of which one entry is gone or another, or with one too many where there is none."""
    if not rows:
        return [(1, 1, [(0, 1)])]
    place = random.randrange(len(rows))
    id, denominator, body = rows[place]
    others = random.choice([[], [(id, denominator + 1, body)], [(id, denominator, body[1:])]])
    return rows[:place] + others + rows[place + 1 :]


def compare_unsound(program, path, random, start, feed):
    """A store with wrong rows is followed and led by nothing, and stays as it is."""
    content = plain_store.content_of(start.schema, start.facts)
    content = content._replace(rows=wrong_rows(random, content.rows))
    try:
        plain_store.read_store(content)
    except plain_store.Unsound as unsound:
        wanted = (b"", 5, f"cube: bad store: {unsound}\n".encode())
    make(path, None)
    plain_store.write_content(path, content)
    for word in ("follow", "lead"):
        must(call(program, [word, path], text_of(feed)), wanted, f"{word} of wrong rows")
        must(stores.tables(path), tuple(content), f"tables after {word} of wrong rows")


# Cases.


def compare_whole(follower, start, feed, after):
    """A whole feed over nothing and over what the leader began with."""
    count = len(batches_of(feed)[1])
    for what, store in (("nothing", None), ("the start", start), ("a text of its own", own_text(start))):
        must(follower.is_now(store).follows(text_of(feed), f"feed over {what}"), (count, 0), f"end over {what}")
        must(stores.tables(follower.path)[1:], tuple(plain_store.content_of(after.schema, after.facts))[1:], f"what the leader holds, over {what}")
    follower.is_now(None).follows(text_of(feed), "feed")
    follower.follows(text_of(feed), "the feed again")


def compare_cuts(random, follower, start, feed, after):
    for number, text in enumerate(cuts(random, feed)):
        applied, _ = follower.is_now(random.choice([None, start])).follows(text, f"cut {number}")
        if follower.store is not None:
            follower.goes_on(feed, applied, after, f"of cut {number}")


def compare_pipe(program, leader, second, start, script, feed, after):
    """The feed goes from one program to the other by a pipe."""
    make(leader, start)
    make(second, None)
    first = subprocess.Popen([program, "lead", leader], stdin=subprocess.PIPE, stdout=subprocess.PIPE, stderr=subprocess.PIPE)
    last = subprocess.Popen([program, "follow", second], stdin=first.stdout, stdout=subprocess.PIPE, stderr=subprocess.PIPE)
    first.stdout.close()
    first.stdin.write(script)
    first.stdin.close()
    said, (written, said_last) = first.stderr.read(), last.communicate(timeout=stores.SECONDS)
    count = len(batches_of(feed)[1])
    applied = b"".join(b"applied\t%d\n" % number for number in range(1, count + 1))
    must((first.wait() in (0, 1), said, written, said_last, last.returncode), (True, b"", applied, b"", 0), "pipe")
    for path in (leader, second):
        must_keep(path, after, "a pipe")


def compare_case(program, folder, seed, number, seen):
    random = Random(f"feeds {seed} {number}")
    leader, second = str(Path(folder) / "leader.cube"), str(Path(folder) / "second.cube")
    make(leader, None)
    made, before = made_leader(random)
    script = made_script(random, made, LENGTHS)
    start, feed, after = led(program, leader, made, before, script)
    seen["batches"] += len(batches_of(feed)[1])
    seen["growths"] += sum(b"\tgrow\t" in line for line in feed if line.startswith(b"batch"))
    follower = Follower(program, second, seen)
    compare_whole(follower, start, feed, after)
    compare_cuts(random, follower, start, feed, after)
    for place in range(DAMAGES):
        follower.is_now(random.choice([None, start, own_text(start)])).follows(damaged(random, feed), f"damage {place}")
    for place, store in enumerate(other_stores(random, made, start)):
        if store is not None:
            follower.is_now(store).follows(text_of(feed), f"other store {place}")
    compare_unsound(program, second, random, start, feed)
    if program != MODEL and number % 10 == 0:
        compare_pipe(program, leader, second, start, script, feed, after)


def main():
    want_words(3, __doc__)
    program, cases, seed = sys.argv[1], int(sys.argv[2]), int(sys.argv[3])
    seen = Counter()
    with tempfile.TemporaryDirectory() as folder:
        for number in range(cases):
            try:
                compare_case(program, folder, seed, number, seen)
            except Wrong as wrong:
                print(f"case {number}: {wrong}")
                return 1
    print(f"{cases} leaders of seed {seed}, with all who follow them, are alike")
    print(", ".join(f"{what} {count}" for what, count in sorted(seen.items())))
    return 0


if __name__ == "__main__":
    sys.exit(main())
