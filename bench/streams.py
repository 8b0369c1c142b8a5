#!/usr/bin/env python3
"""Runs the built program over inputs that come in pieces: streams.py PROGRAM CASES SEED

First comes a session: a line is written only when the reply to the one before has come, 1,000 times. Then a script of 2^30
bytes of comments, and one of a byte more, in bounded memory; and a million lines that are refused. Then so many random
inputs, each written in random pieces, which must be answered as the plain model answers the whole. At the first
difference the status is 1.

Feeds too: an edit that a leader does goes to a follower, which answers it, before the next is written, 200 times; and feeds of random
leaders, whole and damaged, are followed in random pieces.
"""
import subprocess
import sys
import tempfile
import threading
from pathlib import Path
from random import Random

sys.dont_write_bytecode = True

import differential
import feeds
import plain_feed
import plain_model
from calls import want_words

SCHEMA = b"cube\t1\npolicy\tuniform\ndimension\tPlace\nnode\t0\tTX\nnode\t1\tAustin\nnode\t1\tDallas\nend\n"
TURNS = 1000
FEED_TURNS = 200
LIMIT = 2**30
MEGABYTES = 5  # that a run may have, however long its input is


def session(program):
    """Each line is answered before the next is written."""
    child = subprocess.Popen([program, "try"], stdin=subprocess.PIPE, stdout=subprocess.PIPE, bufsize=0)
    child.stdin.write(SCHEMA)
    answers = child.stdout
    for turn in range(1, TURNS + 1):
        place = b"TX" if turn % 3 == 0 else b"Austin"
        child.stdin.write(b"insert\t%d\t%s\n" % (turn, place))
        if read_line(answers) != b"ok\t1\n":
            return False
    child.stdin.write(b"count\tTX")  # it has no LF
    child.stdin.close()
    last = read_line(answers)
    return last == b"count\t1000.000000000\t1000.000000000\t1000\n" and child.wait() == 0


def read_line(answers):
    line = b""
    while not line.endswith(b"\n"):
        byte = answers.read(1)
        if not byte:
            break
        line += byte
    return line


def passed_on(source, sink, last):
    """Gives lines on, up to and with this one, and tells whether it came."""
    while line := read_line(source):
        sink.write(line)
        if line == last:
            return True
    return False


def feed_session(program):
    """Each edit is led, followed and answered before the next is written."""
    with tempfile.TemporaryDirectory() as folder:
        leader, second = f"{folder}/leader.cube", f"{folder}/second.cube"
        subprocess.run([program, "init", leader], input=SCHEMA, stdout=subprocess.DEVNULL, check=True)
        pipes = {"stdin": subprocess.PIPE, "stdout": subprocess.PIPE, "bufsize": 0}
        children = [subprocess.Popen([program, word, path], **pipes) for word, path in (("lead", leader), ("follow", second))]
        first, last = children
        good = passed_on(first.stdout, last.stdin, b"based\n")
        for turn in range(1, FEED_TURNS + 1):
            first.stdin.write(b"insert\t%d\t%s\n" % (turn, b"TX" if turn % 3 == 0 else b"Austin"))
            good = good and passed_on(first.stdout, last.stdin, b"done\n") and read_line(last.stdout) == b"applied\t%d\n" % turn
        for child in children:
            child.stdin.close()
        ends = [child.wait() for child in children]
        files = [subprocess.run([program, "rows", path], capture_output=True).stdout for path in (leader, second)]
    return good and ends == [0, 0] and files[0] == files[1]


def measured(program, pieces, words=("try",)):
    """What a run over these pieces writes, its status, and its peak in megabytes, as far as it was seen while it read."""
    child = subprocess.Popen([program, *words], stdin=subprocess.PIPE, stdout=subprocess.PIPE, stderr=subprocess.PIPE)
    peaks = [0.0]
    writer = threading.Thread(target=write_all, args=(child, pieces, peaks))
    writer.start()
    written = child.stdout.read()
    said = child.stderr.read()
    writer.join()
    return (written, child.wait(), said), max(peaks)


def write_all(child, pieces, peaks):
    """Writes pieces, each by itself; the reader may go before the end."""
    try:
        for place, piece in enumerate(pieces):
            child.stdin.write(piece)
            child.stdin.flush()
            if place % 100 == 0:
                peaks.append(peak_of(child.pid))
        peaks.append(peak_of(child.pid))
        child.stdin.close()
    except BrokenPipeError:
        pass


def peak_of(pid):
    """The most memory that a process has had, in megabytes; what its parent had before it began is not counted."""
    try:
        with open(f"/proc/{pid}/status", encoding="ascii") as status:
            found = [line.split()[1] for line in status if line.startswith("VmHWM:")]
    except OSError:
        return 0.0
    return int(found[0]) / 1024 if found else 0.0


def comments(count):
    """A schema, and comments up to so many bytes in all."""
    yield SCHEMA
    left = count - len(SCHEMA)
    line = b"#" + b"x" * 62 + b"\n"
    block = line * 1024
    while left > len(block):
        yield block
        left -= len(block)
    yield b"#" + b"x" * (left - 1)


def long_inputs(program):
    ends, size = measured(program, comments(LIMIT))
    print(f"2^30 bytes of comments: status {ends[1]}, {size:.1f} MB")
    good = ends == (b"", 0, b"") and size < MEGABYTES
    ends, size = measured(program, comments(LIMIT + 1))
    print(f"a byte more: status {ends[1]}, {ends[2].decode().strip()}, {size:.1f} MB")
    return good and ends[1] == 10 and size < MEGABYTES


def refused_lines(program):
    lines = (b"insert\t%d\tnowhere\n" % k for k in range(1, 1_000_001))
    ends, size = measured(program, [SCHEMA, *batches(lines, 1000)])
    print(f"a million refused lines: status {ends[1]}, {size:.1f} MB")
    return ends == (b"error\tnode\n" * 1_000_000, 1, b"") and size < MEGABYTES


def batches(lines, count):
    batch = []
    for line in lines:
        batch.append(line)
        if len(batch) == count:
            yield b"".join(batch)
            batch = []
    yield b"".join(batch)


def cut(random, text):
    """A text in random pieces, short and long."""
    most = random.choice([1, 2, 7, 64, 5000])
    place = 0
    while place < len(text):
        size = random.randint(1, most)
        yield text[place : place + size]
        place += size


def compare_cuttings(program, cases, seed):
    for number in range(1, cases + 1):
        words, text = differential.made_case(seed, number)
        if words != ["try"]:
            continue
        wanted = plain_model.run(words, text)
        found, _ = measured(program, cut(Random(f"cut {seed} {number}"), text))
        if found != wanted:
            differential.tell(f"cut of seed {seed} case {number}", words, text, found, wanted)
            return False
    print(f"{cases} cases of seed {seed} in random pieces are alike")
    return True


def compare_feed_cuttings(program, cases, seed):
    for number in range(1, cases + 1):
        random = Random(f"feed {seed} {number}")
        made, before = feeds.made_leader(random)
        schema, _ = plain_model.read_schema(made.schema)
        *_, schema, facts = plain_model.do_lines(schema, [], plain_model.lines_of(before))
        feed, *_ = plain_feed.lead(schema, facts, plain_model.lines_of(feeds.made_script(random, made, feeds.LENGTHS)))
        text = feeds.damaged(random, feed) if random.random() < 0.5 else plain_feed.text_of(feed)
        *wanted, _ = plain_feed.follow(None, plain_model.lines_of(text))
        with tempfile.TemporaryDirectory() as folder:
            words = ["follow", str(Path(folder) / "s.cube")]
            found, _ = measured(program, cut(random, text), words)
        if found != tuple(wanted):
            differential.tell(f"feed of seed {seed} case {number}", words, text, found, wanted)
            return False
    print(f"{cases} feeds of seed {seed} in random pieces are alike")
    return True


def main():
    want_words(3, __doc__)
    program, cases, seed = sys.argv[1], int(sys.argv[2]), int(sys.argv[3])
    if not session(program):
        print("a line was not answered before the next")
        return 1
    print(f"{TURNS} lines are answered one by one")
    if not feed_session(program):
        print("an edit was not led, followed and answered before the next")
        return 1
    print(f"{FEED_TURNS} edits are led and followed one by one")
    done = long_inputs(program) and refused_lines(program)
    done = done and compare_cuttings(program, cases, seed) and compare_feed_cuttings(program, cases, seed)
    return 0 if done else 1


if __name__ == "__main__":
    sys.exit(main())
