#!/usr/bin/env python3
"""Kills runs over a store at random moments, and looks at what they leave: killed.py PROGRAM RUNS SEED [follow]

Each run does a long script of edits and growths over a fresh store and is killed without warning. Then `check` must say that the store is
sound, and its facts and nodes must be those of a prefix of the script that holds all lines which were answered.

With `follow` it is a follower that is killed, over nothing, while it takes the feed of such a script. It may have taken one batch more than
it answered. Over what it left the feed is refused, since the base is another one; behind the base of the store as it is, the rest of the
feed leads to what the leader holds.
"""
import shutil
import signal
import subprocess
import sys
import tempfile
import time
from pathlib import Path
from random import Random

sys.dont_write_bytecode = True

import feeds
import plain_model
import stores
from calls import want_words

LINES = 4000
FOLLOWED = 1000  # lines behind which a follower's feed ends: it is followed anew after each kill
NODES = 40


def schema():
    leaves = "".join(f"node\t2\tcity{k}\n" for k in range(NODES))
    return f"cube\t1\npolicy\tcount\nnumber\tCost\ndimension\tPlace\nnode\t0\tAll\nnode\t1\tTX\n{leaves}end\n".encode()


def grown(random, names):
    """A line by which a leaf is put under Texas or under one of its cities, and the names with it, by number."""
    parent, name = names[random.randrange(1, NODES + 2)], f"part{len(names)}"
    return f"grow\tPlace\t{parent}\t{name}\n", [*names, name]


def script(random, count):
    """Lines, none of which is refused, with what is kept after each: the facts' nodes and values by id, and how many nodes there are."""
    names = ["All", "TX", *(f"city{k}" for k in range(NODES))]
    facts, lines, states = {}, [], [({}, len(names))]
    for k in range(count):
        kind = random.random()
        if kind < 0.01:
            line, names = grown(random, names)
            lines.append(line)
        elif facts and kind < 0.3:
            gone = random.choice(sorted(facts))
            del facts[gone]
            lines.append(f"withdraw\t{gone}\n")
        else:
            place = random.choice([1, *(random.randrange(2, len(names)) for _ in range(9))])
            facts[k + 1] = (place, random.randrange(1000))
            lines.append(f"insert\t{k + 1}\t{names[place]}\t{facts[k + 1][1]}\n")
        states.append((dict(facts), len(names)))
    return "".join(lines).encode(), states


def killed(program, words, folder, text, seconds):
    """How many lines a run wrote over a text before it was killed."""
    (Path(folder) / "input").write_bytes(text)
    out = Path(folder) / "output"
    with open(Path(folder) / "input", "rb") as source, open(out, "wb") as sink:
        run = subprocess.Popen([program, *words], stdin=source, stdout=sink, stderr=subprocess.DEVNULL)
        time.sleep(seconds)
        run.send_signal(signal.SIGKILL)
        run.wait()
    return out.read_bytes().count(b"\n")


def done_at(program, path, states, answered):
    """After how many lines the store is as it is, which must be sound."""
    written, status, said = stores.call(program, ["check", path])
    stores.must((status, said), (0, b""), f"check after {answered} replies")
    text, facts, _ = stores.tables(path)
    found = {i: (nodes[0], cols[0]) for i, nodes, cols in facts}, text.count(b"\nnode\t")
    done = next((n for n in range(answered, len(states)) if states[n] == found), None)
    if done is None:
        raise stores.Wrong(f"facts and nodes are those of no prefix that holds the {answered} lines answered")
    return done


def killed_run(program, folder, number, random):
    path = str(Path(folder) / f"{number}.cube")
    stores.must(stores.call(program, ["init", path], schema())[:2], (b"ok\t0\n", 0), "init")
    text, states = script(random, LINES)
    answered = killed(program, ["run", path], folder, text, random.random() * 1.5)
    return answered, done_at(program, path, states, answered)


class Leader:
    """A store that wrote a feed, and how long that takes to follow."""

    def __init__(self, program, folder, random):
        path, second = str(Path(folder) / "leader.cube"), str(Path(folder) / "whole.cube")
        for left in Path(folder).glob("*.cube*"):
            left.unlink()
        text, self.states = script(random, FOLLOWED)
        stores.must(stores.call(program, ["init", path], schema())[:2], (b"ok\t0\n", 0), "init")
        self.feed, status, said = stores.call(program, ["lead", path], text)
        stores.must((status, said), (0, b""), "lead")
        self.tables = stores.tables(path)
        start = time.time()
        self.must_follow(program, second, self.feed, FOLLOWED)
        self.seconds = time.time() - start

    def must_follow(self, program, path, feed, count):
        """Behind this feed of so many batches a store holds what the leader holds."""
        applied = b"".join(b"applied\t%d\n" % number for number in range(1, count + 1))
        stores.must(stores.call(program, ["follow", path], feed), (applied, 0, b""), "follow")
        stores.must(stores.tables(path), self.tables, "tables of a follower")


def killed_follower(program, folder, number, random, leader):
    path = str(Path(folder) / f"{number}.cube")
    answered = killed(program, ["follow", path], folder, leader.feed, random.random() * leader.seconds)
    if stores.call(program, ["check", path]) == (b"", 4, b"cube: no cube\n"):
        stores.must(answered, 0, "answers before the base was kept")
        leader.must_follow(program, path, leader.feed, FOLLOWED)
        return 0, 0
    done = done_at(program, path, leader.states, answered)
    stores.must(done - answered in (0, 1), True, f"batch {done} taken and {answered} answered")
    if leader.states[done] != leader.states[0]:
        stores.must(stores.call(program, ["follow", path], leader.feed), (b"", 15, b"cube: base differs\n"), "the feed again")
    base, status, said = stores.call(program, ["lead", path])
    stores.must((status, said), (0, b""), "lead of what is left")
    rest = feeds.text_of(feeds.rest_of(plain_model.lines_of(leader.feed), done))
    leader.must_follow(program, path, base + rest, FOLLOWED - done)
    return answered, done


FOLLOWERS_EACH = 20  # of one leader


def main():
    want_words(3, __doc__)
    program, runs, seed, follow = sys.argv[1], int(sys.argv[2]), int(sys.argv[3]), sys.argv[4:] == ["follow"]
    random = Random(f"killed {seed}")
    ends = []
    folder = tempfile.mkdtemp()
    try:
        for number in range(runs):
            if follow and number % FOLLOWERS_EACH == 0:
                leader = Leader(program, folder, random)
            ends.append(killed_follower(program, folder, number, random, leader) if follow else killed_run(program, folder, number, random))
            for left in Path(folder).glob(f"{number}.cube*"):
                left.unlink()
    except stores.Wrong as wrong:
        print(wrong)
        return 1
    finally:
        shutil.rmtree(folder)
    whole = sum(done == (FOLLOWED if follow else LINES) for _, done in ends)
    what = "followers" if follow else "runs"
    beyond = max(done - answered for answered, done in ends)
    print(f"{runs} {what} killed, {whole} of them at their end; up to {beyond} lines were kept beyond the answered ones; all stores sound")
    return 0


if __name__ == "__main__":
    sys.exit(main())
