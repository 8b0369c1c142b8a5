"""The runs of bench/refused_memory.sh: python3 bench/refused_memory.py PROGRAM REFUSING_LIBRARY INPUT..

An input that is a feed is followed, over a store that is not there yet.
"""
import os
import re
import subprocess
import sys
import tempfile
from pathlib import Path

sys.dont_write_bytecode = True

import plain_feed
import plain_model
from calls import want_words

STOPPED = 9
TOLD = re.compile(rb"cube: out of memory after line (\d+)\n")


class Runs:
    def __init__(self, program, library, folder):
        self.program, self.library, self.folder = program, library, folder
        self.store = os.path.join(folder, "store.cube")

    def words(self, text):
        """What an input is for. No store is there then."""
        for left in Path(self.folder).glob("store.cube*"):
            left.unlink()
        return ["follow", self.store] if is_feed(text) else ["try"]

    def run(self, text, refuse):
        """How a run ends: its status, what it writes, what it tells, and how many requests for memory it made."""
        count = os.path.join(self.folder, "count")
        given = {"LD_PRELOAD": self.library, "REFUSE": str(refuse), "COUNT": count}
        done = subprocess.run([self.program, *self.words(text)], input=text, capture_output=True, env=given)
        with open(count, encoding="ascii") as file:
            return done.returncode, done.stdout, done.stderr, int(file.read())


    def base(self):
        """The base of what the store holds, or nothing."""
        return subprocess.run([self.program, "lead", self.store], input=b"", capture_output=True).stdout


def is_feed(text):
    return text.startswith(b"feed\t")


def bases_of(feed):
    """The base of what a store holds behind each number of batches, which no base has before it."""
    stores = [store for _, store in plain_feed.followed(None, plain_model.lines_of(feed))]
    return [plain_feed.text_of(plain_feed.base_lines(store.schema, store.facts)) for store in stores]


def replies_to(text):
    """For each number of lines behind the schema how many of them have a reply: an empty line and one that begins with # have none. For
    each number of batches of a feed it is that number."""
    if is_feed(text):
        return list(range(len(bases_of(text))))
    counts = [0]
    for line in text.partition(b"\nend\n")[2].splitlines():
        counts.append(counts[-1] + (line != b"" and not line.startswith(b"#")))
    return counts


def is_right(replies, whole, stopped):
    """Whether a run is the whole one, or ended for want of memory as it may: with a part of the first `done` replies that holds
    all but the last of them whole."""
    if stopped[:3] == whole[:3]:
        return True
    told = TOLD.fullmatch(stopped[2])
    if stopped[0] != STOPPED or told is None or not whole[1].startswith(stopped[1]):
        return False
    done, written = int(told[1]), stopped[1].count(b"\n")
    return replies[max(done - 1, 0)] <= written <= replies[done]


def keeps_right(runs, text, stopped):
    """Whether the store holds as many batches as are told, or nothing where none is."""
    if not is_feed(text) or stopped[0] != STOPPED:
        return True
    done = int(TOLD.fullmatch(stopped[2])[1])
    return runs.base() in [bases_of(text)[done], *([b""] if done == 0 else [])]


def refuse_each(runs, name):
    with open(name, "rb") as file:
        text = file.read()
    replies, whole = replies_to(text), runs.run(text, 0)
    ended = 0
    for number in range(1, whole[3] + 1):
        stopped = runs.run(text, number)
        if not is_right(replies, whole, stopped) or not keeps_right(runs, text, stopped):
            sys.exit(f"{name}: refused {number}: status {stopped[0]}, {stopped[1]!r}, {stopped[2]!r}")
        ended += stopped[0] == STOPPED
    print(f"{name}: of {whole[3]} requests for memory {ended} ended the run when they were refused, none wrongly")


def main(program, library, *inputs):
    with tempfile.TemporaryDirectory() as folder:
        runs = Runs(program, library, folder)
        for name in inputs:
            refuse_each(runs, name)


want_words(2, __doc__)
main(*sys.argv[1:])
