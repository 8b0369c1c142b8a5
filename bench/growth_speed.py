#!/usr/bin/env python3
"""How long dimensions take to grow: growth_speed.py PROGRAM [FOLDER]

Over a store of a million precise facts in a thousand cities, which SQLite made in FOLDER, the current one where none is named: a run of no
line, which opens the store; of one growth and of ten, each behind all cities, by which no fact lies otherwise; and of two below the first city,
by which all do. Printed are seconds of a processor and on the clock, and megabytes, of the least of three runs, each over a copy of the store.
"""
import shutil
import sys
import tempfile
from pathlib import Path

sys.dont_write_bytecode = True

import store_speed
import stores
from calls import want_words

RUNS = 3

# What is done, its lines, and their replies.
TASKS = [
    ("no line", b"", b""),
    ("one growth that moves nothing", b"grow\tPlace\tAll\tlast\n", b"ok\t0\n"),
    ("ten of them", b"".join(b"grow\tPlace\tAll\tlast%d\n" % k for k in range(10)), b"ok\t0\n" * 10),
    ("two growths, of which one moves all", b"grow\tPlace\tcity0\tnorth\ngrow\tPlace\tcity0\tsouth\n", b"ok\t0\nok\t%d\n"),
]


def done_once(program, path, folder, lines, replies):
    """What a run over a copy of the store takes."""
    copy = f"{folder}/copy.cube"
    shutil.copy(path, copy)
    seconds, clock, memory, said, status = store_speed.timed(["run", copy], lines, program)
    stores.must((said, status), (replies, 0), "run")
    for file in Path(folder).glob("copy.cube*"):
        file.unlink()
    return seconds, clock, memory


def main():
    want_words(1, __doc__)
    program = sys.argv[1]
    with tempfile.TemporaryDirectory(dir=sys.argv[2] if len(sys.argv) > 2 else ".") as folder:
        path = f"{folder}/million.cube"
        store_speed.made_by_sqlite(path)
        for what, lines, replies in TASKS:
            replies = replies.replace(b"%d", b"%d" % store_speed.FACTS)
            seconds, clock, memory = min(done_once(program, path, folder, lines, replies) for _ in range(RUNS))
            print(f"{what}: {seconds:.2f} s of a processor, {clock:.2f} s on the clock, {memory:.0f} MB", flush=True)


if __name__ == "__main__":
    main()
