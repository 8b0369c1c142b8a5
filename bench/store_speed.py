#!/usr/bin/env python3
"""How long stores take: store_speed.py PROGRAM [FOLDER]

`check` of a store of a million precise facts that SQLite made, with its seconds of a processor and its memory; and a script of ten thousand
inserts over a store, beside the same script without one, and beside the same rows put by SQLite from Python, a transaction each. Last, three
times in turn, the script beside the same batches through the `sqlite` crate of the kit alone: `sqlite_alone`, which is proved and built first,
in some three minutes where that was never done. Before that one fact of 2^20 rows, the most that a fact may have: it is put into a store, whose
blob of 16 MiB is then read again. The stores are made in FOLDER, the current one where none is named.

Three times in turn the same script by `run` and by `lead`, and its feed by `follow`; and such a fact of 2^20 rows led and followed, with the
memory of both.
"""
import os
import resource
import shutil
import sqlite3
import struct
import subprocess
import sys
import tempfile
import time
from pathlib import Path

sys.dont_write_bytecode = True

import stores
from calls import want_words

FACTS = 1_000_000
EDITS = 10_000
CITIES = 1000
RUNS = 3


def schema():
    leaves = "".join(f"node\t1\tcity{k}\n" for k in range(CITIES))
    return f"cube\t1\npolicy\tcount\nnumber\tCost\ndimension\tPlace\nnode\t0\tAll\n{leaves}end\n".encode()


def timed(words, text, program):
    """Seconds of a processor and on the clock, memory in MB, and what was written."""
    with tempfile.TemporaryFile() as source, tempfile.TemporaryFile() as sink:
        source.write(text)
        source.seek(0)
        start = time.time()
        run = subprocess.Popen([program, *words], stdin=source, stdout=sink, stderr=subprocess.DEVNULL)
        _, status, used = os.wait4(run.pid, 0)
        clock = time.time() - start
        sink.seek(0)
        return used.ru_utime + used.ru_stime, clock, used.ru_maxrss / 1024, sink.read(), status


def made_by_sqlite(path):
    base = sqlite3.connect(path)
    for table in stores.TABLES:
        base.execute(table)
    base.execute("INSERT INTO cube VALUES (1, ?)", (schema(),))
    facts = ((i, struct.pack(">I", 1 + i % CITIES), struct.pack(">q", i % 777)) for i in range(1, FACTS + 1))
    base.executemany("INSERT INTO fact VALUES (?, ?, ?)", facts)
    rows = ((i, 1, struct.pack(">QQ", i % CITIES, 1)) for i in range(1, FACTS + 1))
    base.executemany("INSERT INTO alloc VALUES (?, ?, ?)", rows)
    base.commit()
    base.close()


def put_by_sqlite(path):
    """The same puts as the inserts make, a transaction each, in a log that is synced."""
    base = sqlite3.connect(path, isolation_level=None)
    base.execute("PRAGMA journal_mode = WAL")
    base.execute("PRAGMA synchronous = FULL")
    for table in stores.TABLES:
        base.execute(table)
    start, used = time.time(), resource.getrusage(resource.RUSAGE_SELF)
    for i in range(1, EDITS + 1):
        base.execute("BEGIN")
        base.execute("INSERT OR REPLACE INTO fact VALUES (?, ?, ?)", (i, struct.pack(">I", 1 + i % CITIES), struct.pack(">q", i % 777)))
        base.execute("INSERT OR REPLACE INTO alloc VALUES (?, ?, ?)", (i, 1, struct.pack(">QQ", i % CITIES, 1)))
        base.execute("COMMIT")
    now = resource.getrusage(resource.RUSAGE_SELF)
    base.close()
    return now.ru_utime + now.ru_stime - used.ru_utime - used.ru_stime, time.time() - start


def built_alone(name, libraries, words, text, folder):
    """A program over libraries of the kit alone, built from its source beside this script, as a project of its own: the gate has no part in it,
    and would stop at a source that no crate has, by its ending. It is tried on these words and this input."""
    crate = Path(folder, "crates", name)
    (crate / "src").mkdir(parents=True)
    shutil.copy(Path(__file__).parent / f"{name}.rt.txt", crate / "src" / "main.rt")
    Path(folder, "crates.txt").write_text(f"{name}: {libraries}\n")
    built = subprocess.run(["rt", "run", "--", *words], input=text, cwd=crate, capture_output=True)
    if built.returncode != 0:
        sys.exit(f"bench: {name} is not built: {built.stdout[-2000:]}{built.stderr[-2000:]}")
    return crate / "out" / name


def large_schema():
    """Of 2^20 cells."""
    leaves = ["".join(f"node\t1\t{letter}{k}\n" for k in range(1024)) for letter in "pq"]
    dims = "".join(f"dimension\t{name}\nnode\t0\tAll\n{nodes}" for name, nodes in zip(("Place", "Time"), leaves))
    return f"cube\t1\npolicy\tcount\n{dims}end\n".encode()


def largest_blob(program, folder):
    """One fact of 2^20 cells, put and read again; and the length of the blob of its rows."""
    path = f"{folder}/blob.cube"
    stores.must(stores.call(program, ["init", path], large_schema())[:2], (b"ok\t0\n", 0), "init")
    seconds, clock, memory, said, status = timed(["ask", path, "insert", "1", "All", "All"], b"", program)
    stores.must((said, status), (b"ok\t1\n", 0), "insert")
    print(f"one fact of 2^20 rows put: {seconds:.2f} s of a processor, {clock:.2f} s on the clock, {memory:.0f} MB")
    seconds, clock, memory, said, status = timed(["check", path], b"", program)
    stores.must((said, status), (b"sound\t1\t1048576\n", 0), "check")
    length = sqlite3.connect(f"file:{path}?mode=ro", uri=True).execute("SELECT length(body) FROM alloc").fetchone()[0]
    stores.must(length, 2**24, "length of the blob")
    print(f"and read again by check: {seconds:.2f} s of a processor, {clock:.2f} s on the clock, {memory:.0f} MB")


def against_feeds(program, folder, script):
    """The script by `run`, by `lead`, and by `follow` of the feed that `lead` writes. All three leave the same rows."""
    for name in ("run", "lead"):
        stores.must(stores.call(program, ["init", f"{folder}/{name}.cube"], schema())[:2], (b"ok\t0\n", 0), "init")
    by_run, clock_run, _, said, status = timed(["run", f"{folder}/run.cube"], script, program)
    stores.must((said, status), (b"ok\t1\n" * EDITS, 0), "run")
    by_lead, clock_lead, _, feed, status = timed(["lead", f"{folder}/lead.cube"], script, program)
    stores.must(status, 0, "lead")
    by_follow, clock_follow, _, said, status = timed(["follow", f"{folder}/follow.cube"], feed, program)
    stores.must((said.count(b"\n"), status), (EDITS, 0), "follow")
    for name in ("lead", "follow"):
        stores.must(content(f"{folder}/{name}.cube"), content(f"{folder}/run.cube"), f"rows of {name}")
    print(
        f"{EDITS} inserts by run: {by_run:.2f} s of a processor, {clock_run:.2f} s on the clock; by lead {by_lead:.2f} and {clock_lead:.2f}, "
        f"{by_lead / by_run:.2f} times; by follow {by_follow:.2f} and {clock_follow:.2f}, {by_follow / by_run:.2f} times"
    )


def largest_batch(program, folder):
    """One fact of 2^20 cells, led and followed."""
    first, second = f"{folder}/first.cube", f"{folder}/second.cube"
    stores.must(stores.call(program, ["init", first], large_schema())[:2], (b"ok\t0\n", 0), "init")
    seconds, clock, memory, feed, status = timed(["lead", first], b"insert\t1\tAll\tAll\n", program)
    stores.must((feed.count(b"\nrow\t"), status), (2**20, 0), "lead")
    print(f"a batch of 2^20 rows, {len(feed) / 2**20:.0f} MiB, led: {seconds:.2f} s of a processor, {clock:.2f} s on the clock, {memory:.0f} MB")
    seconds, clock, memory, said, status = timed(["follow", second], feed, program)
    stores.must((said, status), (b"applied\t1\n", 0), "follow")
    stores.must(content(second), content(first), "rows of a follower")
    print(f"and followed: {seconds:.2f} s of a processor, {clock:.2f} s on the clock, {memory:.0f} MB")


def content(path):
    base = sqlite3.connect(f"file:{path}?mode=ro", uri=True)
    kept = [base.execute(f"SELECT * FROM {table} ORDER BY id").fetchall() for table in ("fact", "alloc")]
    base.close()
    return kept


def against_alone(program, alone, folder, script):
    """The script beside its batches through the `sqlite` crate alone, plain, with the tables that are missing made in each batch, and so with two syncs for each."""
    stores.must(stores.call(program, ["init", f"{folder}/cube.cube"], schema())[:2], (b"ok\t0\n", 0), "init")
    seconds, clock, _, said, status = timed(["run", f"{folder}/cube.cube"], script, program)
    stores.must((said, status), (b"ok\t1\n" * EDITS, 0), "run")
    text = f"run of {EDITS} inserts: {seconds:.2f} s of a processor, {clock:.2f} s on the clock"
    for what, words in ("the sqlite crate alone", []), ("with its tables made in each batch", ["tables"]), ("the same, each batch synced twice (Wary)", ["wary"]):
        path = f"{folder}/alone.cube"
        by_alone, clock, _, said, status = timed([path, str(EDITS), *words], b"", alone)
        stores.must((said, status), (f"{EDITS}\n".encode(), 0), "sqlite_alone")
        stores.must(content(path), content(f"{folder}/cube.cube"), "rows of sqlite_alone")
        text += f"; {what} {by_alone:.2f} and {clock:.2f}, {seconds / by_alone:.2f} times"
        for file in Path(folder).glob("alone.cube*"):
            file.unlink()
    print(text)


def main():
    want_words(1, __doc__)
    program = sys.argv[1]
    place = sys.argv[2] if len(sys.argv) > 2 else "."
    with tempfile.TemporaryDirectory(dir=place) as folder, tempfile.TemporaryDirectory() as project:
        path = f"{folder}/million.cube"
        made_by_sqlite(path)
        seconds, clock, memory, said, status = timed(["check", path], b"", program)
        stores.must((said, status), (f"sound\t{FACTS}\t{FACTS}\n".encode(), 0), "check")
        print(f"check of {FACTS} facts: {seconds:.2f} s of a processor, {clock:.2f} s on the clock, {memory:.0f} MB")
        script = "".join(f"insert\t{i}\tcity{i % CITIES}\t{i % 777}\n" for i in range(1, EDITS + 1)).encode()
        stores.must(stores.call(program, ["init", f"{folder}/edits.cube"], schema())[:2], (b"ok\t0\n", 0), "init")
        seconds, clock, memory, said, status = timed(["run", f"{folder}/edits.cube"], script, program)
        stores.must((said, status), (b"ok\t1\n" * EDITS, 0), "run")
        print(f"run of {EDITS} inserts: {seconds:.2f} s of a processor, {clock:.2f} s on the clock, {memory:.0f} MB")
        seconds, clock, memory, said, status = timed(["try"], schema() + script, program)
        stores.must((said, status), (b"ok\t1\n" * EDITS, 0), "try")
        print(f"try of the same: {seconds:.2f} s of a processor, {clock:.2f} s on the clock, {memory:.0f} MB")
        seconds, clock = put_by_sqlite(f"{folder}/python.cube")
        print(f"the same rows by stock SQLite from Python: {seconds:.2f} s of a processor, {clock:.2f} s on the clock")
        for _ in range(RUNS):
            with tempfile.TemporaryDirectory(dir=place) as run:
                against_feeds(program, run, script)
        largest_batch(program, folder)
        largest_blob(program, folder)
        alone = built_alone("sqlite_alone", "anyhow sqlite", [f"{folder}/tried.cube", "1"], b"", project)
        for _ in range(RUNS):
            with tempfile.TemporaryDirectory(dir=place) as run:
                against_alone(program, alone, run, script)


if __name__ == "__main__":
    main()
