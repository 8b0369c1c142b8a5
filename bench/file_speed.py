#!/usr/bin/env python3
"""How long files of facts take: file_speed.py PROGRAM [FOLDER]

The import of a file of a million precise facts into a store without facts, and the export of these, with their seconds of a processor and
their memory; beside them the same file through the `csv` crate of the kit alone (`csv_alone`, which is proved and built first), read, and
read and written; and one transaction of the same rows by stock SQLite from Python. The stores are made in FOLDER, the current one where none
is named.
"""
import sys
import tempfile
import time
from pathlib import Path

sys.dont_write_bytecode = True

import stores
from calls import want_words
from store_speed import CITIES, FACTS, built_alone, made_by_sqlite, schema, timed

RUNS = 3


def facts_file():
    return b"id,Place,Cost\n" + b"".join(b"%d,city%d,%d\n" % (i, i % CITIES, i % 777) for i in range(1, FACTS + 1))


def main():
    want_words(1, __doc__)
    program = sys.argv[1]
    place = sys.argv[2] if len(sys.argv) > 2 else "."
    file = facts_file()
    with tempfile.TemporaryDirectory(dir=place) as folder, tempfile.TemporaryDirectory() as project:
        alone = built_alone("csv_alone", "anyhow csv", [], b"", project)
        for k in range(RUNS):
            path = f"{folder}/{k}.cube"
            stores.must(stores.call(program, ["init", path], schema())[:2], (b"ok\t0\n", 0), "init")
            for words, text, wanted in (
                (["import", path], file, f"imported\t{FACTS}\t{FACTS}\n".encode()),
                (["export", path], b"", file),
                (["check", path], b"", f"sound\t{FACTS}\t{FACTS}\n".encode()),
            ):
                seconds, clock, memory, said, status = timed(words, text, program)
                stores.must((said, status), (wanted, 0), words[0])
                print(f"{words[0]}: {seconds:.2f} s of a processor, {clock:.2f} s on the clock, {memory:.0f} MB")
            for what, words in (("the csv crate alone, read", []), ("read and written", ["write"])):
                seconds, clock, memory, said, status = timed(words, file, alone)
                stores.must((said, status), (f"{FACTS + 1}\n".encode(), 0), "csv_alone")
                print(f"{what}: {seconds:.2f} s of a processor, {clock:.2f} s on the clock, {memory:.0f} MB")
            start, used = time.time(), time.process_time()
            made_by_sqlite(f"{folder}/{k}.python")
            print(f"one transaction by stock SQLite from Python: {time.process_time() - used:.2f} s of a processor, {time.time() - start:.2f} s on the clock")
            for left in Path(folder).iterdir():
                left.unlink()


if __name__ == "__main__":
    main()
