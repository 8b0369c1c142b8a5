#!/usr/bin/env python3
"""Times and memory by the number of facts: sizes.py PROGRAM [FOLDER]

Cubes of 1,000 to 1,000,000 facts over 64 cities by 52 weeks, of which one in ten is known only to its state of eight cities. Of each are
printed the seconds of a processor, user and system, and the most memory: of a script that inserts all facts; of the import of all into a new
store; of a `check` of that store. The stores are made in FOLDER, the current one where none is named. What is answered is checked.
"""
import os
import subprocess
import sys
import tempfile
import time

sys.dont_write_bytecode = True

import stores
from calls import want_words
from edits import mixed, most_kilobytes, schema

SIZES = [1_000, 10_000, 100_000, 1_000_000]


def fields_of(n):
    """A fact: its id, a city or a state, a week, and an amount."""
    bits = mixed(n)
    city, week, amount = bits % 64, bits // 64 % 52, bits // 65536 % 1000
    place = f"s{city // 8}" if bits // 4096 % 10 == 0 else f"s{city // 8}c{city % 8}"
    return str(n), place, f"q{week // 13}w{week % 13}", str(amount)


def lines_of(rows, between):
    return "".join(between.join(row) + "\n" for row in rows).encode()


def most_while_it_runs(child):
    """The most kilobytes that a child has, as it is read again and again: what its parent had is not counted so."""
    most = 0
    while os.waitid(os.P_PID, child, os.WEXITED | os.WNOWAIT | os.WNOHANG) is None:
        most = most_kilobytes(child) or most
        time.sleep(0.001)
    return most


def job(program, words, text, is_right):
    """The seconds of a processor and the megabytes of a run, whose status must be 0 and whose output right."""
    with tempfile.TemporaryFile() as source, tempfile.TemporaryFile() as sink:
        source.write(text)
        source.seek(0)
        run = subprocess.Popen([program, *words], stdin=source, stdout=sink)
        most = most_while_it_runs(run.pid)
        _, status, used = os.wait4(run.pid, 0)
        sink.seek(0)
        said = sink.read()
    stores.must((status, is_right(said)), (0, True), f"{words[0]}: {said[:80]!r}")
    megabytes = f"{most / 1024:.1f}" if most else "-"  # a short run ends before it is read
    return f"{used.ru_utime + used.ru_stime:9.2f} | {megabytes:>7}"


def row(program, folder, facts):
    rows = [fields_of(n) for n in range(1, facts + 1)]
    shape = "\n".join([*schema("count"), ""]).encode()
    path = f"{folder}/{facts}.cube"
    inserts = job(program, ["try"], shape + lines_of([("insert", *row) for row in rows], "\t"), lambda said: said.count(b"ok\t") == facts)
    job(program, ["init", path], shape, lambda said: said == b"ok\t0\n")
    file = lines_of([("id", "Place", "Time", "Amount"), *rows], ",")
    imports = job(program, ["import", path], file, lambda said: said == b"imported\t%d\t%d\n" % (facts, facts))
    checks = job(program, ["check", path], b"", lambda said: said.startswith(b"sound\t%d\t" % facts))
    print(f"| {facts:9} | {inserts} | {imports} | {checks} |", flush=True)


def main():
    want_words(1, __doc__)
    program = sys.argv[1]
    print("| facts     | inserts s |      MB | import s  |      MB | check s   |      MB |")
    print("|----------:|----------:|--------:|----------:|--------:|----------:|--------:|")
    with tempfile.TemporaryDirectory(dir=sys.argv[2] if len(sys.argv) > 2 else ".") as folder:
        for facts in SIZES:
            row(program, folder, facts)


if __name__ == "__main__":
    main()
