#!/usr/bin/env python3
"""Times questions of large cubes through the built program: questions.py PROGRAM [RUNS [WORD]]

Of each line are printed the milliseconds of a processor, as the difference of a script with the line some times and one without, the megabytes
that the script with it took more, and how many times another line's milliseconds these are. With a WORD only the jobs of this name are done:
`mixed`, `component`, `sides` or `rows`. Those of `sides` are over stores that are made by `import`, and run beside a script without lines over the
same store, so that what it takes to open the store is in no figure. `rows` writes the most rows that a store may have, beside `check` of it. Where
a line says `beside the cube`, its megabytes are told by a run that waits before the line: the most that it held during the line, less what it
held before.
"""
import os
import statistics
import subprocess
import sys
import tempfile
import time

sys.dont_write_bytecode = True

from calls import want_words
from engine import Bench, Tree, line, mixed, peak_of, run, schema

WHOLE = ("All", "All", "All")
FACTS = 2**20
MOST_SHARED = 2**21  # cells of the regions of imprecise facts
# Freed blocks go back to the system at once, so that no line is served by what another left.
GIVEN_BACK = {"MALLOC_MMAP_THRESHOLD_": "65536", "MALLOC_TRIM_THRESHOLD_": "0"}
SECONDS = 300


def of_mixed(*asked):
    return mixed([], 0, (), asked)


def one_component(*asked):
    """Facts known to a row of 1,024 cells or to a column, each of which crosses all others: 2^21 cells of facts that depend on each
    other. All other facts lie on the diagonal, so that each of these has one row."""

    def make():
        dims = Tree("Place", 1024, 0), Tree("Time", 1024, 0)
        yield schema("count", [], dims, [])
        places, times = dims[0].nodes[1], dims[1].nodes[1]
        for i in range(FACTS - 2048):
            yield line("insert", i + 1, places[i % 1024], times[i % 1024])
        for i, region in enumerate([*((place, "All") for place in places), *(("All", time) for time in times)]):
            yield line("insert", FACTS - i, *region)
        yield from asked

    return make


def pairs_in_one_component(*asked):
    """The same number of cells in as many regions as there may be: facts known to two cells of a row each, one for each row, and one for a
    column, which joins the rows."""

    def make():
        dims = Tree("Place", 1024, 0), Tree("Time", 512, 2)
        yield schema("count", [], dims, [])
        places, pairs, first = dims[0].nodes[1], dims[1].nodes[1], dims[1].nodes[2][0]
        long = [*((place, "All") for place in places), ("All", first)]
        short = [(place, pair) for place in places for pair in pairs][: (MOST_SHARED - 1024 * len(long)) // 2]
        precise = FACTS - len(long) - len(short)
        for i in range(precise):
            yield line("insert", i + 1, places[i % 1024], first)
        for i, region in enumerate(short + long):
            yield line("insert", precise + i + 1, *region)
        yield from asked

    return make


def memory_beside(words, lines, asked, sink):
    """The megabytes that a line takes beside the cube of the lines before it."""
    with open(sink, "wb") as taken, subprocess.Popen(words, stdin=subprocess.PIPE, stdout=taken, env={**os.environ, **GIVEN_BACK}) as child:
        replies = 0
        for text in lines:
            child.stdin.write(text.encode())
            replies += not text.startswith("cube")
        child.stdin.flush()
        wait_for(replies, sink)
        with open(f"/proc/{child.pid}/clear_refs", "w") as peak:
            peak.write("5")
        held = peak_of(child.pid)
        child.stdin.write(asked.encode())
        child.stdin.flush()
        wait_for(replies + 1, sink)
        return peak_of(child.pid) - held


def wait_for(replies, sink):
    """Waits until so many replies are written."""
    there, end = 0, time.monotonic() + SECONDS
    with open(sink, "rb") as text:
        while there < replies:
            if time.monotonic() > end:
                sys.exit(f"questions: {there} of {replies} replies came within {SECONDS} seconds")
            there += text.read().count(b"\n")
            time.sleep(0.01)


def on_both_sides(program, folder, regions):
    """A store of 2^20 imported facts in so many regions, each of which has one cell in p0.0 and one in p0.1."""
    dims = Tree("Place", 1, 2), Tree("Time", regions, 0)
    store, text = os.path.join(folder, f"sides{regions}.cube"), os.path.join(folder, "text")
    with open(text, "w") as schema_text:
        schema_text.write(schema("count", ["Amount"], dims, []))
    run([program, "init", store], text, os.devnull)
    with open(text, "w") as file:
        file.write("id,Place,Time,Amount\n")
        file.writelines(f"{i},p0,t{i % regions},{i * 7919 % 2001 - 1000}\n" for i in range(1, FACTS + 1))
    run([program, "import", store], text, os.devnull)
    return store


class Questions(Bench):
    def ask(self, name, cube, asked, times, beside=None):
        """Milliseconds of a line over a cube, and how many times those of a line before."""
        without, with_lines = self.measure(cube())[0], self.measure(cube(*[asked] * times))[0]
        each = (with_lines[0] - without[0]) / times * 1000
        return self.tell_line(name, times, without, with_lines, f"   {each / beside:5.1f} times" if beside else "")

    def is_answered(self, reply):
        """Ends the run where the last reply is another one."""
        with open(os.path.join(self.folder, "printed"), encoding="utf-8") as text:
            last = text.read().rsplit("\n", 2)[-2]
        if last + "\n" != reply:
            sys.exit(f"questions: the reply is {last[:80]}")

    def tell_memory(self, name, words, lines, asked):
        size = memory_beside([self.programs[0], *words], lines, asked, os.path.join(self.folder, "printed"))
        print(f"{name + ', beside the cube':56} {size:7.1f} MB", flush=True)

    def ask_stored(self, name, store, asked, times):
        """The same over a store, and the megabytes of a reply."""
        without, with_lines = self.measure_stored(store, []), self.measure_stored(store, [asked] * times)
        reply = os.path.getsize(os.path.join(self.folder, "printed")) / times / 2**20
        self.tell_line(name, times, without, with_lines, f"   a reply of {reply:.1f} MB")

    def measure_stored(self, store, lines):
        """Median seconds and megabytes of a script over a store."""
        script, sink = os.path.join(self.folder, "script"), os.path.join(self.folder, "printed")
        with open(script, "w") as text:
            text.writelines(lines)
        return self.typical([run([self.programs[0], "run", store], script, sink) for _ in range(self.runs)])

    def typical(self, taken):
        """The median seconds and the most megabytes of runs."""
        return statistics.median(s for s, _ in taken), max(m for _, m in taken)

    def tell_line(self, name, times, without, with_lines, more=""):
        each = (with_lines[0] - without[0]) / times * 1000
        print(f"{name:44} {each:9.2f} ms {with_lines[1] - without[1]:7.1f} MB{more}", flush=True)
        return each


def mixed_jobs(bench):
    whole = bench.ask("mixed: terms of the whole", of_mixed, line("terms", *WHOLE), 200)
    bench.ask("mixed: a table of 3,328 regions", of_mixed, line("counts", 2, 2, 0, *WHOLE), 100, whole)
    bench.ask("mixed: a table of 64 regions", of_mixed, line("sums", "Amount", 2, 0, 0, *WHOLE), 100, whole)
    region = ("p1", "t1.2", "All")
    part = bench.ask("mixed: terms of a region", of_mixed, line("terms", *region), 20_000)
    bench.ask("mixed: range of it", of_mixed, line("range", "Amount", *region), 20_000, part)
    bench.ask("mixed: rangecount of it", of_mixed, line("rangecount", *region), 20_000, part)
    found = bench.ask("mixed: component", of_mixed, line("component", 100_000), 100)
    bench.ask("mixed: 32 rounds of a small component", of_mixed, line("iterate", 32, "p1.2", "t1.2", "k1"), 100, found)
    # Its components have 2,355 of the 199,680 cells.
    bench.ask("mixed: 32 rounds of 1.2 % of the cells", of_mixed, line("iterate", 32, "p1.2", "t1.2", "All"), 100, found)


def component_jobs(bench):
    """Facts that all depend on each other, in few regions and in many."""
    for what, cube, imprecise in ("2,048 regions", one_component, 2048), ("half a million", pairs_in_one_component, 524_801):
        component, rounds = line("component", FACTS), line("iterate", 32, "p3", "All")
        bench.ask(f"2^21 cells of {what}: component", cube, component, 3)
        bench.is_answered(line("component", imprecise, *range(FACTS - imprecise + 1, FACTS + 1)))
        bench.ask(f"2^21 cells of {what}: 32 rounds", cube, rounds, 3)
        bench.tell_memory(f"2^21 cells of {what}: component", ["try"], cube()(), component)
        bench.tell_memory(f"2^21 cells of {what}: 32 rounds", ["try"], cube()(), rounds)


def sides_jobs(bench):
    """The ends of sums over 2^20 facts on both sides of the asked region's border, by the number of their regions."""
    region = ("p0.0", "All")
    for regions in 1, 16, 1024:
        store = on_both_sides(bench.programs[0], bench.folder, regions)
        bench.ask_stored(f"both sides, in {regions} regions: range", store, line("range", "Amount", *region), 20)
        bench.ask_stored(f"both sides, in {regions} regions: rangecount", store, line("rangecount", *region), 20)
        least = line("least", "Amount", *region)
        bench.ask_stored(f"both sides, in {regions} regions: least", store, least, 4)
        bench.tell_memory(f"both sides, in {regions} regions: least", ["run", store], [line("count", *region)], least)
        os.remove(store)


def rows_jobs(bench):
    """The file of 2^21 rows, of two facts of 2^20 cells each."""
    store, file = os.path.join(bench.folder, "rows.cube"), os.path.join(bench.folder, "printed")
    text = os.path.join(bench.folder, "text")
    for word, lines in ("init", [schema("uniform", [], (Tree("Place", 1024, 0), Tree("Time", 1024, 0)), [])]), ("run", [line("insert", i, "All", "All") for i in (1, 2)]):
        with open(text, "w") as given:
            given.writelines(lines)
        run([bench.programs[0], word, store], text, os.devnull)
    check, rows = ([run([bench.programs[0], word, store], os.devnull, file) for _ in range(bench.runs)] for word in ("check", "rows"))
    bench.tell_line("2^21 rows written", 1, bench.typical(check), bench.typical(rows), f"   a file of {os.path.getsize(file) / 2**20:.1f} MB")


JOBS = {"mixed": mixed_jobs, "component": component_jobs, "sides": sides_jobs, "rows": rows_jobs}


def main(program, runs=3, word=None):
    with tempfile.TemporaryDirectory() as folder:
        bench = Questions(int(runs), [program], folder)
        for name, jobs in JOBS.items():
            if word in (None, name):
                jobs(bench)
    return 0


if __name__ == "__main__":
    want_words(1, __doc__)
    sys.exit(main(*sys.argv[1:]))
