"""The jobs of bench/engine.sh: python3 bench/engine.py RUNS PROGRAM [OTHER]"""
import hashlib
import os
import statistics
import subprocess
import sys
import tempfile
import time

from calls import want_words


def line(*fields):
    return "\t".join(str(field) for field in fields) + "\n"


class Draws:
    """Numbers that look random, the same in each run (xorshift)."""

    def __init__(self, seed):
        self.bits = seed * 0x9E3779B97F4A7C15 & (2**64 - 1) or 1

    def below(self, n):
        x = self.bits
        x ^= x << 13 & (2**64 - 1)
        x ^= x >> 7
        x ^= x << 17 & (2**64 - 1)
        self.bits = x
        return (x >> 11) % n

    def pick(self, items):
        return items[self.below(len(items))]


class Tree:
    """A dimension of a root, groups under it, and leaves under each group."""

    def __init__(self, name, groups, leaves):
        self.text = line("dimension", name) + line("node", 0, "All")
        self.nodes = [["All"], [], []]
        letter = name[0].lower()
        for group in range(groups):
            self.add(1, f"{letter}{group}")
            for leaf in range(leaves):
                self.add(2, f"{letter}{group}.{leaf}")

    def add(self, depth, name):
        self.text += line("node", depth, name)
        self.nodes[depth].append(name)


def schema(policy, measures, trees, views):
    text = line("cube", 1) + line("policy", policy)
    text += "".join(line("number", measure) for measure in measures)
    text += "".join(tree.text for tree in trees)
    text += "".join(line("view", f"v{i}", *depths) for i, depths in enumerate(views))
    return text + line("end")


def covers():
    place, time = Tree("Place", 512, 2), Tree("Time", 256, 0)
    yield schema("count", [], [place, time], [(0, 0)])
    groups, leaves, times = place.nodes[1], place.nodes[2], time.nodes[1]
    count = len(groups) * len(times)
    for i in range(count):
        yield line("insert", i + 1, groups[i // 256], times[i % 256])
    for i in range(count):
        yield line("insert", count + i + 1, leaves[i // 256 * 2], times[i % 256])
    for i in reversed(range(count)):
        yield line("withdraw", count + i + 1)
    yield line("terms", "All", "All")


def precise(draws, count, dims):
    for i in range(1, count + 1):
        yield line("insert", i, *(draws.pick(dim.nodes[2]) for dim in dims), draws.below(1000))


def million():
    dims = Tree("Place", 32, 32), Tree("Time", 4, 13)
    yield schema("count", ["Amount"], dims, [])
    yield from precise(Draws(1), 1_000_000, dims)


def edits(facts, count):
    """Facts in 256 cells, each of which has some, with three imprecise ones above them; and changes of the precise facts."""

    def make():
        dims = Tree("Place", 4, 4), Tree("Time", 4, 4)
        draws = Draws(2)
        yield schema("count", ["Amount"], dims, [])
        for i, region in enumerate((("p0", "All"), ("All", "t1"), ("p2", "t2"))):
            yield line("insert", facts - i, *region, 1)
        yield from precise(draws, facts - 3, dims)
        for _ in range(count):
            yield line("change", draws.below(facts - 3) + 1, *(draws.pick(dim.nodes[2]) for dim in dims), 7)

    return make


def mixed(views, questions, depths, asked=()):
    """A mixed cube, then questions of regions at these depths, then these lines."""

    def make():
        dims = Tree("Place", 8, 8), Tree("Time", 4, 13), Tree("Kind", 6, 10)
        draws = Draws(3)
        yield schema("count", ["Amount"], dims, views)

        def fact():
            at = [2, 2, 2]
            if draws.below(10) == 0:
                at[draws.below(3)] = 1
            return [*(draws.pick(dim.nodes[depth]) for dim, depth in zip(dims, at)), draws.below(1000)]

        there = []
        for i in range(1, 100_001):
            yield line("insert", i, *fact())
            there.append(i)
            if i % 10 == 0:
                yield line("change", draws.pick(there), *fact())
            if i % 20 == 0:
                k = draws.below(len(there))
                there[k], there[-1] = there[-1], there[k]
                yield line("withdraw", there.pop())
        for _ in range(questions):
            yield line("terms", *(draws.pick(dim.nodes[depth]) for dim, depth in zip(dims, depths)))
        yield from asked

    return make


def refused():
    dims = Tree("Place", 8, 8), Tree("Time", 4, 13)
    yield schema("count", ["Amount"], dims, [])
    for i in range(1_000_000):
        yield line("insert", i + 1, "p0.0", "nowhere", 5)


DRILL = 100_000


def run(words, source, sink):
    """Seconds of a processor and megabytes of a run."""
    with open(source) as given, open(sink, "w") as taken:
        child = subprocess.Popen(words, stdin=given, stdout=taken)
        size = 0.0
        # What the system tells of a child that ended counts what its parent had when it began.
        while os.waitid(os.P_PID, child.pid, os.WEXITED | os.WNOWAIT | os.WNOHANG) is None:
            size = max(size, peak_of(child.pid))
            time.sleep(0.01)
        _, status, usage = os.wait4(child.pid, 0)
    if os.waitstatus_to_exitcode(status) not in (0, 1):
        sys.exit(f"{words[0]} ended with status {os.waitstatus_to_exitcode(status)}")
    return usage.ru_utime + usage.ru_stime, size


def peak_of(pid):
    """The most megabytes that a process has had so far."""
    try:
        with open(f"/proc/{pid}/status", encoding="ascii") as status:
            found = [line.split()[1] for line in status if line.startswith("VmHWM:")]
    except OSError:
        return 0.0
    return int(found[0]) / 1024 if found else 0.0


class Bench:
    def __init__(self, runs, programs, folder):
        self.runs, self.programs, self.folder = runs, programs, folder

    def measure(self, make):
        """Per program, median seconds and megabytes; what is printed must be the same."""
        script = os.path.join(self.folder, "script")
        with open(script, "w") as text:
            text.writelines(make())
        printed, results = set(), []
        for program in self.programs:
            sink = os.path.join(self.folder, "printed")
            run([program, "try"], script, sink)
            with open(sink, "rb") as text:
                printed.add(hashlib.sha256(text.read()).hexdigest())
            taken = [run([program, "try"], script, os.devnull) for _ in range(self.runs)]
            results.append((statistics.median(s for s, _ in taken), max(m for _, m in taken)))
        if len(printed) > 1:
            sys.exit("the programs print other texts")
        return results

    def drill(self, number):
        """The same of the drill of a number of facts, which reads nothing."""
        printed, results = set(), []
        for program in self.programs:
            words, sink = [program, "drill", str(number)], os.path.join(self.folder, "printed")
            taken = [run(words, os.devnull, sink) for _ in range(self.runs)]
            with open(sink, "rb") as text:
                printed.add(text.read())
            results.append((statistics.median(s for s, _ in taken), max(m for _, m in taken)))
        if len(printed) > 1:
            sys.exit("the programs print other texts")
        return results

    def job(self, name, make):
        self.tell(name, self.measure(make))

    def tell(self, name, results):
        text = "   ".join(f"{seconds:8.3f} s {size:7.1f} MB" for seconds, size in results)
        ratio = f"   {results[0][0] / results[1][0]:6.1f} times" if len(results) > 1 else ""
        print(f"{name:28} {text}{ratio}", flush=True)

    def each(self, name, many, few, count):
        """Microseconds of one of the lines that a script has more than another."""
        a, b = self.measure(many), self.measure(few)
        text = "   ".join(f"{(x[0] - y[0]) / count * 1e6:8.2f} µs" for x, y in zip(a, b))
        print(f"{name:28} {text}", flush=True)


def main(runs, *programs):
    with tempfile.TemporaryDirectory() as folder:
        bench = Bench(int(runs), programs, folder)
        bench.tell("drill", bench.drill(DRILL))
        bench.job("covers", covers)
        bench.job("million", million)
        bench.each("an edit at 2^10 facts", edits(2**10, 20_000), edits(2**10, 0), 20_000)
        bench.each("an edit at 2^20 facts", edits(2**20, 20_000), edits(2**20, 0), 20_000)
        bench.job("mixed", mixed([], 0, ()))
        bench.job("mixed, a view, 2,000 terms", mixed([(1, 1, 1)], 2_000, (1, 1, 0)))
        bench.each("a terms that no view serves", mixed([], 2_000, (1, 2, 0)), mixed([], 0, ()), 2_000)
        bench.job("refused", refused)


if __name__ == "__main__":
    want_words(2, __doc__)
    main(*sys.argv[1:])
