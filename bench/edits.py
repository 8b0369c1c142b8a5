"""The tables of bench/edits.sh: python3 bench/edits.py PROGRAM RUNS [large]"""
import contextlib
import itertools
import os
import re
import statistics
import sys
import tempfile
import time

sys.dont_write_bytecode = True

import plain_model
from calls import want_words


def mixed(n):
    """64 bits that look random, and the same in each run (SplitMix64)."""
    bits = 2**64 - 1
    n = (n + 1) * 0x9E3779B97F4A7C15 & bits
    n = (n ^ n >> 30) * 0xBF58476D1CE4E5B9 & bits
    n = (n ^ n >> 27) * 0x94D049BB133111EB & bits
    return n ^ n >> 31


def schema(policy):
    lines = ["cube\t1", f"policy\t{policy}", "number\tAmount", "dimension\tPlace", "node\t0\tAll"]
    for state in range(8):
        lines += [f"node\t1\ts{state}"] + [f"node\t2\ts{state}c{city}" for city in range(8)]
    lines += ["dimension\tTime", "node\t0\tAll"]
    for quarter in range(4):
        lines += [f"node\t1\tq{quarter}"] + [f"node\t2\tq{quarter}w{week}" for week in range(13)]
    return lines + ["end"]


def place_of(n, precise):
    """The fields of a fact behind its id."""
    bits = mixed(n)
    city, week, kind, amount = bits % 64, bits // 64 % 52, bits // 4096 % 16, bits // 65536 % 1000
    state, quarter = f"s{city // 8}", f"q{week // 13}"
    place, span = f"{state}c{city % 8}", f"{quarter}w{week % 13}"
    if not precise:
        place = state if kind in (0, 2) else place
        span = quarter if kind in (1, 2) else span
    return f"{place}\t{span}\t{amount}"


def run_seconds(child):
    """The seconds that a processor has spent on a child."""
    with open(f"/proc/{child}/schedstat") as counts:
        return int(counts.read().split()[0]) / 1e9


def most_kilobytes(child):
    """The most kilobytes that a child has had; None where it is ending."""
    with open(f"/proc/{child}/status") as status:
        found = re.search(r"VmHWM:\s+(\d+)", status.read())
    return int(found.group(1)) if found else None


def watched(child, sink):
    """The most kilobytes of a child, and how many bytes it had written after how many seconds of a processor."""
    most, steps, start = 0, [(0, 0.0)], time.monotonic()
    while os.waitid(os.P_PID, child, os.WEXITED | os.WNOWAIT | os.WNOHANG) is None:
        written = os.fstat(sink.fileno()).st_size
        if written > steps[-1][0]:
            steps.append((written, run_seconds(child)))
        most = most_kilobytes(child) or most
        time.sleep(0.001 if time.monotonic() - start > 0.1 else 0)
    return most, steps


def measured(program, parts):
    """The seconds of a processor that each part of a script takes, the most kilobytes, and what was printed."""
    text = "".join(line + "\n" for part in parts for line in part).encode()
    with tempfile.TemporaryFile() as source, tempfile.TemporaryFile() as sink:
        source.write(text)
        source.seek(0)
        child = os.posix_spawn(program, [program, "try"], os.environ,
                               file_actions=[(os.POSIX_SPAWN_DUP2, source.fileno(), 0), (os.POSIX_SPAWN_DUP2, sink.fileno(), 1)])
        kilobytes, steps = watched(child, sink)
        _, status, used = os.wait4(child, 0)
        steps.append((os.fstat(sink.fileno()).st_size, used.ru_utime + used.ru_stime))
        sink.seek(0)
        printed = sink.read().splitlines(keepends=True)
    status = os.waitstatus_to_exitcode(status)
    if status != 0 or len(printed) != sum(map(len, parts[1:])):
        sys.exit(f"bench: a run ended with status {status} and {len(printed)} replies")
    ends = [0, *itertools.accumulate(map(len, printed))]
    taken, lines = [], 0
    for part in parts[1:]:
        start = max(used for written, used in steps if written <= ends[lines])
        lines += len(part)
        taken.append(next((used for written, used in steps if written > ends[lines]), steps[-1][1]) - start)
    return taken, kilobytes, printed


def middle(program, parts, times):
    """The median of the seconds for each part, the most kilobytes, and the replies, of so many runs."""
    all_runs = [measured(program, parts) for _ in range(times)]
    return [statistics.median(used) for used in zip(*(r[0] for r in all_runs))], max(r[1] for r in all_runs), all_runs[0][2]


def full_pipe():
    """The ends of a pipe that has no room left, so that whoever writes to it waits."""
    reader, writer = os.pipe()
    os.set_blocking(writer, False)
    with contextlib.suppress(BlockingIOError):
        while True:
            os.write(writer, bytes(1024))
    os.set_blocking(writer, True)
    return reader, writer


def state(child):
    """The letter for what a child does: S where it waits."""
    with open(f"/proc/{child}/stat") as stat:
        return stat.read().rpartition(")")[2].split()[0]


def empty_kilobytes(program, policy):
    """The most kilobytes of a cube without facts, read while it waits to write the reply to its one question."""
    reader, writer = full_pipe()
    with tempfile.TemporaryFile() as source:
        source.write("".join(line + "\n" for line in [*schema(policy), "rows\t1"]).encode())
        source.seek(0)
        child = os.posix_spawn(program, [program, "try"], os.environ,
                               file_actions=[(os.POSIX_SPAWN_DUP2, source.fileno(), 0), (os.POSIX_SPAWN_DUP2, writer, 1)])
        os.close(writer)
        while any(state(child) != "S" or time.sleep(0.01) for _ in range(10)):
            pass
        most = most_kilobytes(child)
    with open(reader, "rb") as printed:
        printed.read()
    os.waitpid(child, 0)
    return most


def row(program, runs, policy, what, facts, with_edits):
    """Between the parts stand questions, whose replies are so many that those to all lines before are written."""
    precise, times = what == "precise", runs if facts < 10_000 else 1
    ids = [1 + n % facts for n in range(max(200_000 // facts, facts // 10))]
    inserts = [f"insert\t{n}\t{place_of(n, precise)}" for n in range(1, facts + 1)]
    changes = [f"change\t{id}\t{place_of(n + facts, precise)}" for n, id in enumerate(ids)]
    moves = [line for id in ids for line in (f"withdraw\t{id}", f"insert\t{id}\t{place_of(id, precise)}")]
    rows = [f"rows\t{n}" for n in range(1, facts + 1)]
    questions = [f"rows\t{next(n for n in range(1, facts + 1) if precise or mixed(n) // 4096 % 16 > 2)}"] * 4096
    parts = [schema(policy), inserts, questions, rows, questions]
    parts += [changes, questions, moves, questions] if with_edits else []
    used, kilobytes, replies = middle(program, parts, times)
    if facts == 100 and plain_model.run(["try"], "\n".join([*parts[0], *inserts, ""]).encode())[0] != b"".join(replies[:facts]):
        sys.exit("bench: the model has other replies")
    first = facts + len(questions)
    number = sum(int(reply.split(b"\t")[2]) for reply in replies[first : first + facts])
    edits = ["-", "-"]
    if with_edits:
        edits = [f"{1000 * used[k] / len(parts[k + 1]):.3f}" for k in (4, 6)]
    each = ["-", "-"]
    if facts >= 10_000:
        memory = 1024 * (kilobytes - empty_kilobytes(program, policy))
        each = [f"{memory / n:.0f}" for n in (facts, number)]
    print(f"| {policy:7} | {what:7} | {facts:6} | {number:7} | {used[0]:9.2f} | {edits[0]:>9} | {edits[1]:>19} "
          f"| {kilobytes / 1024:6.1f} | {each[0]:>8} | {each[1]:>7} |", flush=True)


def main():
    want_words(2, __doc__)
    program, runs, large = sys.argv[1], int(sys.argv[2]), sys.argv[3:] == ["large"]
    print("| policy  | facts   | number | rows    | inserts s | change ms | withdraw, insert ms | MiB    | B a fact | B a row |")
    print("|---------|---------|-------:|--------:|----------:|----------:|--------------------:|-------:|---------:|--------:|")
    for policy in "uniform", "count":
        for facts in 100, 1000, 10000:
            row(program, runs, policy, "mixed", facts, True)
    row(program, runs, "uniform", "precise", 10000, True)
    if large:
        row(program, runs, "uniform", "precise", 100000, False)


if __name__ == "__main__":
    main()
