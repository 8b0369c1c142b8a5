"""The tasks of bench/libraries.sh: python3 bench/libraries.py LIBRARY_BENCH RUNS"""
import math
import os
import resource
import subprocess
import sys
import time
from fractions import Fraction

from calls import want_words

want_words(2, __doc__)
PROGRAM, RUNS = sys.argv[1], int(sys.argv[2])


def once(words, reply, text):
    """The milliseconds of a run over a text, and those of a processor. The run must print the reply, where one is given."""
    used = resource.getrusage(resource.RUSAGE_CHILDREN)
    start = time.monotonic()
    printed = subprocess.run([PROGRAM, *map(str, words)], check=True, capture_output=True, text=True, input=text).stdout
    seconds = time.monotonic() - start
    now = resource.getrusage(resource.RUSAGE_CHILDREN)
    if reply is not None and printed != f"{reply[0]} {reply[1]}\n":
        sys.exit(f"bench: {words} prints {printed}")
    return 1000 * seconds, 1000 * (now.ru_utime - used.ru_utime + now.ru_stime - used.ru_stime)


def least(words, reply, text=""):
    """The least milliseconds of the runs, and the least of a processor."""
    return [min(times) for times in zip(*(once(words, reply, text) for _ in range(RUNS)))]


def row(task, before, after, times):
    """Prints what one of so many times takes, by runs before and after."""
    clock, processor = ((b - a) / times for a, b in zip(least(*before), least(*after)))
    print(f"| {task:52} | {clock:9.1f} | {processor:9.1f} |")


def peak(words, reply):
    """The most bytes that a run holds at once. The run must print the reply."""
    run = subprocess.Popen([PROGRAM, *map(str, words)], stdin=subprocess.DEVNULL, stdout=subprocess.PIPE, text=True)
    printed = run.stdout.read()
    _, status, used = os.wait4(run.pid, 0)
    if status != 0 or printed != f"{reply[0]} {reply[1]}\n":
        sys.exit(f"bench: {words} ends with {status} and prints {printed}")
    return 1024 * used.ru_maxrss


def memory(order, puts):
    """Prints how many bytes a fact of a list takes, by what a run without facts holds and one with so many."""
    each = (peak((order, puts, 0), left(order, puts, 0)) - peak((order, 0, 0), (0, 0))) / puts
    print(f"| {f'bytes a fact of {puts}, ids {order}':52} | {each:9.1f} | {'':9} |")


def cells(shape):
    total = math.prod(shape)
    reply = (total, total * (total - 1) // 2)
    row(f"walk {' x '.join(map(str, shape))} cells", (("cells", 1, *shape), reply), (("cells", 11, *shape), reply), 10)


def allocations(word, what, shape):
    total = math.prod(shape)
    row(f"allocate {' x '.join(map(str, shape))} cells, {what}", ((word, 1, *shape), (total, total)), ((word, 4, *shape), (total, total)), 3)


IDS = 2**20
FACTOR = {"ascending": 1, "shuffled": 700_001}


def left(order, puts, takes):
    ids = [1 + place * FACTOR[order] % IDS for place in range(takes, puts)]
    return len(ids), sum(ids)


def facts(order, puts, takes):
    none, put, taken = ((order, n, m) for n, m in ((0, 0), (puts, 0), (puts, takes)))
    row(f"put {puts} facts, ids {order}", (none, (0, 0)), (put, left(order, puts, 0)), 1)
    row(f"take {takes} of them, in the same order", (put, left(order, puts, 0)), (taken, left(order, puts, takes)), 1)


def divisors(primes, most):
    """The divisors, at most so large, of the product of these powers of primes, ascending."""
    found = [1]
    for prime, power in primes.items():
        found = [d * prime**k for d in found for k in range(power + 1) if d * prime**k <= most]
    return sorted(found)


UNIT = 10**9
SCALE = 7


def seen(lo, hi, num=0, den=0):
    """What the program prints of bounds and a fraction, none of which is below 0."""
    return (lo + hi + num + den) % 2**64


def seen_fraction(f):
    return seen(math.floor(f * UNIT), math.ceil(f * UNIT), f.numerator, f.denominator)


def fractions(what, dens, exact):
    """Sums 1 over each number, and divides this count by itself and a scale."""
    lo, hi = sum(UNIT // den for den in dens), sum(-(-UNIT // den) for den in dens)
    if exact:
        common = math.lcm(*dens)
        total = seen_fraction(Fraction(sum(common // den for den in dens), common))
        quotient = seen_fraction(Fraction(1, SCALE))
    else:
        total = seen(lo, hi)
        quotient = seen(lo * UNIT // (hi * SCALE), -(-hi * UNIT // (lo * SCALE)))
    text = "".join(f"{den}\n" for den in dens)
    for word, what_done, number in ("fractions", "sum", total), ("quotients", "divide", quotient):
        done = len(dens), number
        row(f"{what_done} 1 over {len(dens)} numbers, {what}", ((word, 1), done, text), ((word, 4), done, text), 3)


def groups(what, dens):
    text = "".join(f"{den}\n" for den in dens)
    done = len(dens), max(dens)
    for word, how in ("terms", ""), ("shares", " at once"):
        row(f"group{how} 1 over {len(dens)} numbers, {what}", ((word, 1), done, text), ((word, 4), done, text), 3)


def main():
    print(f"| {'task':52} | {'clock':>9} | {'processor':>9} |")
    print(f"|{'-' * 54}|----------:|----------:|")
    for shape in [1024, 1024], [1024, 1024, 1], [16, 65535], [16, 16, 16, 16, 16]:
        cells(shape)
    allocations("evenly", "none with facts", [1024, 1024])
    allocations("weighed", "each weighing 1", [1024, 1024])
    for order in "ascending", "shuffled":
        for puts in 250_000, 500_000, 1_000_000:
            facts(order, puts, puts // 2)
    for order in "ascending", "shuffled":
        memory(order, 1_000_000)
    smooth = divisors({2: 12, 3: 8, 5: 5, 7: 4, 11: 3, 13: 2, 17: 2, 19: 1, 23: 1, 29: 1, 31: 1}, 2**60)
    groups("ascending", range(1, 10_001))
    groups("in no order", [1 + place * 7_001 % 10_007 for place in range(10_000)])
    for count in 10_000, 25_000, 50_000, 100_000:
        fractions("in one fraction", smooth[:count], True)
        fractions("too wide for one", range(1, count + 1), False)


if __name__ == "__main__":
    main()
