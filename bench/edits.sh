#!/usr/bin/env bash
# Times edits on cubes of several sizes with the built program: bench/edits.sh [RUNS] [large]
#
# A cube has 64 cities in 8 states, 52 weeks in 4 quarters, and the measure Amount. Of the mixed facts 13 in 16 are precise,
# the others somewhere in a state, in a quarter, or in both. For each cube are printed
# - the seconds of a processor for its inserts, which other work on the machine sways less than those of a clock: the median of
#   RUNS runs (3 where not given, and 1 from 10,000 facts on);
# - the milliseconds of a processor of one edit more on the full cube, as the mean of many: changes of facts to other cells, and
#   withdrawals with the inserts that put the facts back;
# - the most memory, as it is read again and again, and, from 10,000 facts on, what that is for each fact and for each row above
#   a cube without facts.
# The replies to the inserts are checked against bench/plain_model.py for the smallest cube, and counted for the others. With `large`
# the cube of 100,000 precise facts is built too.
set -euo pipefail

runs=${1:-3}
top=$(cd -- "$(dirname -- "$0")/.." && pwd -P)
"$top/cube" --build
exec python3 "$top/bench/edits.py" "$top/crates/cube/out/cube" "$runs" ${2:+"$2"}
