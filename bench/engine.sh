#!/usr/bin/env bash
# Times the built program on the main jobs of an engine, and beside it another program if one is named: bench/engine.sh [OTHER] [RUNS]
#
# OTHER is called as cube is: `OTHER try < script`, `OTHER drill N`. Of each job are printed the seconds of a processor (user and
# system) of the median of RUNS runs (3 where not given), the most memory, and how many times the other program's seconds these are. What
# both print is compared, byte for byte, before anything is timed. The jobs:
# - drill: the drill of 100,000 facts, a third of them withdrawn again, with a view;
# - covers: 512 regions of two cells each over 256 times: 131,072 imprecise inserts, as many precise ones below them, and the withdrawal of
#   these again, with a view of everything;
# - million: 1,000,000 precise inserts over two dimensions without a view;
# - one edit: the microseconds of one change of a precise fact to another cell, with 2^10 and with 2^20 facts;
# - mixed: 100,000 inserts over three dimensions, one in ten imprecise, a tenth as many changes, a twentieth as many withdrawals; the
#   same with a view and 2,000 `terms` that it serves; and the microseconds of a `terms` that no view serves;
# - refused: 1,000,000 lines that are refused.
# Last come the jobs of bench/questions.py, through the built program alone: tables, ends over worlds, rounds and components of large cubes.
set -euo pipefail

other=${1:-}
runs=${2:-3}
top=$(cd -- "$(dirname -- "$0")/.." && pwd -P)
"$top/cube" --build
python3 "$top/bench/engine.py" "$runs" "$top/crates/cube/out/cube" ${other:+"$other"}
exec python3 "$top/bench/questions.py" "$top/crates/cube/out/cube" "$runs"
