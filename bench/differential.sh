#!/usr/bin/env bash
# Compares the built program with the plain model on random inputs: bench/differential.sh [CASES] [SEED]
#
# Worked examples and a dozen drills come first. There are 10,000 cases of seed 1 where nothing else is given. The program is built first where it has to be. The status
# is 1 where a case is answered otherwise; then its input is written to a file.
set -euo pipefail

cases=${1:-10000}
seed=${2:-1}
top=$(cd -- "$(dirname -- "$0")/.." && pwd -P)

"$top/cube" --build
exec python3 "$top/bench/differential.py" "$top/crates/cube/out/cube" "$cases" "$seed"
