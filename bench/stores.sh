#!/usr/bin/env bash
# Stores in files, through the built program and through SQLite: bench/stores.sh [CASES] [SEED] [KILLED]
#
# Random scripts in pieces, stores that SQLite made, damaged ones, sums over their rows, and runs that are killed. It wants Python with its
# sqlite3 module, and SQLite's shell.
set -euo pipefail

top=$(cd -- "$(dirname -- "$0")/.." && pwd -P)
"$top/cube" --build
python3 "$top/bench/stores.py" "$top/crates/cube/out/cube" "${1:-300}" "${2:-1}"
python3 "$top/bench/row_sums.py" "$top/crates/cube/out/cube" "${1:-300}" "${2:-1}"
python3 "$top/bench/killed.py" "$top/crates/cube/out/cube" "${3:-200}" "${2:-1}"
