#!/usr/bin/env bash
# Feeds from one store to another, through the built program and the plain model: bench/feeds.sh [CASES] [SEED] [KILLED]
#
# Random leaders, whose feeds are followed whole, cut and damaged, and followers that are killed. It wants Python with its sqlite3 module.
set -euo pipefail

top=$(cd -- "$(dirname -- "$0")/.." && pwd -P)
"$top/cube" --build
python3 "$top/bench/feeds.py" "$top/crates/cube/out/cube" "${1:-300}" "${2:-1}"
python3 "$top/bench/killed.py" "$top/crates/cube/out/cube" "${3:-200}" "${2:-1}" follow
