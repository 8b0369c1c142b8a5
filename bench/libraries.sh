#!/usr/bin/env bash
# Times large tasks of the libraries: bench/libraries.sh [RUNS]
#
# Each row is the least of RUNS runs (5 where not given) of the program `library_bench`, in milliseconds of a clock and of a
# processor, which other work on the machine sways less. What the program does before its task is left out: a run with the
# task done once, or for fewer facts, is taken off. What the program prints is checked.
#
# The program is no crate of the gate: its sources stand in bench/library_bench, each with `.txt` behind its name. They are
# proved and built first, in a scratch folder whose other crates are links to those of this checkout.
set -euo pipefail

readonly LINE='library_bench: anyhow cube_base cube_model dim_tree group_sum exact_fraction region_algebra staged_map fact_records cell_weight alloc_rows'

runs=${1:-5}
top=$(cd -- "$(dirname -- "$0")/.." && pwd -P)
scratch=$(mktemp -d)
trap 'rm -rf -- "$scratch"' EXIT

crate=$scratch/crates/library_bench
mkdir -p "$crate"
ln -s "$top"/crates/* "$scratch/crates/"
cp "$top/HANDLES" "$scratch/"
{ cat "$top/crates.txt"; printf '%s\n' "$LINE"; } >"$scratch/crates.txt"
cp -r "$top/bench/library_bench/." "$crate"
find "$crate" -name '*.txt' -exec sh -c 'for file; do mv "$file" "${file%.txt}"; done' sh {} +

(cd "$crate" && rt run -- evenly 2 16 8 4) >/dev/null
python3 "$top/bench/libraries.py" "$crate/out/library_bench" "$runs"
