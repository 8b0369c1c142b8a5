#!/usr/bin/env bash
# Runs scripts with each of the built program's requests for memory refused in turn: bench/refused_memory.sh [INPUT..]
#
# A run must end as if nothing was refused, or with status 9, `cube: out of memory after line D` on standard error and a part of the right
# output that holds the replies before the last of D lines. A feed is followed, and the store must then hold D batches. It wants a C compiler
# (cc). Where no input is named, those of examples/ are taken, the stored run, and growths.txt.
set -euo pipefail

top=$(cd -- "$(dirname -- "$0")/.." && pwd -P)
folder=$(mktemp -d)
trap 'rm -rf -- "$folder"' EXIT
"$top/cube" --build
cc -O1 -shared -fPIC -o "$folder/refuse.so" "$top/bench/refuse.c"
if [ $# -eq 0 ]; then
    examples=("$top"/examples/repairs{,_evenly}.txt "$top"/examples/{weeks/weeks,patients/patients}.txt "$top"/examples/weeks/weeks.feed)
    set -- "$top/crates/cube/stdin" "${examples[@]}" "$top/bench/growths.txt"
fi
python3 "$top/bench/refused_memory.py" "$top/crates/cube/out/cube" "$folder/refuse.so" "$@"
