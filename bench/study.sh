#!/usr/bin/env bash
# Times `study` over the realistic case, twenty long loops, a made network of 2000 nodes and a network at every limit with
# 256 zones, and prints a table (bench/README.md says what its columns are).
#
#     bench/study.sh PROGRAM
#
# PROGRAM is the built program. It needs `python3` and `cc`, and a machine with nothing else to do.
set -eu
program=$(readlink -f "$1")
top=$(cd "$(dirname "$0")/.." && pwd)
scratch=$(mktemp -d)
trap 'rm -rf "$scratch"' EXIT
cc -O2 "$top/bench/baselines/superpose.c" -o "$scratch/superpose" -lm
python3 "$top/generators/solver_cases.py" "$top/crates/gic_examples/data/realistic.txt" "$scratch"
cd "$scratch"
python3 "$top/bench/study.py" "$program" ./superpose realistic.toml ps.toml made-2000.toml limit.toml
