#!/usr/bin/env bash
# Builds the program of bench/solver over the crates of this repository, in a scratch copy, runs it on fourteen cases, and
# prints a table, and below it how much memory the two proposers take. Beside them it runs the solvers of bench/baselines
# for which the tools are installed.
#
#     bench/solver.sh [FOLDER]
#
# FOLDER is the scratch copy; where it is not given, one is made and taken away. It needs the commands `rt` and
# `python3`, and a quarter of an hour, since it proves what it builds. The machine should have nothing else to do.
set -eu
# The baselines run on one thread, as the solver does; with more, CHOLMOD's threads only wait for one another here.
export OMP_NUM_THREADS=1 OMP_THREAD_LIMIT=1
top=$(cd "$(dirname "$0")/.." && pwd)
bench=$top/bench
if [ $# -gt 0 ]; then
	scratch=$1
	mkdir -p "$scratch"
else
	scratch=$(mktemp -d)
	trap 'rm -rf "$scratch"' EXIT
fi
binary=$scratch/crates/gic_bench/out/gic_bench

if [ ! -x "$binary" ]; then
	tar -C "$top" --exclude=out -cf - crates crates.txt HANDLES | tar -C "$scratch" -xf -
	python3 "$bench/solver/make_crate.py" "$scratch"
	(cd "$scratch/crates/gic_bench" && rt run >/dev/null)
fi
python3 "$top/generators/solver_cases.py" "$top/crates/gic_examples/data/realistic.txt" "$scratch"

# A baseline that can't be built or run has no figure.
cc -O2 "$bench/baselines/direct.c" -o "$scratch/direct" -lcholmod -lm 2>/dev/null || true
cc -O2 "$bench/baselines/ball.c" -o "$scratch/ball" -lflint-arb -lflint 2>/dev/null || true
baseline() {
	figure=$("$@" 2>/dev/null | grep -E '^[0-9]+$') || figure=-
	echo "$figure"
}

cases=(p realistic ps made-20 made-200 made-2000 row chain grid grid-far grid-units limit far-small far)
for name in "${cases[@]}"; do
	measures=$("$binary" "$scratch/$name.toml")
	"$binary" network "$scratch/$name.toml" >"$scratch/$name.net"
	direct=$(baseline "$scratch/direct" "$scratch/$name.net")
	ball=- interval=-
	if [ "$(head -n 1 "$scratch/$name.net")" -le 200 ]; then
		ball=$(baseline "$scratch/ball" "$scratch/$name.net")
		interval=$(baseline octave --no-gui --quiet "$bench/baselines/interval.m" "$scratch/$name.net")
	fi
	echo "case $name $measures direct $direct ball $ball interval $interval"
done | tee "$scratch/figures.txt" | python3 "$bench/table.py"
[ "$(wc -l <"$scratch/figures.txt")" = "${#cases[@]}" ] || exit 1

# The peak of memory of a run, in KiB.
peak() {
	python3 - "$@" <<'END'
import resource, subprocess, sys
subprocess.run(sys.argv[1:], stdout=subprocess.DEVNULL, check=True)
print(resource.getrusage(resource.RUSAGE_CHILDREN).ru_maxrss)
END
}
few=$(peak "$binary" proposers=20 "$scratch/limit.toml")
many=$(peak "$binary" proposers=60 "$scratch/limit.toml")
echo
echo "memory of the two proposers at the limits, with the guesses of a solver: $(((many - few) / 40)) KiB"
