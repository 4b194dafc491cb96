#!/usr/bin/env bash
# Checks the reports of 300 random studies by a solver of another make.
#
#     bench/random_studies.sh CHECKER PROGRAM [SEED]
#
# PROGRAM is the built program. CHECKER is a command of yours, a path or several words in quotes, and is called as
# `CHECKER PROGRAM --cases DIR`. Each folder of DIR has a case `p`, a storm `t`, often a list of switchings `s`, and
# the file `words` with the words of one run, one word a line. CHECKER runs PROGRAM with these words in each folder,
# works out the status and each exact value by itself, and sees whether each interval of the report holds its value,
# is no wider than asked, and has the verdict that belongs to it: the detail block, the peaks, and the texts of the
# monitors. It ends with status 0 only where nothing was wrong, and so does this script.
#
# The studies are those of `generators/random_cases.py` for SEED (1), so the same ones each time: networks of at most 40 nodes,
# most of them solved, the others refused, over storms of up to twelve steps.
set -eu
if [ $# -lt 2 ]; then
    echo "usage: bench/random_studies.sh CHECKER PROGRAM [SEED]" >&2
    exit 2
fi
read -ra checker <<<"$1"
program=$(readlink -f "$2")
seed=${3:-1}
top=$(cd "$(dirname "$0")/.." && pwd)
scratch=$(mktemp -d)
trap 'rm -rf "$scratch"' EXIT
python3 "$top/generators/random_cases.py" "$scratch" 300 "$seed" 40 --mode=study
"${checker[@]}" "$program" --cases "$scratch"
