#!/usr/bin/env bash
# Runs each recipe of docs/RECIPES.md, and makes each report of the folder reports, and compares what is printed with
# what stands there.
#
#     examples/recipes.sh [PROGRAM [PICTURES]]
#     examples/recipes.sh --write PROGRAM
#
# PROGRAM is the built program; where it is not given, that of this repository, proved and built first where that is
# needed. The pictures are left in the folder PICTURES, where one is given. The second form puts what is printed today into
# the document and into the reports, and its pictures into docs/pictures. Besides the program this needs awk, python3 and,
# for pictures, gnuplot: where that isn't there, each recipe that draws one is named and left out. A recipe that differs is
# shown; the last line is `N recipes, M differ`, and behind it how many were left out, if any. The status is 0 only where
# nothing differs.
set -u
export LC_ALL=C
here=$(cd "$(dirname "$0")" && pwd)
document=$here/../docs/RECIPES.md

# The remark above, which says how this is called.
usage() {
    sed -n '2,/^[^#]/{ /^#/s/^# \{0,1\}//p; }' "$0"
}

write=false
case ${1:-} in
    --help | -h) usage; exit ;;
    --write) write=true; shift ;;
esac
case $#${1:-} in
    0 | [12][!-]*) ;;
    *) usage >&2; exit 2 ;;
esac
[ $# -gt 0 ] || "$here/../gicstudy" --prove || exit
program=$(readlink -f "${1:-$here/../crates/gicstudy/out/gicstudy}")
pictures=${2:-}
if "$write"; then
    pictures=$here/../docs/pictures
fi
scratch=$(mktemp -d)
trap 'rm -rf "$scratch"' EXIT
mkdir "$scratch/bin" "$scratch/work" "$scratch/recipes"
ln -s "$program" "$scratch/bin/gicstudy"
PATH=$scratch/bin:$PATH
cp -r "$here"/*.toml "$here"/*.csv "$here/tables" "$here/recipes" "$scratch/work"
ln -s "$here/reports" "$scratch/work/reports"

# A block of commands, marked sh, is a recipe; the block marked text behind it is what it has to print.
awk -v folder="$scratch/recipes" '
    /^#/ { title = $0; gsub(/^#+ /, "", title) }
    /^```sh$/ { file = sprintf("%s/%02d.sh", folder, ++recipe); print title >(folder "/" sprintf("%02d", recipe) ".title"); next }
    /^```text$/ { file = sprintf("%s/%02d.expected", folder, recipe); printf "" >file; next }
    /^```/ { file = ""; next }
    file { print >file }' "$document"

# Runs what stands behind the first two words, in the folder of the work, and compares what it prints.
compare() {
    local title=$1 expected=$2 printed
    shift 2
    printed=$scratch/printed
    (cd "$scratch/work" && "$@") >"$printed" 2>&1 </dev/null
    if "$write"; then
        cp "$printed" "$expected"
    elif ! diff "$expected" "$printed" >"$scratch/differ"; then
        echo "$title: it differs (<: expected, >: printed)"
        cat "$scratch/differ"
        return 1
    fi
}

differing_reports=0 reports=0
while read -r name words; do
    reports=$((reports + 1))
    # The words hold no blanks and no patterns.
    # shellcheck disable=SC2086
    compare "reports/$name.txt" "$here/reports/$name.txt" gicstudy $words || differing_reports=$((differing_reports + 1))
done <"$here/reports/words.txt"

differing=0 recipes=0 left_out=0
for recipe in "$scratch"/recipes/*.sh; do
    recipes=$((recipes + 1))
    if grep -q '^gnuplot ' "$recipe" && ! command -v gnuplot >/dev/null; then
        left_out=$((left_out + 1))
        echo "$(cat "${recipe%.sh}.title"): left out, since gnuplot isn't there"
        continue
    fi
    compare "$(cat "${recipe%.sh}.title")" "${recipe%.sh}.expected" sh -eu "$recipe" || differing=$((differing + 1))
done

if "$write"; then
    awk -v folder="$scratch/recipes" '
        /^```sh$/ { recipe++ }
        /^```/ { skipped = 0 }
        !skipped { print }
        /^```text$/ { file = sprintf("%s/%02d.expected", folder, recipe); skipped = 1
                      while ((getline line <file) > 0) print line }' "$document" >"$scratch/document"
    cp "$scratch/document" "$document"
fi
if [ -n "$pictures" ] && ls "$scratch"/work/*.png >/dev/null 2>&1; then
    mkdir -p "$pictures"
    cp "$scratch"/work/*.png "$pictures"
fi
echo "$reports reports, $differing_reports differ"
if [ "$left_out" = 0 ]; then
    echo "$recipes recipes, $differing differ"
else
    echo "$recipes recipes, $differing differ, $left_out left out"
fi
[ "$differing" = 0 ] && [ "$differing_reports" = 0 ]
