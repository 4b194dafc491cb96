#!/usr/bin/env bash
# Runs what the documents show, and compares what is printed with what stands there.
#
#     examples/documents.sh [--write] [PROGRAM]
#
# PROGRAM is the built program; where it is not given it is that of this repository, proved and built first where that is
# needed. With --write what is printed is put into the documents. `documents.py` says how a block of a document is tied
# to a command. The last line is `N blocks, M differ`, and the status is 0 only where M is 0. It needs bash and Python 3.11
# or later.
set -eu
here=$(cd "$(dirname "$(readlink -f "$0")")" && pwd)

# The remark above, which says how this is called.
usage() {
    sed -n '2,/^[^#]/{ /^#/s/^# \{0,1\}//p; }' "$0"
}

write=
case ${1:-} in
    --help | -h) usage; exit ;;
    --write) write=--write; shift ;;
esac
case $#${1:-} in
    0 | 1[!-]*) ;;
    *) usage >&2; exit 2 ;;
esac
[ $# -gt 0 ] || "$here/../gicstudy" --prove
program=$(readlink -f "${1:-$here/../crates/gicstudy/out/gicstudy}")
exec python3 -B "$here/documents.py" $write "$program"
