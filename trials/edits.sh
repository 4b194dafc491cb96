#!/usr/bin/env bash
# Tries the wrong edits of the crates that the gate leaves out: the prover has to refuse each.
#
#     trials/edits.sh [--all] [--oldest N] [--jobs N] [--top FOLDER] [NAME ..]
#
# It tries those in crates/NAME/wrong of the crates that are named, or of all, and with --all those in crates/NAME/must-fail too,
# in a scratch clone of what is committed here. That is built from nothing; with --top the libraries that stand proved in the
# checkout FOLDER are taken from there, where they were built of the same sources. N crates are at work side by side; without it as
# many as there are processors and memory for. The last line is `N passed, M failed`, and the status is 0 only where every edit was
# refused. It needs Python 3.11 or later.
#
# edits_state.csv beside this file keeps for each edit that was refused the commit and the day of its last trial. With --oldest no
# more than N edits are tried: those without a line there, and then those with the oldest day.
here=$(cd "$(dirname "$(readlink -f "$0")")" && pwd)
if ! python3 -c 'import sys; sys.exit(sys.version_info < (3, 11))' 2>/dev/null; then
    echo "edits.sh: it needs Python 3.11 or later" >&2
    exit 2
fi
exec python3 -B "$here/edits.py" "$@"
