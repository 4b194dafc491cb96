#!/usr/bin/env bash
# Runs the tests of the desk.
#
#     desk/test.sh [PROGRAM]
#
# PROGRAM is a built program for the tests that need one, and has to be there; where it is not given, the one in
# crates/gicstudy/out. Where there is none in it these tests are left out, and the number of them is told. The last line is
# `N passed, M failed`, and the status is 0 only where M is 0. It needs Python 3.11 or later.
set -eu
here=$(cd "$(dirname "$(readlink -f "$0")")" && pwd)
if [ "$#" != 0 ]; then
    if ! { [ -f "$1" ] && [ -x "$1" ]; }; then
        echo "test.sh: there is no program $1" >&2
        exit 2
    fi
    GICSTUDY=$(readlink -f "$1")
    export GICSTUDY
fi
exec python3 -B "$here/tests/run.py"
