#!/usr/bin/env bash
# Refuses each allocation of a run in turn, one a run: of `sim`, and of `run` over the loopback, each also with a standard error
# that takes nothing. Each run must end within its limit with status 9 and print nothing, with status 4 and print a prefix of the
# report, or with the right report and status; never with status 6; and it leaves no descriptor and no thread.
#
# usage: checks/allocations.sh [SCENARIO of sim [SCENARIO of run]]     (the program must be built: ./msgr2 builds it)
set -eu
top=$(cd "$(dirname "${BASH_SOURCE[0]}")/.." && pwd)
room=$(mktemp -d)
trap 'rm -rf "$room"' EXIT
${CC:-cc} -O1 -Wall -shared -fPIC -o "$room/refuse.so" "$top/checks/refuse.c" -ldl
python3 "$top/checks/allocations.py" "${PROGRAM:-$top/crates/msgr2/out/msgr2}" "$room/refuse.so" "$@"
