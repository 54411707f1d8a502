#!/usr/bin/env bash
# Refuses the k-th call of the system of each kind that `run` makes over the loopback, for each k from 1 to 20, one a run: three
# nodes that post to each other over sockets that are cut. A node that can't listen is told; one for which there is no means of
# waiting stays alone, and the run ends by its limit; every other refusal is made up for, and the report is whole. No run ends with
# status 6, and none leaves a descriptor or a thread.
#
# usage: checks/calls.sh [KIND..]     (the program must be built: ./msgr2 builds it)
set -eu
top=$(cd "$(dirname "${BASH_SOURCE[0]}")/.." && pwd)
room=$(mktemp -d)
trap 'rm -rf "$room"' EXIT
${CC:-cc} -O1 -Wall -shared -fPIC -o "$room/refuse.so" "$top/checks/refuse.c" -ldl
python3 "$top/checks/calls.py" "${PROGRAM:-$top/crates/msgr2/out/msgr2}" "$room/refuse.so" "$@"
