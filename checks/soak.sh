#!/usr/bin/env bash
# `run` again and again for so many minutes, over generated scenarios with cuts, throttles, fast kinds and one to four centers, over
# the loopback alone, beside a loop that takes the processors away; each report is compared with what is known beforehand. Prints how
# many runs, messages and cuts there were, and the longest run, and fails on the first difference, whose scenario it keeps.
#
# usage: checks/soak.sh MINUTES [SEED]     (the program must be built: ./msgr2 builds it)
set -eu
top=$(cd "$(dirname "${BASH_SOURCE[0]}")/.." && pwd)
exec python3 "$top/checks/soak.py" "${PROGRAM:-$top/crates/msgr2/out/msgr2}" "$@"
