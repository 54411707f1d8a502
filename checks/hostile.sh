#!/usr/bin/env bash
# Random and changed bytes at the ports of nodes whose links carry messages, for so many seconds, over the loopback alone: what is
# dispatched stays right, each run ends by its limit, and its memory stays in its bound. Prints how many connections and bytes there
# were, and what the nodes answered.
#
# usage: checks/hostile.sh SECONDS [SEED]     (the program must be built: ./msgr2 builds it)
set -eu
top=$(cd "$(dirname "${BASH_SOURCE[0]}")/.." && pwd)
exec python3 "$top/checks/besiege.py" "${PROGRAM:-$top/crates/msgr2/out/msgr2}" "$@"
