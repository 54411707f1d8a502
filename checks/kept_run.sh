#!/usr/bin/env bash
# Runs nodes on threads, over the loopback and over sockets between threads, and holds what is kept of each run against the
# definition of a kept run: a plain program, checks/kept_run.py, that knows docs/ and nothing of the crates. The program that runs
# them is built without a proof by tools/kept_run/build; KEPT_RUN names one that is built already.
#
# usage: checks/kept_run.sh [RUNS [SEED]]     so many scenarios made up from a seed, besides those that are always tried
set -eu
top=$(cd "$(dirname "${BASH_SOURCE[0]}")/.." && pwd)
program=${KEPT_RUN:-$("$top/tools/kept_run/build")}
python3 "$top/checks/kept_run.py" "$program" "$@"
