#!/usr/bin/env bash
# Tells what the time of `msgr2 sim` goes to, by perf (Debian's linux-perf).
set -eu
cd "$(dirname "${BASH_SOURCE[0]}")"
exec python3 shares.py "${1:-../crates/msgr2/out/msgr2}"
