#!/usr/bin/env bash
# Measures `msgr2 sim` over growing scenarios, beside a program that only splits the same file into words.
set -eu
cd "$(dirname "${BASH_SOURCE[0]}")"
exec python3 sim.py "${1:-../crates/msgr2/out/msgr2}"
