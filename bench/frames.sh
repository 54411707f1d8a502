#!/usr/bin/env bash
# Measures `msgr2 frames` on frames of one size a row, beside two small C programs that do the same.
set -eu
cd "$(dirname "${BASH_SOURCE[0]}")"
exec python3 frames.py "${1:-../crates/msgr2/out/msgr2}"
