#!/usr/bin/env bash
# Measures `msgr2 load` over growing numbers of posts, beside `msgr2 sim` over a file of the same lines.
set -eu
cd "$(dirname "${BASH_SOURCE[0]}")"
exec python3 load.py "${1:-../crates/msgr2/out/msgr2}"
