#!/usr/bin/env bash
# Measures `msgr2 sim` over rounds in which sockets never last.
set -eu
cd "$(dirname "${BASH_SOURCE[0]}")"
exec python3 redial.py "${1:-../crates/msgr2/out/msgr2}"
