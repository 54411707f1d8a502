#!/usr/bin/env bash
# Measures frame_facts, as lines and as JSON, beside `msgr2 frames` on frames of one size a row.
set -eu
cd "$(dirname "${BASH_SOURCE[0]}")"
exec python3 facts.py "${1:-../crates/frame_facts/out/frame_facts}" "${2:-../crates/msgr2/out/msgr2}"
