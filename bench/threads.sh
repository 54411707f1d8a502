#!/usr/bin/env bash
# Measures what threads cost. First part: take and give of a throttle, beside two small C programs.
# The program that it measures is proved and built in a folder of its own, from share_word/ and this repository's crates.
set -eu
cd "$(dirname "${BASH_SOURCE[0]}")"
room=$(mktemp -d)
trap 'rm -rf "$room"' EXIT
crate=$room/crates/share_word
mkdir -p "$crate/src" "$crate/proofs/take_and_give"
stands_on='m2_bytes m2_shared'
python3 copy_crates.py "$room" $stands_on
echo "share_word: $stands_on" >>"$room/crates.txt"
cp share_word/main.txt "$crate/src/main.rt"
cp share_word/invariants.txt "$crate/proofs/take_and_give/Invariants.antt"
(cd "$crate" && rt run -- alone 1 1 >"$room/build.log" 2>&1) || { tail -n 20 "$room/build.log" >&2; exit 1; }
cc -O2 -pthread -o "$room/share_word_c" share_word.c
python3 threads.py "$crate/out/share_word" "$room/share_word_c"
