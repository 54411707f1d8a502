#!/usr/bin/env bash
# Measures how fast two records pass messages over ends in memory, beside a C program that writes and reads the same frames.
# The program that it measures is proved and built in a folder of its own, from record_load/ and this repository's crates.
set -eu
cd "$(dirname "${BASH_SOURCE[0]}")"
room=$(mktemp -d)
trap 'rm -rf "$room"' EXIT
crate=$room/crates/record_load
mkdir -p "$crate/src"
stands_on='m2_bytes m2_addr m2_message m2_policy m2_session m2_dispatch m2_journal m2_record m2_record_trace'
python3 copy_crates.py "$room" $stands_on
echo "record_load: $stands_on" >>"$room/crates.txt"
cp record_load/main.txt "$crate/src/main.rt"
(cd "$crate" && rt run -- 100 16 >"$room/build.log" 2>&1) || { tail -n 20 "$room/build.log" >&2; exit 1; }
${CC:-cc} -O2 -o "$room/plain" record_load.c
${CC:-cc} -O2 -DLOG -o "$room/logged" record_load.c
python3 record.py "$crate/out/record_load" "$room/plain" "$room/logged"
