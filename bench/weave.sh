#!/usr/bin/env bash
# Measures how the time of weaving grows with the messages, and with the sockets.
# The program that it measures is proved and built in a folder of its own, from weave_pair/ and this repository's crates.
set -eu
cd "$(dirname "${BASH_SOURCE[0]}")"
room=$(mktemp -d)
trap 'rm -rf "$room"' EXIT
crate=$room/crates/weave_pair
mkdir -p "$crate/src"
stands_on='m2_bytes m2_session m2_fabric m2_journal m2_weave'
python3 copy_crates.py "$room" $stands_on
echo "weave_pair: $stands_on" >>"$room/crates.txt"
cp weave_pair/main.txt "$crate/src/main.rt"
(cd "$crate" && rt run -- make 1 1 >"$room/build.log" 2>&1) || { tail -n 20 "$room/build.log" >&2; exit 1; }
python3 weave.py "$crate/out/weave_pair"
