#!/usr/bin/env bash
# Measures what it costs to hand an item over by an inbox, beside the channel of Rust's std.
# The program that it measures is proved and built in a folder of its own, from hand_item/ and this repository's crates.
set -eu
cd "$(dirname "${BASH_SOURCE[0]}")"
room=$(mktemp -d)
trap 'rm -rf "$room"' EXIT
crate=$room/crates/hand_item
mkdir -p "$crate/src"
stands_on='m2_bytes m2_shared m2_mailbox'
python3 copy_crates.py "$room" $stands_on
echo "hand_item: $stands_on" >>"$room/crates.txt"
cp hand_item/main.txt "$crate/src/main.rt"
for it in put_and_take put_all take_all; do
  mkdir -p "$crate/proofs/$it"
  cp "hand_item/$it.txt" "$crate/proofs/$it/Invariants.antt"
done
(cd "$crate" && rt run -- 1 1 1 >"$room/build.log" 2>&1) || { tail -n 20 "$room/build.log" >&2; exit 1; }
rustc -O -o "$room/hand_item_rust" hand_item.rs
python3 inbox.py "$crate/out/hand_item" "$room/hand_item_rust"
