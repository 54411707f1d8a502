#!/usr/bin/env bash
# Measures what a message costs in `run`, over the system's sockets and over sockets between threads, and in `sim`, beside a C
# program that writes and reads the same frames over loopback connections. The program that it measures is proved and built in a
# folder of its own, from run_load/ and this repository's crates; RUN_LOAD names one that is built already.
set -eu
cd "$(dirname "${BASH_SOURCE[0]}")"
room=$(mktemp -d)
trap 'rm -rf "$room"' EXIT
program=${RUN_LOAD:-}
if [ -z "$program" ]; then
  crate=$room/crates/run_load
  mkdir -p "$crate/src"
  stands_on='m2_bytes m2_addr m2_policy m2_edge m2_fabric m2_mem_fabric m2_mio m2_scenario m2_run m2_cli'
  python3 copy_crates.py "$room" $stands_on
  echo "run_load: $stands_on" >>"$room/crates.txt"
  cp run_load/main.txt "$crate/src/main.rt"
  (cd "$crate" && rt run -- nothing 1 1 1 0 7001 >"$room/build.log" 2>&1) || { tail -n 20 "$room/build.log" >&2; exit 1; }
  program=$crate/out/run_load
fi
${CC:-cc} -O2 -pthread -o "$room/run_pair" run_pair.c
# As `msgr2 run` has it.
export MALLOC_MMAP_THRESHOLD_=131072
python3 run.py "$program" "$room/run_pair"
