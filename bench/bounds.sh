#!/usr/bin/env bash
# What a message of 4,096 bytes takes in plain C (run_pair.c, one connection, 64 KiB at a time), if its checksum is the processor's
# own instruction, if a message keeps no bytes beside those that were put and got, and if memory comes in pages of 2 MiB: the best of
# nine runs of 20,000 messages, as microseconds a message, of the clock and of both processors.
set -eu
cd "$(dirname "${BASH_SOURCE[0]}")"
room=$(mktemp -d)
trap 'rm -rf "$room"' EXIT
build() { "${CC:-cc}" -O2 -pthread "${@:2}" -o "$room/$1" run_pair.c; }
build plain
build instruction -msse4.2 -DHARDWARE_CRC
build shared -DSHARED
build both -msse4.2 -DHARDWARE_CRC -DSHARED
best() {  # COLUMN PROGRAM: the least of that column
  for _ in 1 2 3 4 5 6 7 8 9; do "$room/$2" 20000 4096 1 65536; done | awk -v c="$1" 'NR == 1 || $c < b { b = $c } END { printf "%.1f", b / 20000000 }'
}
for pages in 0 1; do
  export GLIBC_TUNABLES=glibc.malloc.mmap_threshold=131072:glibc.malloc.hugetlb=$pages
  for program in plain instruction shared both; do
    echo "$program, pages of $([ $pages = 1 ] && echo '2 MiB' || echo '4 KiB'): $(best 1 $program) us, $(best 2 $program) us of the processors"
  done
done
