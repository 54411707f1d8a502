#!/usr/bin/env bash
# Records connections on the loopback with tcpdump, takes their streams out of the capture with tools/streams, and
# lists them: what comes out must be the frames that went in, and the table must say of the rest why it can't be listed.
# It needs tcpdump, tshark, and the right to capture.
#
# usage: checks/streams.sh [PROGRAM]     (the program must be built: ./msgr2 builds it)
set -eu
cd "$(dirname "${BASH_SOURCE[0]}")/.."
program=${1:-crates/msgr2/out/msgr2}
port=33300
folder=$(mktemp -d)
trap 'kill "$dump" 2>/dev/null || true; rm -rf "$folder"' EXIT
tcpdump -i lo -U --immediate-mode -w "$folder/capture.pcap" "tcp port $port" 2>"$folder/tcpdump" &
dump=$!
for _ in $(seq 50); do ! grep -q 'listening on' "$folder/tcpdump" || break; sleep 0.1; done
python3 checks/speak.py $port
# Each of the four connections is closed from both sides.
for _ in $(seq 50); do
  [ "$(tshark -r "$folder/capture.pcap" -Y 'tcp.flags.fin == 1' 2>/dev/null | wc -l)" -lt 8 ] || break
  sleep 0.2
done
kill "$dump"
wait "$dump" 2>/dev/null || true

tshark -r "$folder/capture.pcap" -F pcapng -w "$folder/capture.pcapng" 2>/dev/null
for form in pcap pcapng; do
  tools/streams "$folder/capture.$form" "$folder/$form" >"$folder/$form.table"
done
cat "$folder/pcap.table"
cmp "$folder/pcap.table" "$folder/pcapng.table"

# A direction of a connection, by its number and the side that the port is on.
opener() { echo "$folder"/pcap/stream"$1"_*_to_*_$port.frames; }
acceptor() { echo "$folder"/pcap/stream"$1"_*_"$port"_to_*.frames; }
is_listed() {
  cmp "$1" "examples/frames/$2"
  "$program" frames "$1" | cmp - "examples/frames/$2.stdout"
}
has_note() {
  [ "$(grep -c "^$1 .*  $2\$" "$folder/pcap.table")" = "$3" ] || { echo "connection $1 has no note '$2'"; exit 1; }
}
is_listed "$(opener 0)" message.frames
is_listed "$(acceptor 0)" message_and_ack.frames
has_note 1 'the peer speaks msgr1' 2
has_note 2 'secure mode: after AUTH_DONE the rest is cipher text' 2
has_note 3 'no banner: not a connection of msgr2' 1
[ "$(find "$folder/pcap" -type f | wc -l)" = 4 ]

# A capture that began when the last connection was open already.
tshark -r "$folder/capture.pcap" -Y 'tcp.stream eq 3 && tcp.flags.syn == 0' -w "$folder/later.pcap" 2>/dev/null
tools/streams "$folder/later.pcap" "$folder/later" | grep 'no banner: the capture began later' >/dev/null
echo "all streams came out as they went in"
