#!/usr/bin/env bash
# checks/next/begin.sh FOLDER: on a machine that has proved nothing yet, proves in clones of this repository, as its branch `go` is, the
# crates that most others wait for before the others, in lanes (lane.py). What is proved is kept by the kit, so that every other
# clone with the same files takes it. It returns at once.
set -eu
here=$(cd "$(dirname "${BASH_SOURCE[0]}")" && pwd)
folder=$(mkdir -p "$1" && cd "$1" && pwd)
git -C "$here" branch go 2>/dev/null || true
lane() { setsid "$here/lane.py" "$folder" "$@" >"$folder/$1.lane" 2>&1 & }
lane wire -19 - m2_lemmas m2_bytes m2_frame m2_control m2_addr m2_session m2_handshake m2_fabric m2_journal m2_feed m2_core m2_record m2_turn \
  m2_center m2_cluster m2_script m2_node m2_run m2_cli
lane beside -18 1 m2_crc m2_message m2_policy m2_queues m2_edge m2_shared m2_dispatch m2_trail m2_weave m2_handover m2_history m2_growth \
  m2_links_go_on m2_promise m2_run_trace run_trace
lane third -12 1 m2_mailbox m2_never_reset m2_bytes_fit m2_channel m2_lives m2_scenario m2_exact m2_trace m2_record_trace record_trace \
  m2_record_tests m2_history_tests
lane fourth -8 1 m2_ports m2_mem_fabric m2_mio m2_program m2_listing m2_frame_facts frame_facts m2_scenario_text explain \
  m2_outside_tests m2_protocol_tests
