#!/usr/bin/env bash
# Lays a model of `sim` beside the program: plays each scenario of examples/, and N random ones (200 where it isn't
# said), with tools/model.py, which knows docs/PROTOCOL.md and nothing of the crates, and with the program. Standard
# output, standard error and status must be the same, and where the program run_trace is built, the trace. SEED, 1 where
# it isn't said, decides the random scenarios (checks/scenarios.py). The first scenario that differs is kept as a file. In
# the end it says which rows of the judgement tables the random ones met, compares the examples' rows with the page's
# table, and counts what agreed.
#
# usage: checks/model.sh [N [SEED]]
# The program is ./msgr2, or the one that MSGR2 names, and run_trace the built one or that of RUN_TRACE; Python 3.9 or later.
set -u
cd "$(dirname "${BASH_SOURCE[0]}")/.." || exit 1
count=${1:-200}
seed=${2:-1}
program=${MSGR2:-./msgr2}
tracer=${RUN_TRACE:-crates/run_trace/out/run_trace}
parts=(status stderr stdout)
[ ! -x "$tracer" ] || parts+=(trace)
most=120 # seconds of one run of the program
room=$(mktemp -d)
trap 'rm -rf "$room"' EXIT
mkdir "$room/random" "$room/model" "$room/program"
python3 checks/scenarios.py "$room/random" "$count" "$seed" || exit 1

scenarios=(examples/*.scenario "$room"/random/*.scenario)
[ "$count" -gt 0 ] || scenarios=(examples/*.scenario)
python3 tools/model.py --into "$room/model" "${scenarios[@]}" || exit 1

# The first part in which the two runs of this name differ, if there is one.
difference() {
  local part
  for part in "${parts[@]}"; do
    cmp -s "$room/model/$1.$part" "$room/program/$1.$part" || { echo $part; return; }
  done
}

differ=0
for scenario in "${scenarios[@]}"; do
  name=$(basename "$scenario")
  of_program=$room/program/$name
  timeout $most "$program" sim "$scenario" >"$of_program.stdout" 2>"$of_program.stderr"
  echo $? >"$of_program.status"
  [ ! -x "$tracer" ] || timeout $most "$tracer" "$scenario" 2>&1 | grep -v '^#' >"$of_program.trace"
  part=$(difference "$name")
  [ -n "$part" ] || continue
  differ=$((differ + 1))
  echo "$name: another $part (model <, program >)"
  diff "$room/model/$name.$part" "$of_program.$part" | head -n 8
  if [ $differ = 1 ]; then
    kept=${TMPDIR:-/tmp}/model_differs_seed_${seed}_$name
    cp "$scenario" "$kept"
    echo "kept as $kept"
  fi
done
played=${#scenarios[@]}
examples=$((played - count))
echo "rows met by the random scenarios, each with how many meet it:"
python3 tools/model.py --rows "${scenarios[@]:$examples}" |
  sed 's/^[^:]*: //; s/ [0-9]*$//' | sort | uniq -c
table=0
python3 tools/model.py --table docs/PROTOCOL.md examples || table=1
echo "$((played - differ)) of $played scenarios agreed, $count of them random by seed $seed"
[ $differ = 0 ] && [ $table = 0 ]
