#!/usr/bin/env bash
# Measures `clockbed run --json` beside `clockbed run`, time and memory: benchmarks/lines.sh [CLOCKBED]. README.md says
# what is printed. CLOCKBED is the program as rt built it, with none crates/clockbed/out/clockbed.
set -euo pipefail

here=$(cd "$(dirname "${BASH_SOURCE[0]}")" && pwd)
clockbed=${1:-$here/../crates/clockbed/out/clockbed}
runs=${RUNS:-5}
if [ ! -x "$clockbed" ]; then
  echo "lines.sh: there is no $clockbed: build it by ./clockbed --prove" >&2
  exit 1
fi
room=$(mktemp -d)
trap 'rm -rf "$room"' EXIT

# A scenario of so many nodes and pulses, all of which run the clock and all coins of which are 1.
clocks() {
  local last=$(($1 - 1))
  printf 'version = 2\nnodes = %s\nfaults = %s\nmodulus = 8\nmemory = 8\npulses = %s\ncoins = "ones"\n' "$1" $((last / 3)) "$2"
  printf '[[load]]\npulse = 1\nnodes = [%s]\nprogram = "clock"\n' "$(seq -s ', ' 0 "$last")"
}

# The least time of so many runs, in ms by the clock on the wall.
least() {
  local best=0 from to
  for _ in $(seq "$runs"); do
    from=$(date +%s%N)
    "$clockbed" run "${@:2}" < "$1" > /dev/null
    to=$(date +%s%N)
    if [ "$best" -eq 0 ] || [ $((to - from)) -lt "$best" ]; then best=$((to - from)); fi
  done
  echo $((best / 1000000))
}

# The most memory of a run, in KiB, as the system tells it every 2 ms until the end.
peak() {
  local most=0 line
  "$clockbed" run "${@:2}" < "$1" > /dev/null &
  while line=$(grep VmHWM "/proc/$!/status" 2> /dev/null) && [ -n "$line" ]; do
    most=$(awk '{ print $2 }' <<< "$line")
    sleep 0.002
  done
  wait
  echo "$most"
}

for pulses in 500 1000; do
  for nodes in 4 16 64; do
    clocks "$nodes" "$pulses" > "$room/scenario"
    plain=$(least "$room/scenario" --workers 1)
    lines=$(least "$room/scenario" --workers 1 --json)
    ratio=$(awk "BEGIN { printf \"%.1f\", $lines / ($plain > 0 ? $plain : 1) }")
    echo "$nodes nodes, $pulses pulses: run $plain ms, --json $lines ms, ratio $ratio;" \
      "run $(peak "$room/scenario" --workers 1) KiB, --json $(peak "$room/scenario" --workers 1 --json) KiB"
  done
done
