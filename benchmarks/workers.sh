#!/usr/bin/env bash
# Measures `clockbed run` on 1, 2, 4 and 8 workers: benchmarks/workers.sh [CLOCKBED]. README.md says what is printed.
# CLOCKBED is the program as rt built it, with none crates/clockbed/out/clockbed.
set -euo pipefail

here=$(cd "$(dirname "${BASH_SOURCE[0]}")" && pwd)
clockbed=${1:-$here/../crates/clockbed/out/clockbed}
runs=${RUNS:-5}
if [ ! -x "$clockbed" ]; then
  echo "workers.sh: there is no $clockbed: build it by ./clockbed --prove" >&2
  exit 1
fi
room=$(mktemp -d)
trap 'rm -rf "$room"' EXIT

# The top of a scenario of so many nodes and pulses, all coins being 1, and the load of all of them.
front() {
  local last=$(($1 - 1))
  printf 'version = 2\nnodes = %s\nfaults = %s\nmodulus = 8\nmemory = 8\npulses = %s\ncoins = "ones"\n' "$1" $((last / 3)) "$2"
  printf '[[load]]\npulse = 1\nnodes = [%s]\n' "$(seq -s ', ' 0 "$last")"
}

clocks() {
  front "$1" "$2"
  printf 'program = "clock"\n'
}

# Nodes whose program has so many instructions, one after the other.
lines() {
  front "$1" "$2"
  printf 'program = "asm"\ntext = """\nmov64 r0, 1\n'
  for _ in $(seq $(($3 - 2))); do echo 'add64 r0, 1'; done
  printf 'exit\n"""\n'
}

# The least time of so many runs, in us by the clock on the wall. What they print has to be as before.
least() {
  local best=0 from to
  for _ in $(seq "$runs"); do
    from=$(date +%s%N)
    "$clockbed" run --workers "$2" < "$1" > "$room/now.txt"
    to=$(date +%s%N)
    if [ -f "$1.told" ]; then cmp "$1.told" "$room/now.txt"; else cp "$room/now.txt" "$1.told"; fi
    if [ "$best" -eq 0 ] || [ $((to - from)) -lt "$best" ]; then best=$((to - from)); fi
  done
  echo $((best / 1000))
}

# What a pulse takes is by how much more of them takes longer: the program's start and the reading of the scenario weigh nothing.
measure() {
  local name=$1 few=$2 many=$3 pulses=$4
  for workers in 1 2 4 8; do
    local short long
    short=$(least "$few" "$workers")
    long=$(least "$many" "$workers")
    echo "$name, $workers workers: $(awk "BEGIN { printf \"%.1f\", ($long - $short) / $pulses }") us a pulse"
  done
}

for nodes in 4 16 64; do
  clocks "$nodes" 100 > "$room/few"
  clocks "$nodes" 1000 > "$room/many"
  rm -f "$room"/*.told
  measure "$nodes clock nodes" "$room/few" "$room/many" 900
done
for size in 256 512 1024 2048; do
  lines 64 20 "$size" > "$room/few"
  lines 64 220 "$size" > "$room/many"
  rm -f "$room"/*.told
  measure "64 nodes of $size instructions" "$room/few" "$room/many" 200
done
