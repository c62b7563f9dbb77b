#!/usr/bin/env bash
# Measures the bench and `clockbed run` beside C: benchmarks/bench.sh [FOLDER [CLOCKBED]]. README.md says what is printed.
# FOLDER is kept, so that a second call needs no proof of what hasn't changed; with none a temporary folder is used. It lies outside this repository.
# CLOCKBED is the program as rt built it, with none crates/clockbed/out/clockbed.
set -euo pipefail

here=$(cd "$(dirname "${BASH_SOURCE[0]}")" && pwd)
clockbed=${2:-$here/../crates/clockbed/out/clockbed}
runs=${RUNS:-5}
if [ ! -x "$clockbed" ]; then
  echo "bench.sh: there is no $clockbed: build it by ./clockbed --prove" >&2
  exit 1
fi
clockbed=$(cd "$(dirname "$clockbed")" && pwd)/$(basename "$clockbed")
if [ $# -gt 0 ]; then
  mkdir -p "$1"
  room=$(cd "$1" && pwd)
else
  room=$(mktemp -d)
  trap 'rm -rf "$room"' EXIT
fi

# A repository of its own: the gate of this one is to see nothing of it.
driver=$room/crates/bench_driver
mkdir -p "$driver/src"
crates=(bpf_insn node_env value_range bpf_machine bpf_asm bpf_record bpf_verify bpf_run clock_nodes bench_core)
for crate in "${crates[@]}"; do
  rm -rf "$room/crates/$crate"/{src,specs,proofs}
  mkdir -p "$room/crates/$crate"
  cp -R "$here/../crates/$crate"/{src,specs,proofs} "$room/crates/$crate/"
  # What an earlier check of this repository kept saves most of the proof.
  if [ -d "$here/../crates/$crate/out/incremental" ] && [ ! -d "$room/crates/$crate/out" ]; then
    mkdir "$room/crates/$crate/out"
    cp -R "$here/../crates/$crate/out/incremental" "$room/crates/$crate/out/"
  fi
done
cp "$here/bench_driver.rt.txt" "$driver/src/main.rt"
for crate in "${crates[@]}"; do grep "^$crate:" "$here/../crates.txt"; done > "$room/crates.txt"
echo "bench_driver: node_env bpf_verify clock_nodes bench_core" >> "$room/crates.txt"
cc -O2 -o "$room/in_c" "$here/bench.c"

log=$room/build.log
if ! (cd "$driver" && rt run -- 4) > "$log" 2>&1; then
  tail -n 40 "$log" >&2
  exit 1
fi

# The text of a scenario of so many clock nodes and pulses, all coins being 1.
scenario() {
  local last=$(($1 - 1))
  if [ "$1" -gt 32 ]; then echo "version = 2"; fi
  printf 'nodes = %s\nfaults = %s\nmodulus = 8\nmemory = 8\npulses = %s\ncoins = "ones"\n' "$1" $((last / 3)) "$2"
  printf '[[load]]\npulse = 1\nnodes = [%s]\nprogram = "clock"\n' "$(seq -s ', ' 0 "$last")"
}

# The instructions of all of so many nodes, by a report of theirs: each pulse tells the steps of a node, and all nodes take as many.
instructions() {
  awk -v nodes="$1" '$1 == "pulse" { for (k = 2; k < NF; k++) if ($k == "steps") sum += $(k + 1) } END { print sum * nodes }'
}

# Of the lines that the measurements of one program printed, the one of the least time a pulse: us a pulse, ns an instruction, and of 100 of
# the time how much isn't the runs: of rattle the opening, of C all but the interpreter.
best() {
  awk '{ us = $6 / $2 / 1000 } NR == 1 || us < least { least = us; told = sprintf("%.3f %.2f %.1f", us, $6 / $4, 100 * $10 / ($8 + $10)) } END { print told }' "$1"
}

for nodes in 4 16 64; do
  scenario "$nodes" 1000 > "$room/$nodes.toml"
  "$clockbed" run < "$room/$nodes.toml" > "$room/$nodes.rattle.txt"
  "$room/in_c" report "$nodes" 1000 > "$room/$nodes.c.txt"
  cmp "$room/$nodes.rattle.txt" "$room/$nodes.c.txt"
  echo "report of $nodes nodes and 1000 pulses: equal"
done

for nodes in 4 16 64; do
  : > "$room/rattle.txt"
  : > "$room/c.txt"
  for _ in $(seq "$runs"); do
    "$driver/out/bench_driver" "$nodes" >> "$room/rattle.txt"
    "$room/in_c" measure "$nodes" >> "$room/c.txt"
  done
  read -r rattle_pulse rattle_insn rattle_rest < <(best "$room/rattle.txt")
  read -r c_pulse c_insn c_rest < <(best "$room/c.txt")
  echo "bench of $nodes nodes: rattle $rattle_pulse us a pulse, $rattle_insn ns an instruction, $rattle_rest in 100 opening" \
    " c $c_pulse us, $c_insn ns, $c_rest in 100  rattle / c $(awk "BEGIN { printf \"%.2f\", $rattle_pulse / $c_pulse }")"
done

for size in "4 1000" "16 1000" "64 250" "64 500" "64 1000"; do
  read -r nodes pulses <<< "$size"
  scenario "$nodes" "$pulses" > "$room/run.toml"
  amount=$("$room/in_c" report "$nodes" "$pulses" | instructions "$nodes")
  printf 'run of %s nodes and %s pulses, %s instructions: ' "$nodes" "$pulses" "$amount"
  python3 "$here/measure.py" "$room/run.toml" "$runs" "$amount" ns rattle "$clockbed run" c "$room/in_c report $nodes $pulses"
done
