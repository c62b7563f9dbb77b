#!/usr/bin/env bash
# Measures the runner of accepted programs beside C: benchmarks/run.sh [FOLDER]. README.md says what is printed.
# FOLDER is kept, so that a second call needs no proof of what hasn't changed; with none a temporary folder is used. It lies outside this repository.
set -euo pipefail

here=$(cd "$(dirname "${BASH_SOURCE[0]}")" && pwd)
steps=${STEPS:-100000000}
runs=${RUNS:-3}
if [ $# -gt 0 ]; then
  mkdir -p "$1"
  room=$(cd "$1" && pwd)
else
  room=$(mktemp -d)
  trap 'rm -rf "$room"' EXIT
fi

# A repository of its own: the gate of this one is to see nothing of it.
driver=$room/crates/run_driver
mkdir -p "$driver/src"
for crate in bpf_insn node_env bpf_machine value_range bpf_record bpf_verify bpf_run; do
  rm -rf "$room/crates/$crate"/{src,specs,proofs}
  mkdir -p "$room/crates/$crate"
  cp -R "$here/../crates/$crate"/{src,specs,proofs} "$room/crates/$crate/"
  # What an earlier check of this repository kept saves most of the proof.
  if [ -d "$here/../crates/$crate/out/incremental" ] && [ ! -d "$room/crates/$crate/out" ]; then
    mkdir "$room/crates/$crate/out"
    cp -R "$here/../crates/$crate/out/incremental" "$room/crates/$crate/out/"
  fi
done
cp "$here/run_driver.rt.txt" "$driver/src/main.rt"
grep -E '^(bpf_insn|node_env|bpf_machine|value_range|bpf_record|bpf_verify|bpf_run):' "$here/../crates.txt" > "$room/crates.txt"
echo 'run_driver: bpf_insn node_env bpf_verify bpf_run' >> "$room/crates.txt"
cc -O2 -Wno-override-init -o "$room/in_c" "$here/run.c"

log=$room/build.log
python3 "$here/images.py" clock-55 > "$room/clock-55.bpf"
if ! (cd "$driver" && rt run -- 4 16 1 < "$room/clock-55.bpf") > "$log" 2>&1; then
  tail -n 40 "$log" >&2
  exit 1
fi

for image in clock-55:4 clock-251:32 arithmetic-1000:4 memory-1000:4 branches-1000:4 spills-1000:4; do
  name=${image%:*}
  nodes=${image#*:}
  python3 "$here/images.py" "$name" > "$room/$name.bpf"
  each=$("$room/in_c" "$nodes" 16 1 < "$room/$name.bpf" | cut -d' ' -f4)
  rounds=$((steps / each))
  printf '%s: ' "$name"
  python3 "$here/measure.py" "$room/$name.bpf" "$runs" "$((rounds * each))" ns \
    rattle "$driver/out/run_driver $nodes 16 $rounds" c "$room/in_c $nodes 16 $rounds"
done
