#!/usr/bin/env bash
# Measures decoding beside C: benchmarks/decode.sh [FOLDER]. README.md says what is printed.
# FOLDER is kept, so that a second call needs no proof of what hasn't changed; with none a temporary folder is used. It lies outside this repository.
set -euo pipefail

here=$(cd "$(dirname "${BASH_SOURCE[0]}")" && pwd)
rounds=${ROUNDS:-100000}
runs=${RUNS:-3}
if [ $# -gt 0 ]; then
  mkdir -p "$1"
  room=$(cd "$1" && pwd)
else
  room=$(mktemp -d)
  trap 'rm -rf "$room"' EXIT
fi

# A repository of two crates: the gate of this one is to see neither.
driver=$room/crates/decode_driver
mkdir -p "$driver/src"
rm -rf "$room/crates/bpf_insn/src" "$room/crates/bpf_insn/specs" "$room/crates/bpf_insn/proofs"
mkdir -p "$room/crates/bpf_insn"
cp -R "$here"/../crates/bpf_insn/{src,specs,proofs} "$room/crates/bpf_insn/"
# What an earlier check of this repository kept saves most of the proof.
if [ -d "$here/../crates/bpf_insn/out/incremental" ] && [ ! -d "$room/crates/bpf_insn/out" ]; then
  mkdir "$room/crates/bpf_insn/out"
  cp -R "$here/../crates/bpf_insn/out/incremental" "$room/crates/bpf_insn/out/"
fi
cp "$here/decode_driver.rt.txt" "$driver/src/main.rt"
printf 'bpf_insn:\ndecode_driver: bpf_insn\n' > "$room/crates.txt"

for image in alu all; do
  python3 "$here/images.py" "$image" > "$room/$image.bpf"
done
cc -O2 -o "$room/by_fields" "$here/decode.c"
cc -O2 -DTABLE -o "$room/by_table" "$here/decode.c"

log=$room/build.log
if ! (cd "$driver" && rt run -- 1 < "$room/alu.bpf") > "$log" 2>&1; then
  tail -n 40 "$log" >&2
  exit 1
fi

for image in alu all; do
  echo "image $image, $rounds rounds of 8192 bytes, the best of $runs runs"
  python3 "$here/measure.py" "$room/$image.bpf" "$runs" "$((rounds * 8192))" MB/s \
    rattle "$driver/out/decode_driver $rounds" c "$room/by_fields $rounds" c-table "$room/by_table $rounds"
done
