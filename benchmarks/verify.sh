#!/usr/bin/env bash
# Measures the verifier beside C: benchmarks/verify.sh [FOLDER]. README.md says what is printed.
# FOLDER is kept, so that a second call needs no proof of what hasn't changed; with none a temporary folder is used. It lies outside this repository.
set -euo pipefail

here=$(cd "$(dirname "${BASH_SOURCE[0]}")" && pwd)
slots=${SLOTS:-50000000}
runs=${RUNS:-3}
if [ $# -gt 0 ]; then
  mkdir -p "$1"
  room=$(cd "$1" && pwd)
else
  room=$(mktemp -d)
  trap 'rm -rf "$room"' EXIT
fi

# A repository of its own: the gate of this one is to see nothing of it.
driver=$room/crates/verify_driver
mkdir -p "$driver/src"
for crate in bpf_insn node_env value_range bpf_record bpf_verify; do
  rm -rf "$room/crates/$crate"/{src,specs,proofs}
  mkdir -p "$room/crates/$crate"
  cp -R "$here/../crates/$crate"/{src,specs,proofs} "$room/crates/$crate/"
  # What an earlier check of this repository kept saves most of the proof.
  if [ -d "$here/../crates/$crate/out/incremental" ] && [ ! -d "$room/crates/$crate/out" ]; then
    mkdir "$room/crates/$crate/out"
    cp -R "$here/../crates/$crate/out/incremental" "$room/crates/$crate/out/"
  fi
done
cp "$here/verify_driver.rt.txt" "$driver/src/main.rt"
cat > "$room/crates.txt" <<'END'
bpf_insn:
node_env:
value_range: bpf_insn
bpf_record: bpf_insn node_env
bpf_verify: bpf_insn node_env value_range bpf_record
verify_driver: bpf_insn node_env bpf_verify
END
cc -O2 -o "$room/in_c" "$here/verify.c"

log=$room/build.log
python3 "$here/images.py" straight-64 > "$room/straight-64.bpf"
if ! (cd "$driver" && rt run -- 1 < "$room/straight-64.bpf") > "$log" 2>&1; then
  tail -n 40 "$log" >&2
  exit 1
fi

for image in straight-64 straight-256 straight-1024 branchy-64 branchy-256 branchy-1024 clock-55 clock-139 clock-251 spills-64 spills-256 spills-1024; do
  python3 "$here/images.py" "$image" > "$room/$image.bpf"
  count=${image##*-}
  rounds=$((slots / count))
  printf '%s: ' "$image"
  python3 "$here/measure.py" "$room/$image.bpf" "$runs" "$((rounds * count))" ns \
    rattle "$driver/out/verify_driver $rounds" c "$room/in_c --nodes 32 --rounds $rounds"
done
