#!/usr/bin/env bash
# Counts machine instructions, of rattle and of C: benchmarks/instructions.sh FOLDER [CLOCKBED]. README.md says what is printed.
# FOLDER keeps the drivers of decode.sh, verify.sh and run.sh; CLOCKBED is as for machine.sh.
set -euo pipefail

here=$(cd "$(dirname "${BASH_SOURCE[0]}")" && pwd)
mkdir -p "$1"
folder=$(cd "$1" && pwd)
clockbed=${2:-$here/../crates/clockbed/out/clockbed}
clockbed=$(cd "$(dirname "$clockbed")" && pwd)/$(basename "$clockbed")

room=$(mktemp -d)
trap 'rm -rf "$room"' EXIT
count() { python3 "$here/count.py" "$@"; }

# The scripts themselves build the drivers, and are run for as short as they can.
ROUNDS=1 RUNS=1 "$here/decode.sh" "$folder/decode" > "$room/log"
SLOTS=2000 RUNS=1 "$here/verify.sh" "$folder/verify" > "$room/log"
STEPS=2000 RUNS=1 "$here/run.sh" "$folder/run" > "$room/log"

echo "decoding, a slot"
for image in alu all; do
  printf '%s: ' "$image"
  count "$folder/decode/$image.bpf" 20 60 1024 rattle "$folder/decode/crates/decode_driver/out/decode_driver {}" \
    c "$folder/decode/by_fields {}" c-table "$folder/decode/by_table {}"
done

echo "the checked machine, a step"
cc -O2 -Wno-override-init -o "$room/machine" "$here/machine.c"
for image in jump arithmetic memory spills; do
  python3 "$here/images.py" "$image" > "$room/$image.bpf"
  printf '%s: ' "$image"
  count "$room/$image.bpf" 200000 600000 1 rattle "$clockbed exec --fuel {}" c "$room/machine --fuel {}"
done

echo "the verifier, a slot"
for image in straight-64 straight-1024 branchy-64 branchy-1024 clock-55 clock-251 spills-64 spills-1024; do
  printf '%s: ' "$image"
  driver=$folder/verify/crates/verify_driver/out/verify_driver
  count "$folder/verify/$image.bpf" 20 60 "${image##*-}" verify "$driver {}" check "$driver {} check" \
    c "$folder/verify/in_c --nodes 32 --rounds {}"
done

echo "the runner, a step"
for image in clock-55:4 clock-251:32 arithmetic-1000:4 memory-1000:4 branches-1000:4 spills-1000:4; do
  name=${image%:*}
  nodes=${image#*:}
  steps=$("$folder/run/in_c" "$nodes" 16 1 < "$folder/run/$name.bpf" | cut -d' ' -f4)
  printf '%s: ' "$name"
  count "$folder/run/$name.bpf" 20 60 "$steps" rattle "$folder/run/crates/run_driver/out/run_driver $nodes 16 {}" \
    c "$folder/run/in_c $nodes 16 {}"
done

cc -O2 -o "$room/bench" "$here/bench.c"
# The text of a scenario of so many clock nodes and pulses.
scenario() {
  local last=$(($1 - 1))
  if [ "$1" -gt 32 ]; then echo "version = 2"; fi
  printf 'nodes = %s\nfaults = %s\nmodulus = 8\nmemory = 8\npulses = %s\ncoins = "ones"\n' "$1" $((last / 3)) "$2"
  printf '[[load]]\npulse = 1\nnodes = [%s]\nprogram = "clock"\n' "$(seq -s ', ' 0 "$last")"
}

echo "the program, a pulse"
for nodes in 4 16 64; do
  for pulses in 250 500; do
    scenario "$nodes" "$pulses" > "$room/$nodes-$pulses.toml"
  done
  printf '%s nodes: ' "$nodes"
  count "$room/$nodes-{}.toml" 250 500 1 rattle "$clockbed run" c "$room/bench report $nodes {}"
done
