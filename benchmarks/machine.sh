#!/usr/bin/env bash
# Measures the checked machine beside C: benchmarks/machine.sh [CLOCKBED]. README.md says what is printed.
# CLOCKBED is the program as rt built it, with none crates/clockbed/out/clockbed.
set -euo pipefail

here=$(cd "$(dirname "${BASH_SOURCE[0]}")" && pwd)
clockbed=${1:-$here/../crates/clockbed/out/clockbed}
steps=${STEPS:-100000000}
runs=${RUNS:-3}
if [ ! -x "$clockbed" ]; then
  echo "machine.sh: there is no $clockbed: build it by ./clockbed --prove" >&2
  exit 1
fi
clockbed=$(cd "$(dirname "$clockbed")" && pwd)/$(basename "$clockbed")

room=$(mktemp -d)
trap 'rm -rf "$room"' EXIT
cc -O2 -Wno-override-init -o "$room/machine" "$here/machine.c"
for image in jump arithmetic memory spills; do
  python3 "$here/images.py" "$image" > "$room/$image.bpf"
  echo "image $image, $steps steps, the best of $runs runs"
  python3 "$here/measure.py" "$room/$image.bpf" "$runs" "$steps" ns \
    rattle "$clockbed exec --fuel $steps" c "$room/machine --fuel $steps"
done
