#!/usr/bin/env bash
# Measures the assembler: benchmarks/assemble.sh [CLOCKBED]. README.md says what is printed.
# CLOCKBED is the program as rt built it, with none crates/clockbed/out/clockbed.
set -euo pipefail

here=$(cd "$(dirname "${BASH_SOURCE[0]}")" && pwd)
clockbed=${1:-$here/../crates/clockbed/out/clockbed}
runs=${RUNS:-9}
if [ ! -x "$clockbed" ]; then
  echo "assemble.sh: there is no $clockbed: build it by ./clockbed --prove" >&2
  exit 1
fi
clockbed=$(cd "$(dirname "$clockbed")" && pwd)/$(basename "$clockbed")

room=$(mktemp -d)
trap 'rm -rf "$room"' EXIT
for text in comments labels instructions; do
  for size in 262144 524288 1048576; do
    python3 "$here/texts.py" "$text" "$size" > "$room/$text.txt"
    bytes=$(wc -c < "$room/$text.txt")
    echo "text $text, $bytes bytes, the best of $runs runs"
    python3 "$here/measure.py" "$room/$text.txt" "$runs" "$bytes" MB/s rattle "$clockbed asm"
  done
done
