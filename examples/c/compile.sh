#!/usr/bin/env bash
# Compiles a node's program to its image: examples/c/compile.sh NODE.c IMAGE [FLAG..]
set -euo pipefail

source=$1
image=$2
shift 2
object=$(mktemp)
trap 'rm -f "$object"' EXIT

clang -target bpf -O2 -mcpu=v3 -fno-jump-tables -mllvm -disable-block-placement -Xclang -disable-lifetime-markers \
  -mllvm -jump-threading-threshold=0 -Wall "$@" -c "$source" -o "$object"
# Relocations of the text: those of what -g adds don't touch the image.
relocations=$(llvm-readelf -r "$object")
if [[ $relocations == *"'.rel.text'"* ]]; then
  echo "compile: $source has data outside its functions, which an image can't hold" >&2
  exit 1
fi
llvm-objcopy -O binary --only-section=.text "$object" "$image"
