#!/usr/bin/env bash
# Compiles a rule in C for the Linux kernel, and loads it: examples/linux/load.sh RULE.c PIN
#
# PIN is a new path below /sys/fs/bpf. The program's maps are pinned below PIN_maps.
set -euo pipefail

rule=$(realpath "$1")
pin=$2
here=$(dirname "$(realpath "$0")")
object=$(mktemp --suffix=.o)
trap 'rm -f "$object"' EXIT

clang -target bpf -O2 -g -Wall -Wno-unused-variable -DRULE="\"$rule\"" -I"$here/../c" \
  -I"/usr/include/$(uname -m)-linux-gnu" -c "$here/linux_rule.c" -o "$object"
bpftool prog load "$object" "$pin" type socket pinmaps "${pin}_maps"
