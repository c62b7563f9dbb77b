#!/usr/bin/env bash
# Compiles the module of an unproved program with optimisation, and links it:
#
#   tools/fast_build.sh MODULE.bc PROGRAM
#
# MODULE.bc is what `rt try` gave the toolchain's compiler (the launcher keeps it), PROGRAM the program that `rt try` made
# of it. The result is PROGRAM.fast, as new as PROGRAM, without checks at run time. If the toolchain has no compiler or
# linker where this looks, nothing is made, and the launcher goes on with PROGRAM.
set -euo pipefail

module=$1
program=$2
kit=$(dirname "$(dirname "$(readlink -f "$(command -v rt)")")")
chain=$kit/toolchain
room=$(mktemp -d)
trap 'rm -rf "$room"' EXIT
# One build at a time.
exec 9> "$program.lock"
flock -n 9 || exit 0

"$chain/bin/clang" --target=x86_64-unknown-linux-gnu "--sysroot=$chain" -march=x86-64 -mllvm -no-trap-after-noreturn \
  -ffunction-sections -fdata-sections -mllvm -trap-unreachable -mllvm -no-x86-call-frame-opt \
  -mllvm -disable-machine-licm -mllvm -disable-postra-machine-licm -mllvm -sink-common-insts=false \
  --no-default-config -no-canonical-prefixes -c -x ir "$module" -o "$room/module.o" -fPIE -O2
"$chain/bin/ld.lld" -m elf_x86_64 -pie --dynamic-linker /lib64/ld-linux-x86-64.so.2 --as-needed -z relro -z now \
  -z noexecstack --eh-frame-hdr --gc-sections --no-dependent-libraries -o "$room/program" \
  "$chain"/lib/{Scrt1.o,crti.o,crtbeginS.o} "$room/module.o" "$kit"/c/{libos_c.a,liblibc_c.a} \
  "$chain"/lib/{libm.so.6,libc.so.6,libc_nonshared.a,ld-linux-x86-64.so.2,libgcc.a,libgcc_s.so.1} \
  "$chain"/lib/{crtendS.o,crtn.o}
touch -r "$program" "$room/program"
mv -f "$room/program" "$program.fast"
rm -f "$module"
