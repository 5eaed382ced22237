#!/usr/bin/env bash
# c/riscv64.sh: libpim for 64-bit RISC-V, an experiment that docs/PORTING.md describes. Proves pim_c, takes the LLVM
# module that the toolchain makes of it for x86-64, and has the toolchain's clang compile it for RISC-V. Then runs the
# demo, the threads and the replay of each example in qemu, and ends with status 0 if all of them print what they should.
# Then c/out/riscv64/libpim.s is its assembly. Needs rt, gcc-riscv64-linux-gnu and qemu-user-static.
set -eo pipefail
cd "$(dirname "$0")"
triple=riscv64-unknown-linux-gnu out=$PWD/out/riscv64
kit=$(dirname "$(dirname "$(readlink -f "$(command -v rt)")")")
clang=$kit/toolchain/bin/clang compiler="riscv64-linux-gnu-gcc -I. -std=c11 -Wall -Wextra -O2"
run="qemu-riscv64-static -L /usr/riscv64-linux-gnu"

make -s out/module/libpim.s
mkdir -p "$out"

# The module without what names x86-64. RISC-V's callers count on results that are extended to a register.
"$clang" --target=x86_64-unknown-linux-gnu -x ir out/module/pim_c.bc -S -emit-llvm -Xclang -disable-llvm-passes -o - |
    sed -E "/^target datalayout/d; s/^target triple = .*/target triple = \"$triple\"/
        s/ \"(probe-stack|stack-probe-size|target-cpu|target-features|frame-pointer)\"=\"[^\"]*\"//g
        s/^(define )(noundef )?i(8|16) @/\1\2zeroext i\3 @/; s/^(define )(noundef )?i32 @/\1\2signext i32 @/" > "$out/pim_c.ll"
if grep -n 'llvm\.x86\|asm sideeffect' "$out/pim_c.ll"; then echo "c/riscv64.sh: x86-64 code is left" >&2; exit 1; fi
compile() {
    "$clang" --target=$triple --no-default-config -ffunction-sections -fdata-sections -O3 -mllvm -no-trap-after-noreturn \
        -mllvm -trap-unreachable -x ir "$out/pim_c.ll" "$@"
}
# The assembler has yet to learn the names of some extensions that are part of rv64gc.
compile -march=rv64gc -mabi=lp64d -fPIC -fno-addrsig -fno-verbose-asm -S -o - |
    sed '/^\t\.attribute/d' > "$out/pim_c.s"

libpim="$out/pim_c.s heap/malloc.c"
$compiler demo.c $libpim -o "$out/demo"
$compiler replay.c $libpim -o "$out/replay"
$compiler -pthread threads/main.c threads/pi_mutex.c $libpim -o "$out/threads"
$run "$out/demo" | cmp - demo.expected
$run "$out/threads" | cmp - threads/expected
count=0
for text in ../examples/*.pim; do
    $run "$out/replay" -check < "$text" > "$out/report" || [ $? -eq 1 ]
    cmp "$out/report" "${text%.pim}.report"
    count=$((count + 1))
done

# For a kernel whose threads have no floating-point registers.
compile -march=rv64imac -mabi=lp64 -mcmodel=medany -fno-pic -c -o "$out/pim_c_lp64.o"
cp "$out/pim_c.s" "$out/libpim.s"
echo "libpim on $triple: the demo, the threads and $count examples print what they should"
