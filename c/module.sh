#!/usr/bin/env bash
# c/module.sh FOLDER TARGET [FLAG..]: what the compiler makes of libpim on its way to the archive. Builds pim_c again after
# `rt lib --target TARGET`, by a toolchain whose clang has these flags more and also writes what it is given and what it
# makes of it: FOLDER/pim_c.bc, LLVM's module, and libpim.s, the assembly. The archive is FOLDER/libpim.a. TARGET is
# x86_64-unknown-linux-gnu or aarch64-unknown-linux-gnu. FOLDER/clang is the toolchain's clang. `make` calls this.
set -eo pipefail
target=$2 flags=("${@:3}")
mkdir -p "$1/toolchain/bin"
out=$(cd "$1" && pwd)
cd "$(dirname "$0")"
kit=$(dirname "$(dirname "$(readlink -f "$(command -v rt)")")")

# The toolchain, but for its clang, which compiles twice.
ln -sfn "$kit/toolchain/lib" "$out/toolchain/lib"
ln -sf "$kit"/toolchain/bin/* "$out/toolchain/bin/"
ln -sf "$kit/toolchain/bin/clang" "$out/clang"
rm "$out/toolchain/bin/clang"
cat > "$out/toolchain/bin/clang" <<END
#!/bin/sh
"$out/clang" "\$@" ${flags[*]} || exit
for word; do
    shift
    case \$word in
        -c) set -- "\$@" -S -fno-addrsig -fno-verbose-asm ;;
        *.bc) cp "\$word" "$out/pim_c.bc" && set -- "\$@" "\$word" ;;
        *.o) set -- "\$@" "$out/libpim.s" ;;
        *) set -- "\$@" "\$word" ;;
    esac
done
case " \$* " in *" $out/libpim.s "*) exec "$out/clang" "\$@" ${flags[*]} ;; esac
END
chmod +x "$out/toolchain/bin/clang"

# Builds pim_c by that toolchain, for which rt has no flag.
trap 'status=$?; [ $status = 0 ] || tail -n 20 "$out/log" >&2; exit $status' EXIT
words=(--extern "std=$kit/rlibs/std.rlib" -L "dependency=$kit/rlibs")
for crate in pim_manager pim_ffi pim_base; do words+=(--extern "$crate=$PWD/../crates/$crate/out/rlib/$crate.rlib"); done
for crate in pim_manager pim_chain pim_sets pim_queue pim_ffi pim_base; do
    words+=(-L "dependency=$PWD/../crates/$crate/out/rlib")
done
rm -f "$out/libpim.s"
cd ../crates/pim_c
rattle build --crate-name pim_c "${words[@]}" --target "$target" \
    --antt-project "$kit/rattle/logic/antt-project.json" --logic-built "$kit/logic_built" --incremental out/incremental \
    --crate-type staticlib --backend llvm --toolchain "$out/toolchain" -o "$out/libpim.a" src/lib.rt > "$out/log" 2>&1
test -s "$out/libpim.s"
