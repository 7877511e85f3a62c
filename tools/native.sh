#!/usr/bin/env bash
# The two archives compiled for the processor that this runs on, for benchmarks alone: tools/native.sh FOLDER
#
# The product's archives are for x86-64, and under an emulator times say nothing. Here the module that the prover hands to its
# compiler is kept and compiled once more, at the same level, for this processor. What comes out is no product: nothing holds
# it to the proved code but the compiler. Then:
#
#     (cd rust && WINTERHASP_LIB=FOLDER cargo run --release --bin bench [NAME])
set -euo pipefail
[ $# -eq 1 ] || { sed -n '2,9s/^# \?//p' "$0"; exit 2; }
mkdir -p "$1"
folder=$(cd "$1" && pwd)
cd "$(dirname "$0")/.."
processor=$(uname -m)
if [ "$processor" = x86_64 ]; then
    for name in host probe; do
        bash tools/proved.sh "$name"
        cp "target/staticlib/lib$name.a" "$folder/"
    done
    exit
fi

# a kit like the one here, but for its compiler, which keeps the module before it compiles it
kit=$(dirname "$(dirname "$(rt doc)")")
work=$(mktemp -d)
trap 'rm -rf "$work"' EXIT
compiler=$kit/on/$processor/toolchain/bin
mkdir -p "$work/kit/on/$processor/toolchain/bin"
(
    cd "$work/kit"
    find "$kit" -mindepth 1 -maxdepth 1 ! -name on -exec ln -s -t . {} +
    find "$kit/on/$processor" -mindepth 1 -maxdepth 1 ! -name toolchain -exec ln -s -t "on/$processor" {} +
    find "$kit/on/$processor/toolchain" -mindepth 1 -maxdepth 1 ! -name bin -exec ln -s -t "on/$processor/toolchain" {} +
    find "$compiler" -mindepth 1 ! -name clang -exec ln -s -t "on/$processor/toolchain/bin" {} +
)
cat >"$work/kit/on/$processor/toolchain/bin/clang" <<END
#!/bin/sh
for word; do case \$word in *.bc) cp "\$word" "$work/module.bc" ;; esac; done
exec "$compiler/clang" "\$@"
END
chmod +x "$work/kit/on/$processor/toolchain/bin/clang"

for name in host probe; do
    RATTLE_HOME=$work/kit bash tools/proved.sh "$name" >"$work/said" || { cat "$work/said"; exit 1; }
    # as text, without what it says of x86-64
    "$compiler/clang" --target=x86_64-unknown-linux-gnu --no-default-config -O0 -Xclang -disable-llvm-passes \
        -S -emit-llvm -x ir "$work/module.bc" -o "$work/module.ll"
    sed -i '/^target /d; s/"target-cpu"="x86-64"//' "$work/module.ll"
    "$compiler/clang" --target="$processor-unknown-linux-gnu" --no-default-config -Wno-override-module -O3 -fPIC \
        -ffunction-sections -fdata-sections -mllvm -trap-unreachable -mllvm -no-trap-after-noreturn \
        -c -x ir "$work/module.ll" -o "$work/$name.o"
    rm -f "$work/module.bc" "$folder/lib$name.a"
    "$compiler/llvm-ar" rcs "$folder/lib$name.a" "$work/$name.o"
    echo "$folder/lib$name.a is for $processor, and for benchmarks alone"
done
