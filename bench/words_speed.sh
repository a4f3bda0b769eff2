#!/bin/sh
# Instructions of one call that writes, and of one that reads, a message of 64 bytes: the proved word writer and reader
# against plain Rust on slices. Counted by callgrind on x86-64; elsewhere one instruction at a time by the emulator of a kit that
# has one (rattle-kit-13f has none).
# usage, from the repository's root: sh bench/words_speed.sh
set -e
made=target/bench
mkdir -p "$made"
(cd crates/stores_calls && rt lib) > "$made/log" 2>&1

# natively: the function with all that it calls, over many calls
by_callgrind() {
    valgrind --tool=callgrind --callgrind-out-file="$made/callgrind.$1" --toggle-collect="$1" "$made/words_speed" 1000 2>> "$made/log"
    awk '/^(summary|totals):/ { n = $2 } END { print n / 1000 }' "$made/callgrind.$1"
}

# by emulation: the log has a line for each instruction, which ends with the function's name
by_emulator() {
    awk -v f="$1" '$NF == f { n++ } END { print n }' "$made/trace"
}

if [ "$(uname -m)" = x86_64 ]; then
    rustc -O -L crates/stores_calls/out -o "$made/words_speed" bench/words_speed.rs
    count=by_callgrind
else
    tools=$(dirname "$(readlink -f "$(command -v rt)")")/../on/$(uname -m)/toolchain/bin
    to="--target=x86_64-unknown-linux-gnu -march=x86-64"
    # rustc's own code before optimization, made for x86-64 by the same LLVM at the same level
    rustc -O -C no-prepopulate-passes --crate-type lib --emit llvm-ir -o "$made/plain.ll" bench/plain_words.rs
    sed -i -E '/^target /d; s/"(target-cpu|target-features|probe-stack)"="[^"]*"//g' "$made/plain.ll"
    "$tools/clang" $to -O3 -Wno-override-module -c -o "$made/plain.o" "$made/plain.ll"
    "$tools/clang" $to -O1 -ffreestanding -c -o "$made/main.o" bench/words_speed.c
    "$tools/ld.lld" -static --unresolved-symbols=ignore-all -o "$made/words_speed" "$made/main.o" "$made/plain.o" crates/stores_calls/out/libstores_calls.a
    "$tools/qemu-x86_64" -one-insn-per-tb -d exec,nochain -D "$made/trace" "$made/words_speed"
    count=by_emulator
fi

for way in write read; do
    proved=$($count stores_${way}_64)
    plain=$($count plain_$way)
    awk -v way=$way -v a="$proved" -v b="$plain" 'BEGIN { printf "%s 64 bytes: proved %d instructions, plain Rust %d, ratio %.2f\n", way, a, b, a / b }'
done
