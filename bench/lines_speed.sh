#!/bin/sh
# Instructions for one more `frame` line, by the program blockrun, by mawk's echo of line numbers and by a plain Rust line loop:
# the difference of 2000 and 1000 lines behind one `link` line. Counted by callgrind on x86-64; elsewhere one instruction at a
# time by the emulator of a kit that has one (rattle-kit-13f has none), which runs x86-64 programs only:
#   MAWK   an x86-64 mawk (else the mawk of this machine, where it is x86-64)
#   RUSTC  a rustc that has the standard library of x86-64 (else rustc)
# What there is no program for is left out, and said.
# usage, from the repository's root: sh bench/lines_speed.sh
set -e
made=target/bench
mkdir -p "$made"
(cd crates/blockrun && rt run < /dev/null) > "$made/log" 2>&1

kit=$(dirname "$(readlink -f "$(command -v rt)")")/..
tools=$kit/on/$(uname -m)/toolchain
for n in 1000 2000; do
    { printf 'link\t5\t0\t11\t1024\t2\n'; yes frame | head -n $n; } > "$made/frames.$n"
done

if [ "$(uname -m)" = x86_64 ]; then
    mawk=${MAWK:-$(command -v mawk || true)}
    ${RUSTC:-rustc} -O -o "$made/lines" bench/lines.rs 2>> "$made/log" || rm -f "$made/lines"
else
    mawk=${MAWK:-}
    # linked with the kit's linker and C library
    cat > "$made/cc.sh" <<END
#!/bin/sh
for word; do
    shift
    case \$word in -m64|-lc|-lm|-lgcc_s|-lutil|-lrt|-lpthread|-ldl) ;; *) set -- "\$@" "\$word" ;; esac
done
lib=$tools/lib
exec "$tools/bin/clang" --target=x86_64-unknown-linux-gnu --ld-path="$tools/bin/ld.lld" -nostdlib "\$lib/Scrt1.o" "\$lib/crti.o" "\$lib/crtbeginS.o" "\$@" \\
    "\$lib/libgcc.a" "\$lib/libgcc_s.so.1" "\$lib/libm.so.6" "\$lib/libc.so.6" "\$lib/libc_nonshared.a" "\$lib/ld-linux-x86-64.so.2" "\$lib/crtendS.o" "\$lib/crtn.o"
END
    chmod +x "$made/cc.sh"
    ${RUSTC:-rustc} -O --target x86_64-unknown-linux-gnu -C linker="$made/cc.sh" -o "$made/lines" bench/lines.rs 2>> "$made/log" || rm -f "$made/lines"
fi

# instructions of a whole run on N frame lines
count() { # N PROGRAM WORDS..
    lines=$made/frames.$1
    shift
    if [ "$(uname -m)" = x86_64 ]; then
        valgrind --tool=callgrind --callgrind-out-file="$made/callgrind" "$@" < "$lines" > /dev/null 2>> "$made/log"
        awk '/^(summary|totals):/ { n = $2 } END { print n }' "$made/callgrind"
    else
        "$tools/bin/qemu-x86_64" -one-insn-per-tb -d exec,nochain -D "$made/trace" \
            "$tools/lib/ld-linux-x86-64.so.2" --library-path "$tools/lib" "$@" < "$lines" > /dev/null 2>> "$made/log"
        grep -c '^Trace' "$made/trace"
    fi
}

# NAME PROGRAM WORDS..
one_line() {
    name=$1
    shift
    if [ -z "$1" ] || [ ! -x "$1" ]; then
        echo "$name: no x86-64 program here"
        return
    fi
    few=$(count 1000 "$@")
    many=$(count 2000 "$@")
    awk -v name="$name" -v n=$((many - few)) 'BEGIN { printf "%s: %d instructions for a frame line\n", name, n / 1000 }'
}

one_line blockrun crates/blockrun/out/blockrun
one_line mawk "$mawk" '{print NR "\tok"}'
one_line "Rust line loop" "$made/lines"
