#!/bin/bash
# The program blockrun is held to the reference tests/blockrun.py, which was written from document 01 alone.
# First the stored tests, tests/blockrun/NAME.in and .out, or with .gz behind (made by tests/blockrun_cases.py, and looked at for
# being what it makes now; it also holds the reference to lines worked out by arithmetic). Then what is made anew each time: inputs
# that end in odd ways, long scenarios, and two seeds of random lines.
# BLOCKRUN is the command that runs the program; where it is not given, ./run's program is built and run.
# SEEDS and RANDOM_LINES (how many) say which random lines are tried.
# At a difference the first line that differs is shown; the exit status is 0 only if all agree.
set -u
cd "$(dirname "${BASH_SOURCE[0]}")/.." || exit 2
export PYTHONDONTWRITEBYTECODE=1

if [ -z "${BLOCKRUN:-}" ]; then
    # proves and builds the program where it has changed, and leaves it in out/
    if ! (cd crates/blockrun && rt run </dev/null >/dev/null 2>&1); then
        echo "blockrun.sh: './run blockrun' fails" >&2
        exit 2
    fi
    BLOCKRUN=crates/blockrun/out/blockrun
fi
SEEDS=${SEEDS:-1 2}
RANDOM_LINES=${RANDOM_LINES:-20000}

work=$(mktemp -d) || exit 2
trap 'rm -rf "$work"' EXIT
failed=0
tests=0
lines=0

# differs NAME INPUT WANTED GOT: says so, with the first line that differs.
differs() {
    failed=$((failed + 1))
    python3 - "$@" <<'END'
import sys
name = sys.argv[1]
asked, wanted, got = (open(path, "rb").read().split(b"\n") for path in sys.argv[2:])
show = lambda lines, at: repr(lines[at][:160].decode("latin-1")) if at < len(lines) else "nothing"
at = 0
while at < len(wanted) and at < len(got) and wanted[at] == got[at]:
    at += 1
print("%s: line %d differs" % (name, at + 1))
print("  line     %s" % show(asked, at))
print("  expected %s" % show(wanted, at))
print("  answered %s" % show(got, at))
END
}

# try NAME INPUT WANTED: runs the program on the input and compares.
try() {
    tests=$((tests + 1))
    lines=$((lines + $(wc -l <"$3")))
    # shellcheck disable=SC2086
    $BLOCKRUN <"$2" >"$work/got"
    local status=$?
    if ! cmp -s "$3" "$work/got"; then
        differs "$1" "$2" "$3" "$work/got"
    elif [ $status -ne 0 ]; then
        failed=$((failed + 1))
        echo "$1: the answers are right, the exit status is $status"
    fi
}

# made NAME: tries the input $work/in against the reference.
made() {
    if ! python3 tests/blockrun.py <"$work/in" >"$work/wanted"; then
        failed=$((failed + 1))
        echo "$1: the reference failed"
        return
    fi
    try "$1" "$work/in" "$work/wanted"
}

# text FILE: what the file says, unpacked where it is compressed.
text() {
    case $1 in
    *.gz) gzip -dc "$1" ;;
    *) cat "$1" ;;
    esac
}

python3 tests/blockrun_cases.py --check >/dev/null || failed=$((failed + 1))
stored=0
for input in tests/blockrun/*.in tests/blockrun/*.in.gz; do
    output=${input/.in/.out}
    stored=$((stored + 1))
    if ! text "$input" >"$work/in" || ! text "$output" >"$work/out"; then
        failed=$((failed + 1))
        echo "$input: it or its output could not be read"
        continue
    fi
    if ! python3 tests/blockrun.py <"$work/in" >"$work/wanted" || ! cmp -s "$work/wanted" "$work/out"; then
        differs "$output against the reference" "$work/in" "$work/wanted" "$work/out"
    fi
    try "$input" "$work/in" "$work/out"
done
if [ $stored -ne 11 ]; then
    failed=$((failed + 1))
    echo "blockrun.sh: $stored stored tests, where 11 are known"
fi

link='link\t5\t0\t11\t1024\t2'
for text in '' '\n' '\n\n' 'reset' 'reset\n' 'x' 'x\n\n' '\0' '\n\0\n' '\r\n' "$link" "$link\n" "$link\r\nreset\n" "$link\nreset\nbus\td" \
    "$link\nreset\nbus\td\n\n" "$link\nsend\tv\t" "$link\nsend\tv\t\n" "$link\nsend\tv" "$link\n\ttake" "$link\nreset\nbus\t" '\t' '\t\n' \
    "\n\n\n$link\n\n\nreset\n\n\nbus\tr"; do
    printf "$text" >"$work/in"
    made "the input '$text'"
done

for name in $(python3 tests/blockrun_random.py --list); do
    if python3 tests/blockrun_random.py "$name" >"$work/in"; then
        made "the long scenario $name"
    else
        failed=$((failed + 1))
        echo "the long scenario $name could not be made"
    fi
done

for seed in $SEEDS; do
    python3 tests/blockrun_random.py "$seed" "$RANDOM_LINES" >"$work/in"
    made "random lines of seed $seed (python3 tests/blockrun_random.py $seed $RANDOM_LINES)"
done

echo "blockrun: $tests inputs, $lines lines, $failed failed"
[ $failed -eq 0 ]
