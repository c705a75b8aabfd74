#!/bin/sh
# Builds the C programs against the proved archive, runs them, and reads off what the archive exports, needs
# and uses. A line for each; status 1 where one fails. First: tools/archive. CC and CXX name other compilers.
#
#   sh tests/c/run.sh                     the archive for x86-64-v2
#   sh tests/c/run.sh --cpu x86-64        the one for older processors, after: tools/archive --cpu x86-64
set -eu
cd "$(dirname "$0")/../.."
# The archive, and its processor for the assembler.
case "$*" in
"" | "--cpu x86-64-v2")
    cpu=x86-64-v2 archive=target/staticlib/libcapacity.a out=target/c
    assembled_for=generic64+sse3+ssse3+sse4.1+sse4.2+popcnt+cx16
    ;;
"--cpu x86-64")
    cpu=x86-64 archive=target/staticlib/x86-64/libcapacity.a out=target/c/x86-64
    assembled_for=generic64
    ;;
*)
    echo "usage: sh tests/c/run.sh [--cpu x86-64-v2|x86-64]" >&2
    exit 2
    ;;
esac
CC=${CC:-cc}
CXX=${CXX:-c++}
if [ ! -f "$archive" ]; then
    echo "tests/c/run.sh: no $archive; make it with: tools/archive --cpu $cpu" >&2
    exit 2
fi
mkdir -p "$out"

fail() {
    echo "tests/c/run.sh: $1" >&2
    exit 1
}

strict() {
    "$@" -pedantic -Wall -Wextra -Werror -Iinclude
}

# The stored cases: sheets with results, with results under the text of 2015, with lists of transfers, and with
# complexes' records.
lists=crates/vectors/data/transfers
records=crates/vectors/data/averages
sheets=
sheets_2015=
for file in crates/vectors/data/*; do
    case $file in
    "$lists" | "$records") ;;
    */text_2015_*) sheets_2015="$sheets_2015 $file" ;;
    *) sheets="$sheets $file" ;;
    esac
done

# The header alone; the example, sheets of all versions, and hours as columns.
for std in c99 c11 c17; do
    echo '#include "capacity.h"' | strict "$CC" -std=$std -fsyntax-only -x c - || fail "the header is no $std"
done
for test in example versions columns; do
    strict "$CC" -std=c99 -o "$out/$test" "tests/c/$test.c" "$archive" || fail "$test.c does not build"
    "$out/$test" || fail "$test.c fails"
done

# The same from C++.
if command -v "$CXX" >/dev/null 2>&1; then
    for test in example versions columns; do
        strict "$CXX" -std=c++11 -x c++ -o "$out/${test}_cpp" "tests/c/$test.c" -x none "$archive" ||
            fail "$test.c does not build as C++"
        "$out/${test}_cpp" >/dev/null || fail "$test.c fails as C++"
    done
    echo "C++ example, versions and columns: ok"
else
    echo "C++ example, versions and columns: left out, there is no $CXX"
fi

# The header's readers of a result.
strict "$CC" -std=c99 -O1 -o "$out/readers" tests/c/readers.c || fail "readers.c does not build"

# Those of an entry, on files of its stored cases.
readers() {
    results=$("$out/readers" "$@") || fail "the header's readers read a stored result of capacity_$1 otherwise"
    [ "$results" -gt 0 ] || fail "no stored result of capacity_$1 was read"
    echo "readers: capacity_$1, $results stored results, every figure"
}

readers settle $sheets
readers settle_2015 $sheets_2015

# Without a C library.
strict "$CC" -std=c99 -ffreestanding -fno-stack-protector -nostdlib -static -o "$out/bare" tests/c/bare.c "$archive" ||
    fail "the program without a C library does not build"
"$out/bare" || fail "the program without a C library fails"
echo "program without a C library: ok"

# The archive: exports what the header declares and nothing else, needs nothing that a compiler without a C library does
# not, has no variable.
exported=$(nm -g --defined-only "$archive" | awk 'NF == 3 { print $3 }' | paste -s -d ' ' -)
needed=$(nm -u "$archive" | awk '$1 == "U" { print $2 }' | paste -s -d ' ' -)
code=$(size "$archive" | awk 'NR == 2 { print $1 }')
variables=$(size "$archive" | awk 'NR == 2 { print $2 + $3 }')
for name in $exported; do
    grep -q "[ *]$name(" include/capacity.h || fail "the archive exports $name, which the header does not declare"
done
for name in $(sed -n 's/^int64_t \(capacity_[a-z_]*\)(.*/\1/p' include/capacity.h); do
    case " $exported " in *" $name "*) ;; *) fail "the header declares $name, which the archive does not export" ;; esac
done
for name in $needed; do
    case $name in memcpy | memmove | memset | memcmp) ;; *) fail "the archive needs $name" ;; esac
done
[ "$variables" -eq 0 ] || fail "the archive has $variables bytes of variables"
# A byte below the stack pointer would be lost to an interrupt that uses the same stack.
below=$(objdump -d "$archive" | grep -c -- '-0x[0-9a-f]*(%rsp' || :)
[ "$below" -eq 0 ] || fail "the archive uses bytes below the stack pointer, at $below places"
# No instruction that its processor may lack: the assembler takes all of them for that processor. Jumps, calls
# and fillers are left out, since every processor has them.
listing=$out/listing
objdump -d --no-show-raw-insn "$archive" >"$listing"
sed -n 's/^ *[0-9a-f]*:\t//p' "$listing" |
    sed -e 's/[<#].*//' -e '/^j/d' -e '/^call/d' -e '/nop/d' >"$out/code.s"
[ -s "$out/code.s" ] || fail "the archive's instructions were not listed"
as -march=$assembled_for -o /dev/null "$out/code.s" 2>"$out/lacking" || {
    head -n 4 "$out/lacking" >&2
    fail "the archive has instructions that $cpu lacks"
}
echo "archive for $cpu: exports $exported; needs ${needed:-nothing}; $code bytes of code, no variables"

# The stack: what the stored cases use, and every function's return address, pushes and locals added up.
strict "$CC" -std=c99 -O1 -Wl,-z,now -o "$out/stack" tests/c/stack.c "$archive" || fail "stack.c does not build"
words=$(grep -c -E '^[0-9a-f]+ <|[[:space:]]push[[:space:]]' "$listing")
frames=$((8 * words))
for locals in $(sed -n 's/.*sub  *\$\(0x[0-9a-f]*\),%rsp$/\1/p' "$listing"); do
    frames=$((frames + locals))
done

# The bars: the most stack that an entry may use, in bytes.
bar_of() {
    case $1 in
    settle) echo 2352 ;;
    settle_2015) echo 416 ;;
    transfer) echo 1024 ;;
    average) echo 464 ;;
    esac
}

# The stack that an entry uses on files of its stored cases; the longest of their sheets.
over=
measure() {
    entry=$1
    shift
    measured=$("$out/stack" "$entry" "$@") || fail "a stored case of capacity_$entry comes out otherwise"
    set -- $measured
    [ "$1" -gt 0 ] || fail "there is no stored case of capacity_$entry"
    [ "$3" -le "$frames" ] || fail "$3 bytes of stack used by capacity_$entry, $frames seen in the code"
    longest=$2
    bar=$(bar_of "$entry")
    echo "stack: capacity_$entry, $1 stored cases, sheets to $longest bytes: at most $3 bytes (bar: $bar)"
    [ "$3" -le "$bar" ] || over="$over capacity_$entry"
}

measure settle $sheets
largest=$(sed -n 's/^#define CAPACITY_LARGEST_SHEET //p' include/capacity.h)
[ "$longest" -eq "$largest" ] || fail "the longest stored sheet has $longest bytes, the largest there is $largest"
measure settle_2015 $sheets_2015
measure transfer "$lists"
measure average "$records"
echo "stack: all frames together have $frames bytes"
[ -z "$over" ] || fail "more stack is used than the bar allows, by$over"
