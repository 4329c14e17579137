#!/usr/bin/env bash
# Compares the library, called from C, with the code that asn1c makes of the same modules, and prints a table.
#
# usage: [COUNT=no] [BASELINE=FOLDER] bench/bindings/asn1c.sh LIBRARY [ROUNDS]
#
# First both have to read the same messages and write the same octets in unaligned PER. Then it measures decoding and
# encoding: the least time of ROUNDS rounds (20 by default), and instructions, which do not depend on what else runs.
# LIBRARY is the folder in which bindings/build.py left the library. It needs asn1c (Debian's package asn1c, version
# 0.9.28, which has no OER), gcc, cargo for the messages of the benchmark, and valgrind for the instructions. These take
# minutes, and COUNT=no leaves them out. BASELINE is a folder that keeps what cargo makes. Without asn1c the script prints
# that it is skipped, and ends with status 0.
set -euo pipefail
here=$(cd "$(dirname "$0")" && pwd)
top=$(cd "$here/../.." && pwd)
out=$(cd "$1" && pwd)
rounds=${2:-20}
for it in asn1c gcc cargo; do
    command -v "$it" >/dev/null || { echo "asn1c: SKIPPED, without $it" && exit; }
done
made=$(mktemp -d)
trap 'rm -rf "$made"' EXIT
# what both compilers build for
cpu=x86-64-v2

(cd "$top/bench/baseline" &&
    cargo build --quiet --release --offline --locked --target-dir "${BASELINE:-$made/target}" &&
    "${BASELINE:-$made/target}/release/baseline" same 0 >"$made/octets")

# octets_of NAME: those of the benchmark's messages of that name, in hexadecimal, a line a message
octets_of() {
    awk -v name="$1" '($1 == "octets" || $1 == "octets-turns") && $2 == name {
        hex = ""
        for (at = 3; at <= NF; at++) { gsub(/[^0-9]/, "", $at); hex = hex sprintf("%02x", $at) }
        print hex
    }' "$made/octets"
}

# build NAME MODULE TYPE: the program for a type, of the code that asn1c makes of the module
build() {
    mkdir "$made/$1"
    cd "$made/$1"
    # (names of items are used twice in the modules)
    asn1c -gen-PER -fcompound-names "$2" >said 2>&1 || { cat said >&2 && exit 1; }
    rm converter-sample.c
    gcc -std=gnu11 -O2 -march=$cpu -w -I. -c ./*.c
    gcc -std=gnu11 -O2 -march=$cpu -Wall -Wextra -DMESSAGE="$3" -DHEADER="\"$3.h\"" -I"$top/bindings/c" -isystem . \
        -c "$here/asn1c_bench.c" -o asn1c_bench.o
    gcc ./*.o "$out/libtulvorn.a" -o run
    cd "$here"
}

# all instructions of one more round of a row
instructions() {
    local ran=()
    for times in 100 200; do
        ran+=("$(valgrind --tool=callgrind --callgrind-out-file=/dev/null "${@:1:4}" $times "$5" 2>&1 >/dev/null |
            sed -n 's/.*Collected : //p')")
    done
    echo $(((ran[1] - ran[0]) / 100))
}

echo "asn1c: $(asn1c -h 2>&1 | head -n 1); $(gcc --version | head -n 1); load $(cut -d' ' -f1-3 /proc/loadavg)"
for row in "small simple Small" "cam cam CAM" "bsm bsm BasicSafetyMessage" "list list Readings"; do
    read -r name module type <<<"$row"
    module=$top/bench/modules/$module.asn
    build "$name" "$module" "$type"
    mapfile -t messages < <(octets_of "$name")
    echo "$name: the same octets of $("$made/$name/run" "$module" "$type" same "${messages[@]}")"
    case $name in small) times=50000 ;; list) times=100 ;; *) times=2000 ;; esac
    "$made/$name/run" "$module" "$type" time $times "$rounds" "${messages[0]}" >"$made/$name.ns"
    while read -r call taken; do
        counted=-
        if [ "${COUNT:-}" != no ] && command -v valgrind >/dev/null; then
            counted=$(instructions "$made/$name/run" "$module" "$type" "$call" "${messages[0]}")
        fi
        echo "$name $call $taken $counted"
    done <"$made/$name.ns" | tee -a "$made/all"
done

# the messages of the examples: which of them asn1c takes and writes alike
for row in "rows Msg" "meter-1 Report" "meter-2 Report" "signalling Message"; do
    read -r name type <<<"$row"
    module=$top/examples/$name.asn
    build "$name" "$module" "$type"
    alike=0 all=0
    while read -r message; do
        all=$((all + 1))
        if said=$("$made/$name/run" "$module" "$type" same "$message"); then
            alike=$((alike + 1))
        else
            echo "examples/$name: $message: $said"
        fi
    done <"$top/examples/$name.per"
    echo "examples/$name: $alike of $all messages are the same"
done

echo
awk '
    { ns[$1, $2] = $3; count[$1, $2] = $4; if (!($1 in seen)) { seen[$1] = 1; names[++last] = $1 } }
    function cell(name, row) { return sprintf("%.0f (%s)", ns[name, row], count[name, row]) }
    function ratio(name, row, other) { return sprintf("%.2f", ns[name, row] / ns[name, other]) }
    function line(name, what, row, other, checked) {
        printf "| %s %s | %s | %s | %s | %s | %s |\n",
            what, name, cell(name, row), cell(name, other), ratio(name, row, other),
            checked ? cell(name, checked) : "", checked ? ratio(name, row, checked) : ""
    }
    function lines(what, row, other, checked, at) {
        for (at = 1; at <= last; at++) line(names[at], what, row, other, checked)
    }
    END {
        print "| ns (instructions) | Tulvorn | asn1c | ratio | asn1c with its constraints checked | ratio |"
        print "|---|---|---|---|---|---|"
        lines("decode", "decode-tulvorn", "decode-asn1c", "decode-asn1c-checked")
        lines("decode, handle kept", "decode-again-tulvorn", "decode-asn1c", "decode-asn1c-checked")
        lines("check", "check-tulvorn", "decode-asn1c", "decode-asn1c-checked")
        lines("encode", "encode-tulvorn", "encode-asn1c", "")
        lines("encode, handle kept", "encode-again-tulvorn", "encode-asn1c", "")
        lines("encode into", "into-tulvorn", "into-asn1c", "into-asn1c-checked")
        print ""
        for (at = 1; at <= last; at++) printf "convert %s: %s\n", names[at], cell(names[at], "convert-tulvorn")
    }' "$made/all"
