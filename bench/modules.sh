#!/usr/bin/env bash
# Measures the reading of modules, and prints a table: nanoseconds an octet, the least of some rounds; or instructions an
# octet, which other work on the machine does not change.
#
# usage: bash bench/modules.sh [ROUNDS]
#        bash bench/modules.sh count      (it needs valgrind)
#
# The crates and the program of bench/reading are laid out in a room outside the repository, BENCH_MODULES (in TMPDIR
# or /tmp, if not set), which is kept, so that a later run proves only what has changed. RT is the command rt, if it is
# not found as that.
set -euo pipefail
here=$(cd "$(dirname "$0")" && pwd)
top=$(dirname "$here")
room=${BENCH_MODULES:-${TMPDIR:-/tmp}/asn-bench-modules-$(id -u)}
rounds=${1:-5}

mkdir -p "$room"
if ! nice "$top/builder/room.py" prove "$room" "$here/reading" -- 0 </dev/null >"$room/build.log" 2>&1; then
    grep -E 'error|no proof|not proved|logic=' "$room/build.log" || tail -n 20 "$room/build.log"
    echo "bench: the program was not built; $room/build.log says more" >&2
    exit 1
fi
cd "$room/crates/bench_reading"

# a text of this kind, with n assignments, types or lines
text() {
    awk -v kind="$1" -v n="$2" 'BEGIN {
        printf "M DEFINITIONS AUTOMATIC TAGS ::= BEGIN\n"
        if (kind ~ /^assignments/) {
            for (i = 0; i < n; i++)
                printf "Type-%d ::= SEQUENCE { first INTEGER (0..%d), second Leaf OPTIONAL, third BOOLEAN DEFAULT TRUE }\n", i, i % 1000
            last = kind == "assignments-unknown" ? "Laef" : "BOOLEAN"
            printf "Leaf ::= SEQUENCE SIZE (0..7) OF %s\n", last
            if (kind == "assignments-twice") printf "Type-%d ::= NULL\n", n - 1
            if (kind == "assignments-range") printf "Last ::= INTEGER (1..0)\n"
            printf "END\n"
        } else if (kind ~ /^chain/) {
            for (i = 0; i < n; i++) printf "Type-%d ::= Type-%d\n", i, i + 1
            printf "Type-%d ::= %s\nEND\n", n, kind == "chain-cycle" ? "Type-" n - 1 : kind == "chain-range" ? "INTEGER (1..0)" : "INTEGER (0..255)"
        } else if (kind == "braces") {
            printf "T ::= "; for (i = 0; i < n; i++) printf "SEQUENCE {"
        } else if (kind ~ /^nested/) {
            printf "T ::= "
            for (i = 0; i < n; i++) printf "SEQUENCE { a "
            printf "NULL"
            for (i = 0; i < n; i++) printf " }"
            printf kind == "nested-end" ? " END END\n" : " END\n"
        } else if (kind == "lists") {
            printf "T ::= "; for (i = 0; i < n; i++) printf "SEQUENCE OF "
            printf "NULL END\n"
        } else if (kind == "comments") {
            for (i = 0; i < n; i++) printf "-- a line of eighty characters with its end, as comments in a module often are\n"
            printf "T ::= NULL END\n"
        }
    }'
}

# all instructions of that many readings of a text
instructions() {
    valgrind --tool=callgrind --callgrind-out-file=/dev/null out/bench_reading "$1" <"$2" 2>&1 >/dev/null |
        sed -n 's/.*Collected : //p'
}

# a row: what the text is, its kind and how many
row() {
    text "$2" "$3" >"$room/$2.txt"
    if [ "$rounds" = count ]; then
        local none once
        none=$(instructions 0 "$room/$2.txt")
        once=$(instructions 1 "$room/$2.txt")
        out/bench_reading 1 <"$room/$2.txt" | awk -v what="$1" -v count="$((once - none))" '
            { octets = $2; $1 = ""; $2 = ""; answer = substr($0, 3) }
            END { printf "| %s | %d | %s | %.1f | %.0f |\n", what, octets, answer, count / 1e6, count / octets }'
        return
    fi
    nice out/bench_reading "$rounds" <"$room/$2.txt" | awk -v what="$1" '
        NR == 1 || $1 < least { least = $1 }
        { octets = $2; $1 = ""; $2 = ""; answer = substr($0, 3) }
        END { printf "| %s | %d | %s | %.1f | %.1f |\n", what, octets, answer, least / 1e6, least / octets }'
}

if [ "$rounds" = count ]; then
    echo "| text | octets | answer | instructions, millions | an octet |"
else
    echo "$(uname -sm), $(nproc) x $(sed -n 's/^model name[^:]*: //p' /proc/cpuinfo | head -n 1); load $(cut -d' ' -f1-3 /proc/loadavg); the least of $rounds rounds"
    echo
    echo "| text | octets | answer | ms | ns an octet |"
fi
echo "|---|---|---|---|---|"
row "1,000 assignments" assignments 1000
row "10,000 assignments" assignments 10000
row "10,000 assignments, a name twice" assignments-twice 10000
row "10,000 assignments, the last name unknown" assignments-unknown 10000
row "10,000 assignments, the last range empty" assignments-range 10000
row "references in a chain of 1,000" chain 1000
row "references in a chain of 10,000" chain 10000
row "the same, the last leads back" chain-cycle 10000
row "the same, at the end an empty range" chain-range 10000
row "a million \`SEQUENCE {\`" braces 1000000
row "a million \`SEQUENCE OF\`" lists 1000000
row "a type 100,000 levels deep" nested 100000
row "the same with END twice" nested-end 100000
row "10 MB of comments" comments 126000
