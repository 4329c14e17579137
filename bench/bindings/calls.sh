#!/usr/bin/env bash
# Prints how long each call of the library takes from C, and compares it with the same call in Rattle.
#
# usage: [PROGRAM=PROGRAM] bench/bindings/calls.sh LIBRARY [ROUNDS]
#
# It prints nanoseconds, the least of ROUNDS rounds (10 by default) in which the two take turns, and instructions, which
# do not depend on what else runs. LIBRARY is the folder in which bindings/build.py left the library. PROGRAM is the whole
# path of the program in Rattle, as bench/run.sh (BENCH_ROOM/crates/asn_bench/out/asn_bench) or bench/unproved.sh builds
# it. Without PROGRAM only the calls from C are measured. The messages are those of bench/README.md, in BENCH_ROOM; they
# are made if they are not there. It needs gcc, and valgrind for the instructions.
set -euo pipefail
here=$(cd "$(dirname "$0")" && pwd)
out=$(cd "$1" && pwd)
rounds=${2:-10}
program=${PROGRAM:-}
room=${BENCH_ROOM:-${TMPDIR:-/tmp}/asn-bench-$(id -u)}
[ -e "$room/messages" ] || bash -c 'source "$0"' "$here/../room.sh"
made=$(mktemp -d)
trap 'rm -rf "$made"' EXIT
gcc -std=c11 -O2 -Wall -Wextra -I"$here/../../bindings/c" "$here/calls.c" "$out/libtulvorn.a" -o "$made/calls"
sed '/^====$/,$d' "$room/messages" >"$made/module"

# all instructions of a command, which reads the messages
instructions() {
    valgrind --tool=callgrind --callgrind-out-file=/dev/null "$@" 2>&1 >/dev/null <"$room/messages" |
        sed -n 's/.*Collected : //p'
}

# in_c TIMES, in_rattle ROUNDS: the time of one call, over so many
in_c() { "$made/calls" "$made/module" "$type" "$octets" "$call" "$1"; }
in_rattle() { "$program" "$1" "$row" "$name" <"$room/messages" | awk -v row="$row" '$1 == row {print $3}'; }
least() { sort -n | head -n 1; }

# a number from C, one from Rattle, and the difference
compared() {
    awk -v c="$1" -v rattle="$2" \
        'BEGIN { printf "%s | %s | %+.0f (%+.1f %%)", c, rattle, c - rattle, 100 * (c / rattle - 1) }'
}

echo "load $(cut -d' ' -f1-3 /proc/loadavg); $(nproc) x $(sed -n 's/^model name[^:]*: //p' /proc/cpuinfo | head -n 1)"
echo "| call | ns from C | in Rattle | more | instructions from C | in Rattle | more |"
echo "|---|---|---|---|---|---|---|"
while read -r name type times octets _; do
    case $name in small | cam | bsm | list) ;; *) continue ;; esac
    for pair in handle: kind: share: check:check decode:decode convert:convert encode:encode len:len into:slice; do
        call=${pair%:*} row=${pair#*:}
        for _ in $(seq "$rounds"); do
            in_c "$times" >>"$made/c.$name.$call"
            if [ -n "$program" ] && [ -n "$row" ]; then in_rattle 1 >>"$made/rattle.$name.$call"; fi
        done
        taken=$(least <"$made/c.$name.$call") counted=-
        few=$((times / 100))
        words=("$made/calls" "$made/module" "$type" "$octets" "$call")
        if command -v valgrind >/dev/null; then
            counted=$((($(instructions "${words[@]}" $((2 * few))) - $(instructions "${words[@]}" $few)) / few))
        fi
        if [ -e "$made/rattle.$name.$call" ]; then
            taken=$(compared "$taken" "$(least <"$made/rattle.$name.$call")")
            if [ $counted != - ]; then
                rounds_of=("$program" 1 "$row" "$name") none=("$program" 0 "$row" "$name")
                rattle=$((($(instructions "${rounds_of[@]}") - $(instructions "${none[@]}")) / times))
                counted=$(compared $counted $rattle)
            else
                counted="- | - | -"
            fi
            echo "| $call $name | $taken | $counted |"
        else
            echo "| $call $name | $taken | | | $counted | | |"
        fi
    done
done < <(sed '1,/^====$/d' "$room/messages")
