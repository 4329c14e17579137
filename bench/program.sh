#!/usr/bin/env bash
# Measures the program on many lines of one message, the first of examples/cam, and each part of what it does with a
# line alone, and prints two tables.
#
# usage: bash bench/program.sh PROGRAM [LINES [ROUNDS]]
#
# The program of bench/parts is built beside copies of the crates in a room outside the repository, BENCH_ROOM (in
# TMPDIR or /tmp, if not set), which is kept. The input is made beforehand and the output goes to /dev/null. A time is
# that of a processor, of the process as a whole; of the rounds the shortest counts. MB is 1,000,000 octets: of standard
# input, and of the messages in PER. RT is the command rt, if it is not found as that. PARTS is the program of bench/parts,
# where it is built already.
set -euo pipefail
program=$(realpath "$1")
lines=${2:-100000}
rounds=${3:-5}
here=$(cd "$(dirname "$0")" && pwd)
top=$(dirname "$here")
room=${BENCH_ROOM:-${TMPDIR:-/tmp}/asn-bench-parts-$(id -u)}

cd "$top/examples"
work=$(mktemp -d)
trap 'rm -rf "$work"' EXIT

input() { # how often, and the file whose first line is repeated
  cat cam.asn
  echo ====
  yes "$(head -n 1 "$2")" | head -n "$1" || true
}

octets=$(($(head -n 1 cam.per | tr -d '\n' | wc -c) / 2))
input 1 cam.per >"$work/one"
input "$lines" cam.per >"$work/hex"
input "$lines" cam.values >"$work/json"

# ---- the program that does one part

build() {
  mkdir -p "$room"
  "$top/builder/room.py" prove "$room" "$here/parts" -- none 0 <"$work/one" >"$room/parts.log" 2>&1
}

parts=${PARTS:-$room/crates/bench_parts/out/bench_parts}
if [ -z "${PARTS:-}" ] && ! build; then
  tail -n 20 "$room/parts.log" >&2
  echo "bench: the program of the parts was not built" >&2
  exit 1
fi

# ---- times

TIMEFORMAT='%U %S'

seconds() { # the input, and the words: the shortest time of a round, of the user and of the system
  local given=$1 round
  shift
  for round in $(seq "$rounds"); do
    { time "$@" <"$given" >/dev/null; } 2>&1
  done | awk '{ print $1 + $2 }' | sort -n | head -n 1
}

declare -A took
for part in hex-read hex-written decode encode encode-oer json-written json-read; do
  took[$part]=$(seconds "$work/one" "$parts" "$part" "$lines")
done

row() { # the order, its input, and its parts
  local order=$1 file=$2 sum=0 part
  shift 2
  for part in "$@"; do sum=$(awk -v a="$sum" -v b="${took[$part]}" 'BEGIN { print a + b }'); done
  seconds "$file" "$program" "$order" --type Message --rules per |
    awk -v order="$order" -v n="$lines" -v size="$(stat -c %s "$file")" -v m="$octets" -v sum="$sum" -v parts="$*" '{
      printf "| `%s` | %.2f | %.0f | %.1f | %.1f | %.2f (%s) | %.2f |\n",
        order, $1, n / $1, size / $1 / 1e6, n * m / $1 / 1e6, sum, parts, $1 / sum }'
}

echo "$lines lines of a message of $octets octets, $(uname -m), load $(cut -d' ' -f1-3 /proc/loadavg)"
echo
echo "| order | seconds | lines a second | MB/s of input | MB/s of messages | its parts alone | times these |"
echo "|---|---|---|---|---|---|---|"
row show "$work/hex" hex-read decode json-written
row encode "$work/json" json-read encode hex-written
row convert "$work/hex" hex-read decode encode-oer hex-written
echo
echo "| part alone | seconds | microseconds a message |"
echo "|---|---|---|"
for part in hex-read hex-written decode encode encode-oer json-written json-read; do
  awk -v part="$part" -v t="${took[$part]}" -v n="$lines" 'BEGIN { printf "| %s | %.2f | %.2f |\n", part, t, t / n * 1e6 }'
done
