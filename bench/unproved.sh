#!/usr/bin/env bash
# Builds the benchmark's program of crates that are not proved, as it would be built if they were: to count what a change
# saves before its proof is written. It shows nothing else, and takes a minute or two.
#
# usage: bash bench/unproved.sh PROGRAM
#
# Then `PROGRAM=PROGRAM bash bench/count.sh ROW NAME` counts its instructions. PROGRAM is a whole path.
set -euo pipefail
program=$1
source "$(dirname "$0")/room.sh"
"$top/builder/room.py" build "$room" "$here/codec"
cp "$room/asn_bench" "$program"
