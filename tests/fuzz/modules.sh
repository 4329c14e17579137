#!/usr/bin/env bash
# Reads texts made at random: no text may crash the reader of modules, what is printed of a text that is read has to be
# read and printed alike, and a fault has to lie in its text. Outside the gate.
#
# usage: bash tests/fuzz/modules.sh [RUNS [SEED]]
#
# RUNS runs of 50,000 texts, 20 if not given, with numbers that begin at SEED and go on. The crates and the program of
# tests/fuzz/modules are laid out in a room outside the repository, FUZZ_MODULES (in TMPDIR or /tmp, if not set), which is kept,
# so that a later call proves only what has changed. RT is the command rt, if it is not found as that.
set -euo pipefail
top=$(cd "$(dirname "$0")/../.." && pwd)
room=${FUZZ_MODULES:-${TMPDIR:-/tmp}/asn-fuzz-modules-$(id -u)}
runs=${1:-20}
seed=${2:-1}

mkdir -p "$room"
if ! nice "$top/builder/room.py" prove "$room" "$top/tests/fuzz/modules" -- 1 1 </dev/null >"$room/build.log" 2>&1; then
    grep -E 'error|no proof|not proved|logic=' "$room/build.log" || tail -n 20 "$room/build.log"
    echo "fuzz: the program was not built; $room/build.log says more" >&2
    exit 1
fi
cd "$room/crates/fuzz_modules"
for run in $(seq 1 "$runs"); do
    nice out/fuzz_modules $((seed + run * 7919)) 50000
done
