#!/usr/bin/env bash
# Octets, JSON and texts of modules that libFuzzer makes at random, for all calls of the library (c/agree.h).
#
# usage: bindings/fuzz.sh [MINUTES [SEED]]
#
# What is read has to be written again as it came, and to come back from the other rules and from JSON. The calls
# tulvorn_read_newer and sessions in pieces have to read it alike. What one call rejects, the others have to reject too.
#
# It runs for MINUTES minutes, 10 by default, with SEED, 1 by default, and begins with the examples and the rows of
# tests/programs/rows. The library has no proof, and libFuzzer counts the edges of its code. The folder FUZZ_LIBRARY
# (tulvorn-fuzz-UID in TMPDIR or /tmp by default) is outside the repository and keeps the findings. It needs clang with
# libFuzzer (Debian's packages clang and libclang-rt-14-dev), and what bindings/build.py needs. No gate calls it.
set -euo pipefail
here=$(cd "$(dirname "$0")" && pwd)
room=${FUZZ_LIBRARY:-${TMPDIR:-/tmp}/tulvorn-fuzz-$(id -u)}
minutes=${1:-10}
seed=${2:-1}
kit=$(dirname "$(dirname "$(realpath "$(command -v rt)")")")
command -v clang >/dev/null || { echo "fuzz: clang cannot be found" >&2 && exit 1; }

mkdir -p "$room/found" "$room/kept"
nice -n 19 "$here/build.py" --fuzzer --room "$room/room" "$room/tulvorn.o"
clang -std=c11 -O1 -g -fsanitize=fuzzer,address -I"$here/c" "$here/c/fuzz.c" "$room/tulvorn.o" \
    "$kit/c/liblibc_c.a" -o "$room/fuzz"
rm -rf "$room/corpus"
python3 "$here/tests/rows.py" --corpus "$room/corpus"
TULVORN_ROWS=$room/corpus/rows nice -n 19 "$room/fuzz" -max_total_time=$((minutes * 60)) -seed="$seed" -max_len=2000 \
    -timeout=20 -print_final_stats=1 -artifact_prefix="$room/found/" "$room/kept" "$room/corpus/inputs" \
    >"$room/log" 2>&1 || {
    tail -n 40 "$room/log" >&2
    exit 1
}
sed -n -e '/INITED/p' -e '/DONE/p' -e '/^stat::/p' -e '/^Done /p' "$room/log"
