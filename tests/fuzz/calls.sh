#!/usr/bin/env bash
# Octets, JSON and texts of modules made at random, of which all calls have to say what agrees: `decode`, `decode_into` and
# sessions in pieces of few octets and at random; what was decoded is encoded as the input, is read alike by `read_newer`,
# and comes back from the other rules and from JSON; a module is printed and read alike. Outside the gate.
#
# usage: bash tests/fuzz/calls.sh [MINUTES [SEED]]
#
# First the rows of tests/programs/rows are changed at random, for MINUTES minutes, 10 if not given, from SEED on, 1 if not
# given. Then, where AFL++ is installed (Debian's package afl++), it makes octets, JSON and modules for as long each, from
# the rows as its corpus. The crates and the program of tests/fuzz/calls are laid out in a room outside the repository,
# FUZZ_CALLS (in TMPDIR or /tmp, if not set), and built without a proof; what AFL++ finds stays there.
set -euo pipefail
top=$(cd "$(dirname "$0")/../.." && pwd)
room=${FUZZ_CALLS:-${TMPDIR:-/tmp}/asn-fuzz-calls-$(id -u)}
minutes=${1:-10}
seed=${2:-1}
program=$top/tests/fuzz/calls
rows=$top/tests/programs/rows/stdin

mkdir -p "$room"
nice "$top/builder/room.py" build "$room" "$program"
end=$(($(date +%s) + minutes * 60))
while [ "$(date +%s)" -lt "$end" ]; do
    seed=$((seed + 7919))
    nice "$room/fuzz_calls" random "$seed" 1000 <"$rows" || { echo "fuzz: seed $seed" >&2; exit 1; }
done

command -v afl-fuzz >/dev/null || { echo "fuzz: AFL++ is not installed"; exit; }
nice python3 "$top/builder/unproved.py" "$room/crates/fuzz_calls" "$top" "$room/traced_calls" \
    "$(dirname "$(command -v afl-fuzz)")/../lib/afl/afl-compiler-rt.o"
rm -rf "$room/corpus"
"$top/tests/fuzz/corpus.py" "$room/corpus"
# status 1 says that two calls do not agree
export AFL_CRASH_EXITCODE=1 AFL_SKIP_CPUFREQ=1 AFL_NO_UI=1 AFL_I_DONT_CARE_ABOUT_MISSING_CRASHES=1 AFL_NO_AFFINITY=1
found=0
for kind in octets json module; do
    rm -rf "$room/found_$kind"
    nice afl-fuzz -V $((minutes * 60)) -s "$seed" -i "$room/corpus/$kind" -o "$room/found_$kind" -- \
        "$room/traced_calls" "$kind" >"$room/$kind.log" 2>&1 || { tail -n 20 "$room/$kind.log" >&2; exit 1; }
    told=$room/found_$kind/default/fuzzer_stats
    sed -n 's/^\(execs_done\|corpus_count\|edges_found\|saved_crashes\|saved_hangs\) *: /'"$kind"' \1 /p' "$told"
    grep -qE '^saved_crashes *: 0$' "$told" || found=1
done
exit "$found"
