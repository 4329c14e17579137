#!/usr/bin/env bash
# Prints where the time of one row goes, by samples, once run.sh has built the programs.
#
# usage: bash bench/where.sh encode|decode|.. NAME [rattle|same|hand|tree] [ROUNDS], with the rows of count.sh
#
# BENCH_ROOM is that of run.sh. It needs perf.
set -euo pipefail
room=${BENCH_ROOM:-${TMPDIR:-/tmp}/asn-bench-$(id -u)}
what=$1 name=$2 form=${3:-rattle} rounds=${4:-400}
cd "$room"
if [ "$form" = rattle ]; then
    program=(crates/asn_bench/out/asn_bench "$rounds" "$what" "$name")
else
    program=(target/release/baseline "$form" "$rounds" "$what" "$name")
fi
perf record -q -e cpu-clock -o where.data "${program[@]}" <messages >/dev/null
perf report -i where.data --stdio --percent-limit 0.7 2>/dev/null | grep -v '^#' | grep -v '^$'
