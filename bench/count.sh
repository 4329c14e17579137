#!/usr/bin/env bash
# Prints how many instructions a message takes in each form, which other work on the machine does not change, once
# run.sh has built the programs.
#
# usage: bash bench/count.sh encode|decode|build|clone|encode-oer|decode-oer|into|decode-turns|into-turns NAME
#        bash bench/count.sh check|check-plan|check-plan-oer|count-plan|decode-plan|decode-within|decode-flat|convert NAME
#        bash bench/count.sh into-oer|into-plan|into-plan-oer|into-plan-turns|check-turns|flat-turns NAME
#        bash bench/count.sh plan|refuse|refuse-plan NAME
#        bash bench/count.sh len|to|slice|len-oer|to-oer|slice-oer NAME
#
# `len` finds the length of the encoding, `to` writes it to a writer that lets it go, and `slice` puts it into octets
# that are there, by PER; the forms in Rust have no such.
# `into` decodes into the value of the message before; the forms in Rust have no such. `decode-turns` and
# `into-turns` decode messages of changing shape in turn, of cam, bsm, aligned and list.
#
# BENCH_ROOM is that of run.sh, and PROGRAM the one that run.sh has built, if no other is given (of unproved.sh). It
# needs valgrind.
set -euo pipefail
room=${BENCH_ROOM:-${TMPDIR:-/tmp}/asn-bench-$(id -u)}
what=$1 name=$2
cd "$room"
# all instructions of that many rounds
instructions() {
    valgrind --tool=callgrind --callgrind-out-file=/dev/null "$@" 2>&1 >/dev/null <messages | sed -n 's/.*Collected : //p'
}
case $name in
small) times=200000 ;;
wide | cam | bsm) times=20000 ;;
*) times=500 ;;
esac
forms=(rattle same hand tree)
case $what in
len* | to* | slice* | check* | count-plan | decode-plan | decode-within | decode-flat* | flat-turns | convert) forms=(rattle) ;;
plan | refuse*) forms=(rattle) ;;
clone | into*) forms=(rattle) ;;
*-oer) forms=(rattle same) ;;
decode-turns) forms=(rattle same hand) ;;
build) forms=(same hand tree) ;;
esac
for form in "${forms[@]}"; do
    program=(target/release/baseline "$form")
    if [ "$form" = rattle ]; then program=("${PROGRAM:-crates/asn_bench/out/asn_bench}"); fi
    if ! "${program[@]}" 0 <messages | grep "^octets $name " >/dev/null; then continue; fi
    # what a round takes over none
    none=$(instructions "${program[@]}" 0 "$what" "$name")
    once=$(instructions "${program[@]}" 1 "$what" "$name")
    echo "$what $name $form $(((once - none) / times))"
done
