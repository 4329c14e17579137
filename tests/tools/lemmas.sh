#!/usr/bin/env bash
# Prints the lemma files of each crate with the first line of each, which says what it is about.
#
# usage: tests/tools/lemmas.sh [CRATE..]     all crates where none is named
set -euo pipefail
cd "$(dirname "$0")/../../crates"
for crate in "${@:-*}"; do
  find $crate/proofs -name '*.antt' ! -name Lib.antt ! -name Answers.antt ! -name Invariants.antt ! -name Proof.antt 2>/dev/null | sort
done | while IFS= read -r file; do
  first=$(head -n 1 "$file")
  case "$first" in "-- "*) echo "$file: ${first#-- }" ;; esac
done
