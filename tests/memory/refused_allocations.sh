#!/usr/bin/env bash
# Refuses in turn each allocation of programs, by tests/memory/refuse_allocation.c.
#
# usage: tests/memory/refused_allocations.sh ROOM FIRST TOOL
#
# The program `checks` of tests/programs, which builder/room.py has built in ROOM, makes the calls of the libraries. Of its
# parts `memory` and `memory_texts` one call has to answer `Memory`, and each other call, and that one when it is made
# again, what it answers where no allocation is refused. `refused` makes the calls on the rows of
# tests/programs/rows again and again, and says itself which allocation is refused. The programs asn_first and asn_tool, FIRST
# and TOOL, have to end with `memory` and status 3.
set -euo pipefail
[ $# = 3 ] || { echo "usage: tests/memory/refused_allocations.sh ROOM FIRST TOOL" >&2 && exit 2; }
room=$(realpath "$1") first_program=$(realpath "$2") tool_program=$(realpath "$3")
cd "$(dirname "$0")/../.."

work=$(mktemp -d)
trap 'rm -rf "$work"' EXIT

fail() {
  echo "refused allocations: $*" >&2
  exit 1
}

# ---- the library that refuses, by the kit's clang, which has no headers, or by another C compiler

kit=$(dirname "$(rt doc)")/toolchain
refuse=$work/refuse_allocation.so
if [ -x "$kit/bin/clang" ]; then
  "$kit/bin/clang" -O2 -Wall -shared -fPIC -nostdlib -B"$kit/lib" -fuse-ld="$kit/bin/ld.lld" -o "$refuse" \
    tests/memory/refuse_allocation.c
else
  "${CC:-cc}" -O2 -shared -fPIC -nostdlib -o "$refuse" tests/memory/refuse_allocation.c
fi

# ---- one run after another, with the first allocation refused, then the second, until a run reaches no refusal

runs=0 # in which an allocation was refused
begun=0 # of these, in which something was written

refuse_each() { # the program, the folder of what it reads and writes, what a run with a refusal has to do
  # (tests/memory/refuse_each.py), and words, where the folder has none
  local said
  said=$(tests/memory/refuse_each.py "$refuse" "$work/told" "$3" "$(realpath "$1")" "$2" "${@:4}") || fail "$said"
  read -r runs begun <<<"$said"
}

# ---- the calls of the libraries

calls=0 # runs in which a call was refused memory

told_of() { # what was called for, and the names of the calls of which each has to have been refused memory
  local of=$1 name
  shift
  for name in "$@"; do
    grep -qx "memory: $of: $name" "$work/told" || fail "$of: no allocation of $name was refused"
  done
}

: >"$work/told"
refuse_each "$room/test_checks" tests/programs/memory calls memory
told_of message Message::to_json
for of in message simple composed; do
  told_of "$of" Checked::new
  told_of "$of in PER" encode decode decode_into Planned::new feed
  told_of "$of in OER" encode decode decode_into Planned::new feed
done
told_of 'message in PER' Message::decode
told_of 'message in OER' Message::decode
told_of 'simple in PER' decode_within
told_of 'simple in OER' decode_within
told_of 'empty in OER' open
told_of BitSink push push_number push_octets push_length push_general_octets push_least_octets \
  push_least_signed_octets pad
told_of BitCursor take_octets take_row
told_of names sequence choice list of text misfit
told_of 'missing name' sequence
told_of 'unknown name' sequence item

refuse_each "$room/test_checks" tests/programs/memory_texts calls memory_texts
told_of value to_json from_json
told_of shape from_json
told_of text json_in
told_of 'key twice' json_in
told_of module read print print_type run
told_of 'wrong text' read read_explained explain
told_of cycle read
told_of 'empty range' read
told_of 'deep type' read
told_of PER convert
told_of OER convert
for order in show check encode convert newer; do told_of "$order" run; done
calls=$(grep -c '^memory' "$work/told")

# Checked::copy and PER's open allocate nothing: no run tells that they were refused

# ---- the calls of the libraries on rows, by a program that says itself which allocation is refused

LD_PRELOAD="$refuse" timeout 300 "$room/test_checks" refused <tests/programs/rows/stdin >"$work/out" 2>"$work/err" ||
  fail "rows: $(cat "$work/out" "$work/err")"
[ ! -s "$work/err" ] || fail "rows: standard error: $(head -c 200 "$work/err")"
for name in Checked::new 'push and pad' encode decode check decode_into Planned::new 'check, by a plan' 'decode, by a plan' decode_within 'open and feed' messages 'explain, of octets' read_newer convert \
  to_json from_json \
  'from_json, of another shape' read 'read, of a text that is refused' print explain \
  run,\ {show,check,encode,convert,newer,module}; do
  grep -qE "^$name: [0-9]+ times; [1-9][0-9]* allocations refused and told" "$work/out" ||
    fail "rows: no allocation of $name was refused"
done
grep -qE '^without memory: [1-9][0-9]* calls' "$work/out" || fail "rows: no call without memory"
sed 's/^/rows: /' "$work/out"

# ---- the runner and the program: the line `memory` and status 3, and of the output a beginning

refuse_each "$first_program" crates/asn_first memory
[ "$begun" = 0 ] || fail "asn_first writes before it ends with memory"
runner=$runs
# (where the plan of a type, or a reading by it, is refused memory, the message is read without it)
refuse_each "$tool_program" crates/asn_tool answers

# other words of a command line, some of which ask for no job; examples/faults.sh and tests/program/published.py judge what is
# answered to them. A few allocations can be done without. What is told of published types stands before `memory`
tool=$runs
answered_to() { # what is read, and the words
  local given=$work/words status=0
  mkdir -p "$given"
  printf '%b' "$1" >"$given/stdin"
  shift
  printf '%s\n' "$@" >"$given/args"
  "$tool_program" "$@" <"$given/stdin" >"$given/stdout" 2>"$given/stderr" || status=$?
  echo "$status" >"$given/status"
  refuse_each "$tool_program" "$given" answers
  tool=$((tool + runs))
}
module='M DEFINITIONS AUTOMATIC TAGS ::= BEGIN N ::= NULL END\n'
answered_to "$module" module
answered_to "$module====\n00\nzz\n" check --type N --rules per
answered_to "$module====\n00\nzz\n" check --type N --rules per --budget 0
answered_to "$module====\n00\n" show --type N --rules oer --budget 1
answered_to "$module====\nnull\n" encode --rules=oer --type=N
answered_to "$module====\n00\n" convert --type N --rules per
answered_to "$module====\n00\n" newer --type X --rules per
published='M DEFINITIONS AUTOMATIC TAGS ::= BEGIN n INTEGER ::= 7 T ::= SEQUENCE { a INTEGER (0..n), t UTCTime } END\n'
answered_to "$published====\n00\n" show --type T --rules per
answered_to 'M DEFINITIONS ::= BEGIN T ::= { END\n' module
example=$PWD/examples/published
answered_to '' flatten --report json --plain-bits "$example/report.asn" "$example/common.asn"
answered_to "$(cat examples/published/report.per)\n" show --type Report --rules per --module "$example/report.asn" "$example/common.asn"
answered_to "$(cat examples/published/report.per)\n" check --type Report --rules per --module "$example/report.asn" "$example/common.asn"
levels='M DEFINITIONS AUTOMATIC TAGS ::= BEGIN n INTEGER ::= 3 T ::= SEQUENCE { v INTEGER (0..n), next T OPTIONAL } END\n'
answered_to "$levels====\na8\nb8\nb980\n" check --type T --rules per --levels 2 --explain
answered_to '' module --module "$example/flattened.asn"
answered_to '' flatten "$example/flattened.asn"
answered_to '' flatten "$example/report.asn" "$example/report.asn"
answered_to '' newest
answered_to '' check --type N
answered_to '' convert --type N --rules der
answered_to '' --help

echo "refused allocations: $calls of the calls of the libraries, beside those of the rows, $runner of the runner and" \
  "$tool of the program, each answered by memory, or by the answer where the call can do without"
