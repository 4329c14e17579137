#!/usr/bin/env bash
# Runs the program on the examples of this folder, and compares what it writes. Then faults.sh runs it on the command
# lines and inputs of faults.txt, where not all is well.
#
#     examples/run.sh PROGRAM    every order, in both encoding rules, by a program that is built
#     examples/run.sh            three orders on the larger modules, under `rt try`, which proves nothing
#
# Of each module NAME.asn there are values as JSON (NAME.values), what `show` makes of them (NAME.json), and their octets
# in PER and OER (NAME.per, NAME.oer), a line a message. The octets were worked out by reference.py. Of the two versions of
# a module, meter-1.asn and meter-2.asn, there is what each reads of the messages of the other (meter-1.reads-per and so on).
# meter-1.reads-json is what `newer --json` writes of those in PER, by version 1.
# cam.pretty is what `show --pretty --order declared` writes of cam.per, and signalling.counts what `check --stats` tells of signalling.per.
# rows.fields is what `fields` shows of rows.per, cam.html the page of cam.per, and cam.types the type of its messages.
set -euo pipefail
program=${1:+$(realpath "$1")}
cd "$(dirname "$0")"

work=$(mktemp -d)
trap 'rm -rf "$work"' EXIT

fail() {
  echo "examples: $*" >&2
  exit 1
}

input() { # the module, and the lines of which the job is
  cat "$1.asn"
  echo ====
  cat "$2"
}

# ---- a program that is built: each order, and the module's own printed form printed again

expect() { # the module, its type, the order, the rules, the lines, and what is wanted
  input "$1" "$5" | "$program" "$3" --type "$2" --rules "$4" >"$work/out" || fail "$3 $1 $4: status $?"
  cmp "$work/out" "$6" || fail "$3 $1 $4"
}

if [ -n "$program" ]; then
  for name in rows cam bsm signalling; do
    type=Message
    if [ "$name" = rows ]; then type=Msg; fi
    for rules in per oer; do
      other=$([ "$rules" = per ] && echo oer || echo per)
      expect "$name" "$type" encode "$rules" "$name.values" "$name.$rules"
      expect "$name" "$type" show "$rules" "$name.$rules" "$name.json"
      expect "$name" "$type" convert "$rules" "$name.$rules" "$name.$other"
      awk '{ print "ok " length($0) / 2 }' "$name.$rules" >"$work/counts"
      expect "$name" "$type" check "$rules" "$name.$rules" "$work/counts"
    done
    "$program" module <"$name.asn" >"$work/$name.asn" || fail "module $name: status $?"
    "$program" module <"$work/$name.asn" | cmp - "$work/$name.asn" || fail "module $name"
  done
  # two versions of a module: what each makes of the messages of the other
  for rules in per oer; do
    for version in 1 2; do
      other=$((3 - version))
      expect "meter-$version" Report encode "$rules" "meter-$version.values" "meter-$version.$rules"
      expect "meter-$version" Report newer "$rules" "meter-$other.$rules" "meter-$version.reads-$rules"
    done
  done
  # octets in other forms: what encode writes in a form is read in it, and from a file
  for form in hex base64 binary; do
    "$program" encode --type Message --rules per --module cam.asn --out "$form" <cam.values >"$work/$form"
    split=$([ "$form" = binary ] && echo --split || true)
    "$program" show --type Message --rules per --module cam.asn --in "$form" $split --messages "$work/$form" | cmp - cam.json || fail "show --in $form"
  done
  # the layouts of JSON, and what is counted
  "$program" show --type Message --rules per --module cam.asn --pretty --order declared <cam.per | cmp - cam.pretty || fail "show --pretty"
  "$program" check --type Message --rules per --module signalling.asn --stats <signalling.per 2>&1 >"$work/counts" | cmp - signalling.counts || fail "check --stats"
  # messages field by field, a type with its widths, and values that are encoded and shown again
  "$program" fields --type Msg --rules per --module rows.asn <rows.per | cmp - rows.fields || fail "fields"
  "$program" fields --type Message --rules per --module cam.asn --html <cam.per | cmp - cam.html || fail "fields --html"
  "$program" types Message --module cam.asn | cmp - cam.types || fail "types"
  for name in cam bsm signalling; do
    "$program" example --type Message --module "$name.asn" --count 50 >"$work/values" || fail "example $name: status $?"
    for rules in per oer; do
      "$program" encode --type Message --rules "$rules" --module "$name.asn" <"$work/values" >"$work/octets" || fail "encode of example $name $rules"
      "$program" show --type Message --rules "$rules" --module "$name.asn" <"$work/octets" | cmp - "$work/values" || fail "show of example $name $rules"
    done
  done
  # what is skipped in a message of the other version, with its path, and what is taken back
  "$program" newer --type Report --rules per --module meter-1.asn --json <meter-2.per | cmp - meter-1.reads-json || fail "newer --json"
  "$program" newer --type Report --rules per --module meter-2.asn --json <meter-1.per >"$work/lines" || fail "newer --json: status $?"
  "$program" encode --type Report --rules per --module meter-2.asn --newer <"$work/lines" >"$work/octets" || fail "encode --newer: status $?"
  cut -d ' ' -f 1 meter-2.reads-per | "$program" encode --type Report --rules per --module meter-2.asn | cmp - "$work/octets" || fail "encode --newer"
  echo "examples: each order on four modules, newer on two versions of one, in both encoding rules; the forms of octets, layouts and counts; fields, types and examples"
  ./faults.sh "$program"
  exit
fi

# ---- under `rt try`: the program is built once an order

try() { # the order, the rules, the lines of each module, and what is wanted
  mkdir "$work/$1"
  for name in bsm cam signalling; do input "$name" "$name.$3" >"$work/$1/$name"; done
  # in a few steps the interpreter gives no answer, and only the compiled program is run
  (cd ../crates/asn_tool && rt try --steps 1000 --cases "$work/$1" -- "$1" --type Message --rules "$2") \
    >"$work/told" 2>"$work/ends" || fail "$1: $(tail -n 20 "$work/told" "$work/ends")"
  for name in bsm cam signalling; do
    echo "== $name"
    cat "$name.$4"
  done >"$work/wanted"
  diff "$work/wanted" "$work/told" >&2 || fail "$1 does not write what is wanted"
}

try encode per values per
try show per per json
try convert per per oer
echo "examples: three orders on three modules"
./faults.sh
