#!/usr/bin/env bash
# Runs the program on command lines and inputs where not all is well: the cases of faults.txt, which says how they are
# written, and reads and writes that fail. Compares standard output, standard error and the exit status.
#
#     examples/faults.sh PROGRAM    by a program that is built
#     examples/faults.sh            the standard output of the cases, under `rt try`, which proves nothing
set -euo pipefail
program=${1:+$(realpath "$1")}
cd "$(dirname "$0")"

work=$(mktemp -d)
trap 'rm -rf "$work"' EXIT
mkdir "$work/cases"
failed=0

fail() { # what is told of a case that went wrong
  echo "faults: $*" >&2
  failed=1
}

# ---- the cases, each as the files NAME, NAME.args, NAME.stdout and so on

count=0
begin() { # the words of the command line
  count=$((count + 1))
  name=$work/cases/$(printf '%03d' "$count")
  : >"$name"
  : >"$name.args"
  : >"$name.stdout"
  for part in has_out err has_err; do : >"$work/$part"; done
  local words word
  read -ra words <<<"$1"
  for word in "${words[@]}"; do printf '%b\n' "$word" >>"$name.args"; done
}

repeated() { # the number of lines, and the text
  local line
  line=$(printf '%b' "$2"; echo .)
  yes "${line%.}" | head -n "$1" || true
}

run_case() { # the status that is wanted
  local args status=0
  mapfile -t args <"$name.args"
  "$program" "${args[@]}" <"$name" >"$work/out" 2>"$work/told" || status=$?
  local what="case $count: ${args[*]}"
  [ "$status" = "$1" ] || fail "$what: status $status"
  if [ -s "$work/has_out" ]; then
    lines_stand "$work/has_out" "$work/out" || fail "$what: standard output: $(cat "$work/out")"
  else
    diff -a "$name.stdout" "$work/out" >&2 || fail "$what: standard output"
  fi
  if [ -s "$work/has_err" ]; then
    lines_stand "$work/has_err" "$work/told" || fail "$what: standard error: $(cat "$work/told")"
  else
    diff -a "$work/err" "$work/told" >&2 || fail "$what: standard error"
  fi
}

lines_stand() { # lines, each of which is one of the file
  local line
  while IFS= read -r line; do
    grep -qxF -e "$line" "$2" || return 1
  done <"$1"
}

end_case() { # the status that is wanted
  if [ -n "$program" ]; then
    run_case "$1"
  elif grep -qavxP '[ -~]*' "$name.args"; then
    rm "$name" "$name.args" "$name.stdout" # `rt try` gives a program no words that are not text
  elif [ -s "$work/has_out" ]; then
    rm "$name.stdout"
  fi
}

while IFS= read -r line; do
  text=${line#* }
  [ "$text" != "$line" ] || text=
  case $line in
  '$'*) begin "$text" ;;
  '@ '*) { cat "$text.asn"; echo ====; } >>"$name" ;;
  '<*'*) repeated "$(cut -d' ' -f1 <<<"${line#<\*}")" "$text" >>"$name" ;;
  '<'*) printf '%b' "$text\n" >>"$name" ;;
  '>*'*) repeated "$(cut -d' ' -f1 <<<"${line#>\*}")" "$text" >>"$name.stdout" ;;
  '>'*) printf '%s\n' "$text" >>"$name.stdout" ;;
  '~ '*) printf '%s\n' "$text" >>"$work/has_out" ;;
  '2> '*) printf '%s\n' "$text" >>"$work/err" ;;
  '2~ '*) printf '%s\n' "$text" >>"$work/has_err" ;;
  '= '*) end_case "$text" ;;
  '' | '#'*) ;;
  *) fail "no line of a case: $line" ;;
  esac
done <faults.txt

if [ -z "$program" ]; then
  # in a few steps the interpreter gives no answer, and only the compiled program is run
  (cd ../crates/asn_tool && rt try --steps 1000 --cases "$work/cases")
  exit
fi

# ---- reads and writes that fail

stops() { # what is wanted on standard error; the rest of the command line is the program's
  local want=$1 status=0
  shift
  "$program" "$@" >"$work/out" 2>"$work/told" || status=$?
  [ "$status" = 3 ] || fail "$want: status $status"
  [ "$(cat "$work/told")" = "$want" ] || fail "$want: standard error: $(cat "$work/told")"
  [ ! -s "$work/out" ] || fail "$want: standard output: $(head -c 200 "$work/out")"
}

stops 'read failed' module </proc/self

# words that are refused keep their status where that cannot be told
status=0
"$program" show 2>/dev/full || status=$?
[ "$status" = 2 ] || fail "words that are refused: status $status"

cat rows.asn >"$work/input"
status=0
"$program" module <"$work/input" >/dev/full 2>"$work/told" || status=$?
[ "$status" = 3 ] || fail "write failed: status $status"
[ "$(cat "$work/told")" = 'write failed' ] || fail "write failed: standard error: $(cat "$work/told")"

# each read and each write in turn, by a library that is preloaded (tests/memory/fail_call.c)
kit=$(dirname "$(rt doc)")/toolchain
fails=$work/fail_call.so
if [ -x "$kit/bin/clang" ]; then
  "$kit/bin/clang" -O2 -Wall -shared -fPIC -nostdlib -B"$kit/lib" -fuse-ld="$kit/bin/ld.lld" -o "$fails" \
    ../tests/memory/fail_call.c
else
  "${CC:-cc}" -O2 -shared -fPIC -nostdlib -o "$fails" ../tests/memory/fail_call.c
fi

printf '%s\n' 'M DEFINITIONS AUTOMATIC TAGS ::= BEGIN N ::= NULL END' ==== 00 zz >"$work/input"
printf '%s\n' 'ok 1' '! hex' >"$work/whole"
tried=0
each_fails() { # what is told, and the words of the environment but for the number, which follows them
  local number=0 status
  while :; do
    number=$((number + 1))
    status=0
    timeout 60 env LD_PRELOAD="$fails" "${@:2}$number" "$program" check --type N --rules per \
      <"$work/input" >"$work/out" 2>"$work/told" || status=$?
    [ "$status" = 3 ] || break
    tried=$((tried + 1))
    [ "$(cat "$work/told")" = "$1" ] || fail "$* $number: standard error: $(cat "$work/told")"
    if [ "$1" = 'read failed' ]; then
      [ ! -s "$work/out" ] || fail "$* $number: standard output: $(cat "$work/out")"
    else
      cmp -s -n "$(stat -c %s "$work/out")" "$work/out" "$work/whole" || fail "$* $number: standard output"
    fi
  done
  # with no call left to fail
  [ "$status" = 1 ] && cmp -s "$work/out" "$work/whole" || fail "$* $number: status $status"
}
each_fails 'read failed' FAILED_READ=
each_fails 'write failed' FAILED_WRITE=
each_fails 'write failed' NO_OCTET=1 FAILED_WRITE=
[ "$tried" -ge 20 ] || fail "only $tried calls failed"

# 64 MiB of input, where the process may have 48 MiB
head -c 67108864 /dev/zero >"$work/input"
(
  ulimit -v 49152
  stops memory module <"$work/input"
  exit "$failed"
) || failed=1

[ "$failed" = 0 ] || exit 1
echo "faults: $count cases, $tried reads and writes that fail in turn, and an allocation that fails"
