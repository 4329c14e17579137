#!/usr/bin/env bash
# The quick test after a change: the form, and the rows, texts and types of tests/programs, built without a proof. It takes
# some five minutes of a processor. `.ci/run` has all tests.
#
# usage: tests/quick.sh [ROOM]      ROOM keeps what is built; it is a folder in TMPDIR or /tmp, if not named
set -uo pipefail
cd "$(dirname "$0")/.."
room=${1:-${TMPDIR:-/tmp}/tulvorn-quick-$(id -u)}
passed=0 failed=0

step() { # its name, and the words of a command
  if "${@:2}"; then
    echo "$1: passed"
    passed=$((passed + 1))
  else
    echo "$1: FAILED"
    failed=$((failed + 1))
  fi
}

compared() { # the rows of a folder of tests/programs: what the program prints is what is stored
  "$room/test_quick" "$1" <"tests/programs/$1/stdin" | diff - "tests/programs/$1/stdout"
}

step "the form" tests/tools/prove.py --form
step "the build without a proof" builder/room.py build "$room" tests/programs/quick
for it in rows texts types; do step "$it" compared "$it"; done
echo "$passed passed, $failed failed"
[ "$failed" = 0 ]
