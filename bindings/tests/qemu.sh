#!/usr/bin/env bash
# Calls a library for aarch64 from C and C++ under qemu, on the examples and on the rows of tests/programs/rows.
#
# usage: bindings/tests/qemu.sh LIBRARY     the folder in which `bindings/build.py --unproved --target aarch64` left it
#
# The steps are those of bindings/test.sh. Without qemu-aarch64 or a compiler they are skipped. The last line is
# 'N passed, M failed', with ', K skipped' if steps were skipped.
set -euo pipefail
if [ $# != 1 ] || [ "${1#-}" != "$1" ]; then
    sed -n '2,/^[^#]/s/^# \{0,1\}//p' "$0" >&2
    exit 2
fi
here=$(cd "$(dirname "$0")/.." && pwd)
out=$(cd "$1" && pwd)
made=$(mktemp -d)
trap 'rm -rf "$made"' EXIT
gcc=aarch64-linux-gnu-gcc gxx=aarch64-linux-gnu-g++
warn=(-Wall -Wextra -Wpedantic -Werror -O2 -pthread -I"$here/c" -I"$here/cpp")
passed=0 failed=0 skipped=0

# step NAME SOURCE COMPILER.. -- WORD..: compiles the source, and runs it with these words
step() {
    local name=$1 source=$2 compiler=()
    shift 2
    while [ "$1" != -- ]; do
        compiler+=("$1")
        shift
    done
    shift
    if ! command -v qemu-aarch64 >/dev/null || ! command -v "${compiler[0]}" >/dev/null; then
        echo "$name: SKIPPED, without qemu-aarch64 or ${compiler[0]}"
        skipped=$((skipped + 1))
    elif "${compiler[@]}" "${warn[@]}" "$here/$source" "$out/libtulvorn.a" -static -o "$made/program" &&
        qemu-aarch64 "$made/program" "$@"; then
        passed=$((passed + 1))
    else
        echo "$name: FAILED"
        failed=$((failed + 1))
    fi
}

python3 "$here/tests/rows.py" "$made/rows"
for it in calls sessions; do
    step "C, $it" c/$it.c $gcc -std=c11 -Wl,--wrap=malloc -Wl,--wrap=realloc --
done
step "C in threads" c/threads.c $gcc -std=c11 --
step "C, one handle in threads" c/shared.c $gcc -std=c11 --
step "C++" cpp/calls.cpp $gxx -std=c++17 --
step "C on the rows" c/rows.c $gcc -std=c11 -- "$made/rows"
step "C++ on the rows" cpp/rows.cpp $gxx -std=c++17 -- "$made/rows"
note=
[ $skipped = 0 ] || note=", $skipped skipped"
echo "$passed passed, $failed failed$note"
[ $failed = 0 ]
