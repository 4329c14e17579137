#!/usr/bin/env bash
# Calls the library from C, C++, Rust and Python, on the examples and on the rows of tests/programs/rows.
#
# usage: bindings/test.sh LIBRARY     the folder in which bindings/build.py left the library
#
# It needs no network. A step whose compiler or valgrind is missing is skipped, and a step that fails does not end the
# run. The last line is 'N passed, M failed', with ', K skipped' if steps were skipped.
set -euo pipefail
if [ $# != 1 ] || [ "${1#-}" != "$1" ]; then
    sed -n '2,/^[^#]/s/^# \{0,1\}//p' "$0" >&2
    exit 2
fi
here=$(cd "$(dirname "$0")" && pwd)
out=$(cd "$1" && pwd)
made=$(mktemp -d)
trap 'rm -rf "$made"' EXIT
warn=(-Wall -Wextra -Wpedantic -Werror -O2 -I"$here/c" -I"$here/cpp")
wrap=(-Wl,--wrap=malloc -Wl,--wrap=realloc)
memory=(valgrind -q --error-exitcode=99 --leak-check=full --errors-for-leak-kinds=all)
passed=0 failed=0 skipped=0

# step NAME PROGRAM.. -- COMMAND..: runs the command, if these programs are installed
step() {
    local name=$1 missing=()
    shift
    while [ "$1" != -- ]; do
        command -v "$1" >/dev/null || missing+=("$1")
        shift
    done
    shift
    if [ ${#missing[@]} != 0 ]; then
        echo "$name: SKIPPED, without ${missing[*]}"
        skipped=$((skipped + 1))
    elif "$@"; then
        passed=$((passed + 1))
    else
        echo "$name: FAILED"
        failed=$((failed + 1))
    fi
}

# a program of the folder c, by its name
in_c() {
    gcc -std=c11 "${warn[@]}" "$here/c/$1.c" "$out/libtulvorn.a" "${wrap[@]}" -o "$made/$1" && "$made/$1"
}

in_c_sanitized() {
    gcc -std=c11 "${warn[@]}" -fsanitize=address,undefined "$here/c/$1.c" "$out/libtulvorn.a" "${wrap[@]}" \
        -o "$made/$1-sanitized" && "$made/$1-sanitized"
}

# the rows and the examples, in a file that a caller of each language reads
rows_in_c() {
    gcc -std=c11 "${warn[@]}" "$@" "$here/c/rows.c" "$out/libtulvorn.a" -o "$made/rows-c" &&
        "$made/rows-c" "$made/rows"
}

rows_in_cpp() {
    g++ -std=c++17 "${warn[@]}" "$here/cpp/rows.cpp" -L"$out" -ltulvorn -Wl,-rpath,"$out" -o "$made/rows-cpp" &&
        "$made/rows-cpp" "$made/rows"
}

rows_in_python() {
    TULVORN_LIBRARY="$out/libtulvorn.so" PYTHONPATH="$here/python" PYTHONDONTWRITEBYTECODE=1 \
        python3 "$here/python/rows.py" "$made/rows"
}

in_threads() {
    gcc -std=c11 "${warn[@]}" -pthread "$here/c/threads.c" "$out/libtulvorn.a" -o "$made/threads" && "$made/threads"
}

# one handle in four threads, in memory that cannot be written
in_shared() {
    gcc -std=c11 "${warn[@]}" -pthread "$@" "$here/c/shared.c" "$out/libtulvorn.a" -o "$made/shared" && "$made/shared"
}

in_cpp() {
    g++ -std=c++17 "${warn[@]}" -pthread "$here/cpp/calls.cpp" -L"$out" -ltulvorn -Wl,-rpath,"$out" \
        -o "$made/calls-cpp" && "$made/calls-cpp"
}

in_python() {
    TULVORN_LIBRARY="$out/libtulvorn.so" PYTHONPATH="$here/python" PYTHONDONTWRITEBYTECODE=1 \
        python3 "$here/python/calls.py"
}

in_rust() {
    (cd "$here/rust/tulvorn" &&
        TULVORN_ARCHIVES="$out" CARGO_TARGET_DIR="$made/target" TULVORN_ROWS="$made/rows" \
            cargo test --offline --locked --quiet)
}

if command -v python3 >/dev/null; then python3 "$here/tests/rows.py" "$made/rows"; fi
step "the declarations of the header and the bindings" python3 -- python3 "$here/tests/declarations.py"
for it in calls sessions constraints; do
    step "C, $it" gcc -- in_c $it
    step "C, $it, under valgrind" gcc valgrind -- "${memory[@]}" "$made/$it"
    step "C, $it, under the sanitizers" gcc -- in_c_sanitized $it
done
step "C in threads" gcc -- in_threads
step "C, one handle in threads" gcc -- in_shared
step "C, one handle in threads, under the thread sanitizer" gcc -- in_shared -fsanitize=thread
step "C++" g++ -- in_cpp
step "C++ under valgrind" g++ valgrind -- "${memory[@]}" "$made/calls-cpp"
step "Python" python3 -- in_python
step "Rust, on the rows too" cargo -- in_rust
step "C on the rows" gcc python3 -- rows_in_c
step "C on the rows, under the sanitizers" gcc python3 -- rows_in_c -fsanitize=address,undefined
step "C++ on the rows" g++ python3 -- rows_in_cpp
step "Python on the rows" python3 -- rows_in_python
step "the page's program in C" cc python3 -- python3 "$here/tests/page.py" "$out" c
step "the page's program in C++" c++ python3 -- python3 "$here/tests/page.py" "$out" cpp
step "the page's program in Rust" cargo python3 -- python3 "$here/tests/page.py" "$out" rust
step "the page's program in Python" python3 -- python3 "$here/tests/page.py" "$out" python
step "the page's gateway" cc python3 -- python3 "$here/tests/page.py" "$out" gateway
step "the page's signer" cargo python3 -- python3 "$here/tests/page.py" "$out" signer
step "the page's test bench" python3 -- python3 "$here/tests/page.py" "$out" test_bench.py
note=
[ $skipped = 0 ] || note=", $skipped skipped"
echo "$passed passed, $failed failed$note"
[ $failed = 0 ]
