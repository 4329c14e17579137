#!/usr/bin/env bash
# What install.py makes of the program: the words that bash completes, and a manual page that names each command and option.
# How it compiles, in halves and in parts, is tried on the small program asn_first.
#
# usage: tests/program/installed.sh PROGRAM
set -euo pipefail
top=$(cd "$(dirname "$0")/../.." && pwd)
program=$(realpath "$1")
folder=$(mktemp -d)
trap 'rm -rf "$folder"' EXIT
"$top/install.py" --program "$program" "$folder/at" >/dev/null
passed=0 failed=0

# fails where the words that complete a line are others
completes() {
    local wanted=$1 said
    shift
    said=$(cd "$folder" && bash -c 'source at/share/bash-completion/completions/asn_tool
        COMP_WORDS=(asn_tool "$@") COMP_CWORD=$#; _asn_tool; echo "${COMPREPLY[*]}"' _ "$@")
    if [ "$said" = "$wanted" ]; then
        passed=$((passed + 1))
    else
        failed=$((failed + 1))
        printf 'asn_tool %s: completed by %s, and not by %s\n' "$*" "$said" "$wanted"
    fi
}

completes 'show' sh
completes 'encode' enc
completes 'flatten' fl
completes '--rules' show --type Msg --ru
completes 'per oer uper coer' show --type Msg --rules ''
completes 'oer' convert --type Msg --rules o
completes 'summary text json' flatten --report ''
completes 'at' show --module a
completes '--strict' flatten --s
completes '--explain' show --type Msg --exp
completes 'hex hex-block dump base64 binary' show --in ''
completes 'hex base64 binary' encode --out ''
completes 'name declared' show --order ''
completes 'at' check --messages a

page=$folder/at/share/man/man1/asn_tool.1
for word in flatten module show check encode convert newer '\-\-type' '\-\-rules' '\-\-module' '\-\-report' '\-\-levels' '\-\-explain' '\-\-messages' '\-\-in' '\-\-out' '\-\-split' '\-\-pretty' '\-\-order' '\-\-stats' '\-\-strict' '\-\-accept\-wider'; do
    if grep -qF -- "$word" "$page"; then
        passed=$((passed + 1))
    else
        failed=$((failed + 1))
        printf 'the manual page has no %s\n' "$word"
    fi
done

# fails where the help of a subcommand has a line of more than 80 characters
for command in '' flatten module show check encode convert newer fields types example; do
    wide=$("$program" $command --help | LC_ALL=C.UTF-8 awk 'length > 80' | head -n 1)
    if [ -z "$wide" ]; then
        passed=$((passed + 1))
    else
        failed=$((failed + 1))
        printf 'asn_tool %s --help: a line of more than 80 characters: %s\n' "$command" "$wide"
    fi
done

# of the options that only some subcommands take, help lists those of each
takes() {
    local command=$1 said
    shift
    said=$("$program" "$command" --help | grep -oE '^ {6}--(in|split|out|pretty|order|stats|json|newer|budget|html)\b' | tr -d ' \n')
    if [ "$said" = "$*" ]; then
        passed=$((passed + 1))
    else
        failed=$((failed + 1))
        printf 'asn_tool %s --help lists %s, and not %s\n' "$command" "$said" "$*"
    fi
}

takes show --in--split--pretty--order--budget
takes check --in--split--stats--budget
takes encode --out--newer--budget
takes convert --in--split--out--budget
takes newer --in--pretty--order--json
takes fields --in--split--html--budget

if [ "$("$folder/at/bin/asn_tool" --version)" = "$("$program" --version)" ]; then
    passed=$((passed + 1))
else
    failed=$((failed + 1))
fi

# fails where the program that is compiled in parts answers a line otherwise; after a refusal its status is 1
answers() {
    local said
    said=$(echo "$1" | "$folder/first" | tr '\n' ' ') || true
    if [ "$said" = "$2 " ]; then
        passed=$((passed + 1))
    else
        failed=$((failed + 1))
        printf 'asn_first answers %s by %s, and not by %s\n' "$1" "$said" "$2"
    fi
}

if python3 "$top/builder/unproved.py" --parts "$top/crates/asn_first" "$top" "$folder/first" 2>"$folder/steps"; then
    answers 6c 'id 5, ok TRUE, flag TRUE 6c'
    answers 28 'id 5, ok TRUE 28'
    answers ac '! refused'
    if grep 'in one piece' "$folder/steps"; then
        failed=$((failed + 1))
    fi
else
    failed=$((failed + 1))
    cat "$folder/steps"
fi
echo "$passed passed, $failed failed"
[ "$failed" = 0 ]
