#!/usr/bin/env bash
# Measures encoding and decoding, beside the same in Rust, and prints a table.
#
# usage: bash bench/run.sh [ROUNDS]
#
# The room of room.sh is kept, so that a later run proves only what has changed.
# RT is the command rt, if it is not found as that.
set -euo pipefail
rounds=${1:-15}
load=$(cut -d' ' -f1-3 /proc/loadavg)
source "$(dirname "$0")/room.sh"

# both programs; in no round nothing is measured
cd "$room/crates/asn_bench"
if ! nice ${RT:-rt} run -- 0 <"$room/messages" >"$room/build.log" 2>&1; then
    grep -E 'error|no proof|not proved|logic=' "$room/build.log" || tail -n 20 "$room/build.log"
    echo "bench: the program was not built; $room/build.log says more" >&2
    exit 1
fi

# the same octets: by hand, same values, has all messages in both rules, by hand has all in PER, and the trees some
cd "$room"
form() {
    if [ "$1" = rattle ]; then
        nice crates/asn_bench/out/asn_bench "${@:2}" <messages
    else
        nice target/release/baseline "$@"
    fi
}
for name in rattle same hand tree; do form "$name" 0 | grep '^octets' >"$name.octets"; done
grep -v '^octets-oer ' rattle.octets >rattle.per
if ! cmp -s rattle.octets same.octets || ! cmp -s rattle.per hand.octets || grep -qvxFf rattle.octets tree.octets; then
    echo "bench: the programs do not write the same octets" >&2
    exit 1
fi

if [ "$rounds" -eq 0 ]; then exit; fi

# the measurements: the forms take turns, so that what else the machine does falls on all of them
rm -f rattle.txt same.txt hand.txt tree.txt
for ((done = 0; done < rounds; done += 5)); do
    for name in rattle same hand tree; do
        form "$name" $((rounds - done < 5 ? rounds - done : 5)) | grep -v '^octets' >>"$name.txt"
    done
done

echo "$(uname -sm), $(nproc) x $(sed -n 's/^model name[^:]*: //p' /proc/cpuinfo | head -n 1)"
echo "built for $cpu; load before: $load, after: $(cut -d' ' -f1-3 /proc/loadavg)"
echo "ns a message, the least of $rounds rounds and their median; MB/s of encoded octets at the least"
echo
awk '
    # how many octets a message has, and all that are decoded in turn
    FILENAME ~ /octets$/ { size[$1, $2] += NF - 2; count_of[$1, $2]++; next }
    FNR == 1 { form = FILENAME; sub(/\.txt$/, "", form) }
    {
        row = $1 " " $2
        if (!(row in seen)) { seen[row] = 1; rows[++count] = row }
        all[form, row, ++so_far[form, row]] = $3
    }
    # the least time of a row, and in brackets the median
    function times(form, row,   n, i, j, t) {
        n = so_far[form, row]
        for (i = 2; i <= n; i++)
            for (j = i; j > 1 && all[form, row, j - 1] + 0 > all[form, row, j] + 0; j--) {
                t = all[form, row, j]; all[form, row, j] = all[form, row, j - 1]; all[form, row, j - 1] = t
            }
        least[form, row] = all[form, row, 1]
        return sprintf("%.1f (%.1f)", least[form, row], all[form, row, int((n + 1) / 2)])
    }
    # a baseline has that, and the time of Rattle over its own
    function beside(form, row,   text) {
        if (!so_far[form, row]) return " | | "
        text = times(form, row)
        return sprintf(" | %s | %.1f", text, least["rattle", row] / least[form, row])
    }
    END {
        print "| | octets | Rattle ns | MB/s | by hand, same values | ratio | by hand | ratio | same trees | ratio |"
        print "|---|---|---|---|---|---|---|---|---|---|"
        for (at = 1; at <= count; at++) {
            row = rows[at]; split(row, words, " ")
            if (!so_far["rattle", row]) continue
            kind = words[1] ~ /oer$/ ? "octets-oer" : words[1] ~ /turns$/ ? "octets-turns" : "octets"
            octets = size[kind, words[2]] / count_of[kind, words[2]]
            text = times("rattle", row)
            printf "| %s | %d | %s | %.0f%s%s%s |\n", row, octets, text, octets * 1000 / least["rattle", row],
                beside("same", row), beside("hand", row), beside("tree", row)
        }
    }' rattle.octets rattle.txt same.txt hand.txt tree.txt
