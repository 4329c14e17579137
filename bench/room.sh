# Lays out the repository's crates and the program of bench/codec in a room outside the repository, BENCH_ROOM (in TMPDIR
# or /tmp, if not set), builds the program in Rust there, and writes the messages of both. Sourced by run.sh and
# unproved.sh; sets here, top, room and cpu.
here=$(cd "$(dirname "$0")" && pwd)
top=$(dirname "$here")
room=${BENCH_ROOM:-${TMPDIR:-/tmp}/asn-bench-$(id -u)}
# what both compilers build for
cpu=x86-64-v2

"$top/builder/room.py" lay "$room" "$here/codec"

# the messages: a module of all types, and the octets that the Rust program gives by hand
cd "$here/baseline"
RUSTFLAGS="-C target-cpu=$cpu" nice cargo build --quiet --release --offline --locked --target-dir "$room/target"
{
    echo "Messages DEFINITIONS AUTOMATIC TAGS ::= BEGIN"
    sed -e '/DEFINITIONS AUTOMATIC TAGS/d' -e '/^END$/d' "$here"/modules/*.asn
    printf 'END\n====\n'
    "$room/target/release/baseline" same 0 | awk '
        BEGIN {
            split("small wide shifted aligned cam bsm list", names)
            split("Small Wide Shifted Aligned CAM BasicSafetyMessage Readings", types)
            split("200000 20000 500 500 20000 20000 500", times)
        }
        $1 == "octets" || $1 == "octets-turns" {
            hex = " "
            for (at = 3; at <= NF; at++) { gsub(/[^0-9]/, "", $at); hex = hex sprintf("%02x", $at) }
            if ($1 == "octets") first[$2] = hex; else turns[$2] = turns[$2] hex
        }
        END { for (at = 1; at <= 7; at++) print names[at], types[at], times[at] first[names[at]] turns[names[at]] }'
} >"$room/messages"

