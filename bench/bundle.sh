#!/usr/bin/env bash
# Measures 64 updates in one bundle against 64 single offers through the library, and prints a table of instructions, as valgrind counts them in runs of the edges
# program (crates/test_edges), into which the calls are compiled. Of a run, what the printing takes is left out, and what a run takes that makes no such call: a line with
# a bundle of no items, and no line. So reading the script's line is counted with both, and laying the bundle out with the bundle. The updates are those of
# bench/command.sh: 56 of the 64 have 533 bytes. Store and report must be the same after both. Not a part of the gate. All that it makes is removed at its end, but for
# what rt proved and built.
set -euo pipefail
cd "$(dirname "${BASH_SOURCE[0]}")/.."
source bench/edges.sh
prepare test_edges::show::answered test_edges::show::hex

# count_calls SCRIPT COMMAND OTHER: sets counted, the instructions of a run up to the line with the command, less those with the other line in its place.
count_calls() {
    local other
    sed "/^$2 /{s/.*/$3/;q}" "$1" >"$folder/other"
    sed "/^$2 /q" "$1" >"$folder/whole"
    count "$folder/other"
    other=$counted
    count "$folder/whole"
    counted=$((counted - other))
}

# ending SCRIPT: what the end of its output shows: the store, and the full report.
ending() { "$program" <"$1" | awk '/^\(buffer / { text = "" } { text = text $0 "\n" } END { printf "%s", text }'; }

# row TITLE KIND: counts both, and prints a line of the table.
row() {
    local title=$1 lines=$folder/$2 bundle
    "$rust/flood" "$2" 0 >"$lines"
    "$rust/bundles" lines bundle <"$lines" >"$lines.bundle"
    "$rust/bundles" lines offer <"$lines" >"$lines.offer"
    cmp <(ending "$lines.bundle") <(ending "$lines.offer") || { echo "$title: the two differ"; exit 1; }
    count_calls "$lines.bundle" bundle bundle
    bundle=$counted
    count_calls "$lines.offer" offer ''
    awk -v title="$title" -v bundle="$bundle" -v offers="$counted" 'BEGIN {
        printf "%-28s%14d%14d%10.4f\n", title, bundle, offers, bundle / offers
    }'
}

valgrind --version
echo "Instructions: a bundle of 64, 64 single offers, and the first divided by the second."
printf '%-28s%14s%14s%10s\n' "" bundle "one by one" ratio
row "64 updates in order" ordered
row "the same, reversed" reversed
