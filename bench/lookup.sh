#!/usr/bin/env bash
# Measures ids looked up in one call against as many asked after one by one through the library, in a ledger with 64 updates, and prints a table of instructions, as
# valgrind counts them in runs of the edges program (crates/test_edges), into which the calls are compiled. Of a run, what the printing of the answers takes is left out,
# and what the same run takes with a store of a byte less, where the first call is refused at once. So laying the ids out is left out of the one call: the last column has
# it. Making the ids is counted with the single calls, and is less than that. The updates are those of bench/command.sh, and all ids are unknown. The answers must be the
# same. Not a part of the gate. All that it makes is removed at its end, but for what rt proved and built.
set -euo pipefail
cd "$(dirname "${BASH_SOURCE[0]}")/.."
source bench/edges.sh
prepare test_edges::show::answered test_edges::show::answers

"$rust/flood" ordered 0 | "$rust/bundles" lines bundle | sed '/^bundle /q' >"$folder/full"

# count_run STORE LINE: sets counted, the instructions of a run that fills the ledger and then has the line, with a store of so many bytes.
count_run() {
    { cat "$folder/full"; printf 'buffer 10000\nstore %s\n%s\n' "$1" "$2"; } >"$folder/script"
    count "$folder/script"
}

# count_calls LINE: sets counted, the instructions of the calls that the line makes.
count_calls() {
    local other
    count_run 34111 "$1"
    other=$counted
    count_run 34112 "$1"
    counted=$((counted - other))
}

# answers LINE: the SHA-256 of the answers.
answers() { { cat "$folder/full"; printf 'buffer 10000\n%s\n' "$1"; } | "$program" | grep '^(answers '; }

# row N: counts N ids in one call and one by one, and prints a line of the table.
row() {
    local call single none
    cmp <(answers "spread $1") <(answers "asks $1") || { echo "$1: the two differ"; exit 1; }
    count_calls "spread $1"
    call=$counted
    count_calls "asks $1"
    single=$counted
    count_run 34111 "spread 0"
    none=$counted
    count_run 34111 "spread $1"
    awk -v ids="$1" -v call="$call" -v single="$single" -v laid_out="$((counted - none))" 'BEGIN {
        printf "%-12d%14d%14d%10.4f%16d\n", ids, call, single, call / single, laid_out
    }'
}

valgrind --version
echo "Instructions: ids looked up in one call, one by one, and the first divided by the second; and laying the ids out for the one call."
printf '%-12s%14s%14s%10s%16s\n' ids "one call" "one by one" ratio "laying out"
row 64
row 10000
