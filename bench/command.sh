#!/usr/bin/env bash
# Measures the command against the Rust program (oracle/) on the same inputs, on one core, and prints a table: ratios of time, and the command's speed and peak
# memory. Time is the processor's, user and system together, from the start of a program to its end, so that other jobs on the machine weigh little. What the two
# write is compared on every input. Not a part of the gate: a time says nothing about a verdict. All that it makes is removed at its end, but for what rt proved and built.
set -euo pipefail
cd "$(dirname "${BASH_SOURCE[0]}")/.."
PATH=$PATH:${HOME:-/root}/.cargo/bin
export LC_ALL=C
TIMEFORMAT='%3U %3S'

turns=5
mkdir -p target
folder=$(mktemp -d target/bench.XXXXXX)
trap 'rm -rf "$folder"' EXIT
proved=crates/silkcliff/out/silkcliff
rust=$folder/rust/release/oracle
flood=$folder/rust/release/flood

(cd crates/silkcliff && rt run) >"$folder/check.log" 2>&1 </dev/null || { cat "$folder/check.log"; exit 1; }
cargo build --release --offline --quiet --manifest-path oracle/Cargo.toml --target-dir "$folder/rust"

"$flood" ordered 0 >"$folder/ordered"
"$flood" reversed 0 >"$folder/reversed"
"$flood" ordered 100000000 >"$folder/known"
for kind in hello digit malformed; do "$flood" "$kind" 100000000 >"$folder/$kind"; done
# zero bytes without a newline, and no space on disk
truncate -s 1000000000 "$folder/endless"

sed -n '/^model name/ { s/^[^:]*: /CPU: /p; q }' /proc/cpuinfo
rustc --version
read -r load _ </proc/loadavg
echo "Load average at the start: $load"
# the first core that this process may use
core=$(taskset -cp $$ | sed 's/.*: //; s/[^0-9].*//')
taskset -cp "$core" $$ >/dev/null

# measure PROGRAM INPUT RUNS: sets took, in milliseconds.
measure() {
    local i user system
    { time for ((i = 0; i < $3; i++)); do "$1" <"$2" >/dev/null 2>&3; done; } 3>&2 2>"$folder/took"
    read -r user system <"$folder/took"
    took=$((10#${user/./} + 10#${system/./}))
}

# peak PROGRAM INPUT: prints its peak memory in KB.
peak() {
    if [ -x /usr/bin/time ]; then
        /usr/bin/time -f %M -o "$folder/peak" "$1" <"$2" >/dev/null
    else
        # what the kernel has counted while the input is still open after its last byte
        rm -f "$folder/fifo"
        mkfifo "$folder/fifo"
        "$1" <"$folder/fifo" >/dev/null &
        local process=$!
        { cat "$2" && sleep 0.5 && sed -n 's/^VmHWM:[^0-9]*\([0-9]*\) kB$/\1/p' "/proc/$process/status" >&3; } 3>"$folder/peak" >"$folder/fifo"
        wait "$process"
    fi
    cat "$folder/peak"
}

# row TITLE INPUT RUNS: compares what the two write, measures them in turns, and prints a line of the table.
row() {
    local title=$1 input=$folder/$2 runs=$3 bytes best='' best_rust='' turn
    "$proved" <"$input" >"$folder/proved.out"
    "$rust" <"$input" >"$folder/rust.out"
    cmp "$folder/proved.out" "$folder/rust.out" || { echo "$title: the two programs differ"; exit 1; }
    for ((turn = 0; turn < turns; turn++)); do
        measure "$proved" "$input" "$runs"
        if [ -z "$best" ] || [ "$took" -lt "$best" ]; then best=$took; fi
        measure "$rust" "$input" "$runs"
        if [ -z "$best_rust" ] || [ "$took" -lt "$best_rust" ]; then best_rust=$took; fi
    done
    bytes=$(stat -c %s "$input")
    awk -v title="$title" -v bytes="$bytes" -v runs="$runs" -v took="$best" -v rust="$best_rust" \
        -v peak="$(peak "$proved" "$input")" -v peak_rust="$(peak "$rust" "$input")" 'BEGIN {
        printf "%-52s%8.2f%12.3f%10.1f%8d%10d\n", title, rust / took, took / runs, bytes * runs / took / 1000, peak, peak_rust
    }'
}

echo
echo "Rust's processor time divided by the command's: above 1 the command is the faster one. Best of $turns turns."
echo "ms, MB/s and KB (peak memory) are the command's."
printf '%-52s%8s%12s%10s%8s%10s\n' "" ratio ms MB/s KB "Rust's KB"
: >"$folder/nothing"
row "no input: start and empty report" nothing 300
row "64 updates in order, 56 of them of 533 bytes" ordered 300
row "the same, reversed" reversed 300
row "the same 64 over and over, 100 MB" known 1
row "unread lines (hello), 100 MB" hello 2
row "unread lines: offers, the last digit bad, 100 MB" digit 10
row "offers of malformed updates, refused 2 to 9, 100 MB" malformed 5
row "one endless line, 1 GB" endless 2
