#!/usr/bin/env bash
# The command against the second program, and that against the stored sessions, whose outputs were worked out by hand; the command where calls of the system fail
# (faults.sh); the script ./silkcliff (script.sh). The last line is 'N passed, M failed'.
# The command must have been built: .ci/run builds it, or rt run in crates/silkcliff.
set -euo pipefail
cd "$(dirname "${BASH_SOURCE[0]}")"
source ../check.sh

oracle=../../oracle/target/release/oracle
command=../../crates/silkcliff/out/silkcliff
crate=../../crates/silkcliff

# What crates/silkcliff has in its files stdin and stdout is the long session and the second program's output.
long_session() { ./long.sh | cmp - "$crate/stdin" && "$oracle" <"$crate/stdin" | cmp - "$crate/stdout"; }

# compare_command: the whole output of the command against the second program's.
compare_command() {
    [ -x "$command" ] || { echo "there is no crates/silkcliff/out/silkcliff: run rt run in crates/silkcliff first"; return 1; }
    ./compare.sh "$command" limit
}

# said EXPECTED: whether standard error, in $said, has the expected bytes and no others.
said() { printf "$1" | cmp - "$said"; }

# What the command says on standard error: nothing where all is well; a line where reading or writing failed. A directory cannot be read (EISDIR is 21), and
# /dev/full cannot be written (ENOSPC is 28). Standard output has the report in either case, of what came before.
failures_told() {
    local said status=0
    said=$(mktemp)
    "$command" <../sessions/example.in 2>"$said" | cmp - ../sessions/example.out && said '' || status=1
    "$command" </ 2>"$said" | cmp - ../sessions/empty.out || status=1
    said 'silkcliff: reading failed (errno 21); the report is of what came before\n' || status=1
    "$command" <../sessions/example.in 2>"$said" >/dev/full || status=1
    said 'silkcliff: writing failed (errno 28)\n' || status=1
    rm -f "$said"
    return "$status"
}

# A read that would block is made again: the input comes late, by a pipe that dd has marked as one whose reads do not wait.
waits_for_input() {
    { sleep 0.3; cat ../sessions/example.in; } | { dd iflag=nonblock count=0 status=none; "$command" 2>&1; } | cmp - ../sessions/example.out
}

check "the second program is built" cargo_oracle build
check "unit tests of the second program" cargo_oracle test
check "the second program on the stored and random sessions" ./compare.sh "$oracle"
check "the second program on the command's long session" long_session
check "the command on the stored and random sessions, and past the limit of its input" compare_command
check "the command says what failed, and nothing where nothing did" failures_told
check "the command waits for input that comes late" waits_for_input
source ./faults.sh
source ./script.sh
echo "$passed passed, $failed failed"
[ "$failed" -eq 0 ] && [ "$passed" -gt 0 ]
