# Sourced by run.sh: the command where calls of the system move fewer bytes than they are handed, are interrupted, would block or fail. faults.c, put before the C library,
# answers each call by a script; pipes.c runs the command between small pipes that do not wait.

faults=$(mktemp -d)
trap 'rm -rf "$faults"' EXIT

build_faults() {
    cc -O1 -U_FORTIFY_SOURCE -Wall -Wextra -shared -fPIC -o "$faults/faults.so" faults.c -ldl && cc -O1 -Wall -Wextra -o "$faults/pipes" pipes.c
}

# faulty READS WRITES INPUT: runs the command on INPUT with these scripts. What it wrote is in out, what it said in said, and its calls, a letter for each, in calls.
faulty() {
    rm -f "$faults/calls"
    timeout 60 env LD_PRELOAD="$faults/faults.so" FAULTS_READ="$1" FAULTS_WRITE="$2" FAULTS_COUNT="$faults/calls" "$command" <"$3" >"$faults/out" 2>"$faults/said" ||
        { echo "status $? with reads '$1', writes '$2', input $3"; return 1; }
}

reading_failed='silkcliff: reading failed (errno %d); the report is of what came before\n'
writing_failed='silkcliff: writing failed (errno %d)\n'

# left EXPECTED SAID [NUMBER..]: whether the last run wrote the bytes of the file EXPECTED, and said SAID, with its numbers.
left() {
    local expected=$1 words=$2
    shift 2
    cmp "$expected" "$faults/out" && printf "$words" "$@" | cmp - "$faults/said"
}

# whole READS WRITES SESSION..: with these scripts the whole output of each session comes, and nothing is said.
whole() {
    local reads=$1 writes=$2 session
    shift 2
    for session in "$@"; do
        faulty "$reads" "$writes" "../sessions/$session.in" && left "../sessions/$session.out" '' || { echo "session $session, reads '$reads', writes '$writes'"; return 1; }
    done
}

# beginning N INPUT: what the second program writes of the first N bytes of INPUT, as a file.
beginning() { head -c "$1" "$2" | "$oracle" >"$faults/beginning" && echo "$faults/beginning"; }

# Each call once, in order: the input is read and answered, its end is read, and the report comes.
calls_counted() {
    whole '' '' example && printf rwrw | cmp - "$faults/calls" && whole '' '' empty && printf rw | cmp - "$faults/calls"
}

short_reads() { whole '1 2 3 4 5 6 7 again' '' example largest lines blocks last-line-cut; }

short_writes() { whole '' '1 2 3 4 5 6 7 again' example largest full && whole '7 6 5 4 3 2 1 again' '1 again' example full; }

interrupted() { whole 'EINTR EINTR 100 EINTR 1 again' 'EINTR 50 EINTR EINTR 3 again' example largest lines; }

would_block() { whole 'EAGAIN 300 EINTR EAGAIN 700 again' 'EAGAIN 1000 EAGAIN EINTR 1 again' example largest; }

small_pipes() {
    local session
    for session in example largest full; do
        timeout 60 "$faults/pipes" "$command" <"../sessions/$session.in" 2>"$faults/said" | cmp - "../sessions/$session.out" && [ ! -s "$faults/said" ] || { echo "session $session"; return 1; }
    done
}

# A read that fails is the end of the input, at once or later, after one chunk or many; the reads after it, which would answer, are not made.
read_fails() {
    local input=../sessions/example.in n
    faulty 'EIO' '' "$input" && left ../sessions/empty.out "$reading_failed" 5 && printf rw | cmp - "$faults/calls" || return 1
    for n in 1 40 600; do
        faulty "$n EIO" '' "$input" && left "$(beginning "$n" "$input")" "$reading_failed" 5 || { echo "after $n bytes"; return 1; }
    done
    faulty '100 EINTR 200 EAGAIN 300 EIO' '' "$input" && left "$(beginning 600 "$input")" "$reading_failed" 5 || return 1
    faulty 'all EIO' '' ../sessions/blocks.in && left "$(beginning 65536 ../sessions/blocks.in)" "$reading_failed" 5
}

# A write that fails ends the command: nothing is read or written after it. What was taken before it stays. One that takes nothing has failed.
write_fails() {
    local input=../sessions/example.in output=../sessions/example.out answers
    answers=$(head -n 12 "$output" | wc -c)
    faulty '' '10 ENOSPC' "$input" && left <(head -c 10 "$output") "$writing_failed" 28 && printf rww | cmp - "$faults/calls" || return 1
    faulty '' '10 EINTR 20 EAGAIN EIO' "$input" && left <(head -c 30 "$output") "$writing_failed" 5 && printf rwwwww | cmp - "$faults/calls" || return 1
    faulty '' '10 0' "$input" && left <(head -c 10 "$output") "$writing_failed" 5 && printf rww | cmp - "$faults/calls" || return 1
    faulty '' 'all 10 ENOSPC' "$input" && left <(head -c $((answers + 10)) "$output") "$writing_failed" 28 && printf rwrww | cmp - "$faults/calls"
}

# Both are told, the read first.
both_fail() {
    : >"$faults/none"
    faulty '40 EIO' 'ENOSPC' ../sessions/example.in && left "$faults/none" "$reading_failed$writing_failed" 5 28
}

check "the faults are built" build_faults
check "the command makes each call once" calls_counted
check "reads of 1 to 7 bytes" short_reads
check "writes of 1 to 7 bytes" short_writes
check "calls that are interrupted" interrupted
check "calls that would block" would_block
check "small pipes that do not wait" small_pipes
check "a read fails, the first or a later one" read_fails
check "a write fails, of answers or of the report" write_fails
check "a read and a write fail" both_fail
