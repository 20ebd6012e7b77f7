# Sourced by run.sh: the script ./silkcliff, with its help, its files and what it says where it builds. It stands in a tree of its own, whose `rt`, called in the
# command's folder, only copies the command.

tree=$(mktemp -d)
trap 'rm -rf "$faults" "$tree"' EXIT

build_tree() {
    mkdir -p "$tree/crates/silkcliff" "$tree/kit" && cp ../../silkcliff "$tree/" && echo 'silkcliff:' >"$tree/crates.txt" &&
        printf '#!/bin/sh\nmkdir -p out && cp "%s" out/silkcliff && echo "logic=proved functions=1"\n' "$(readlink -f "$command")" >"$tree/kit/rt" && chmod +x "$tree/kit/rt"
}

# script STATUS [FILE..]: runs the script, from standard input, and whether its status is STATUS. What it wrote is in out, what it said in said.
script() {
    local expected=$1 status=0
    shift
    PATH=$tree/kit:$PATH timeout 60 "$tree/silkcliff" "$@" >"$tree/out" 2>"$tree/said" || status=$?
    [ "$status" -eq "$expected" ] || { echo "status $status with '$*'"; return 1; }
}

silent() { [ ! -s "$tree/said" ] || { cat "$tree/said"; return 1; }; }

# The help needs no build; the first build says that it is the first, a later one that it builds again, and none is made where nothing changed.
help_and_building() {
    script 0 --help && silent && grep -q '^usage: ./silkcliff \[FILE..\]$' "$tree/out" && [ ! -e "$tree/target" ] || return 1
    script 0 <../sessions/example.in && cmp ../sessions/example.out "$tree/out" && grep -q 'the first time' "$tree/said" && ! grep -q rebuilding "$tree/said" || return 1
    script 0 <../sessions/example.in && cmp ../sessions/example.out "$tree/out" && silent || return 1
    touch -t 209901010000 "$tree/crates.txt"
    script 0 <../sessions/example.in && cmp ../sessions/example.out "$tree/out" && grep -q rebuilding "$tree/said" && ! grep -q 'the first time' "$tree/said" || return 1
    rm "$tree/crates/silkcliff/out/silkcliff"
    script 0 <../sessions/example.in && grep -q rebuilding "$tree/said" && touch -t 200001010000 "$tree/crates.txt"
}

# Files are one input. A newline that a file lacks at its end comes before the next file, and none after the last.
files() {
    local session=../sessions/example
    head -n 5 "$session.in" | head -c -1 >"$tree/first"
    tail -n +6 "$session.in" >"$tree/rest"
    : >"$tree/empty"
    script 0 "$session.in" && silent && cmp "$session.out" "$tree/out" || return 1
    script 0 "$tree/first" "$tree/rest" && silent && cmp "$session.out" "$tree/out" || return 1
    script 0 -- "$tree/empty" "$tree/first" "$tree/empty" "$tree/rest" "$tree/empty" && silent && cmp "$session.out" "$tree/out" || return 1
    script 0 <(cat "$tree/first") "$tree/rest" && silent && cmp "$session.out" "$tree/out" || return 1
    # the last byte is no newline, but 0, and then a letter; the last file's last line lacks its newline
    printf 'x\0' >"$tree/zero"
    printf '(offer )' >"$tree/cut"
    printf 'x\0\n(offer )\n(offer )' | "$command" >"$tree/expected"
    script 0 "$tree/zero" "$tree/cut" "$tree/cut" && silent && cmp "$tree/expected" "$tree/out" || return 1
    # more than a pipe holds, and no line across two files
    script 0 ../sessions/blocks.in "$tree/cut" ../sessions/lines.in && silent &&
        { cat ../sessions/blocks.in; [ "$(tail -c 1 ../sessions/blocks.in | wc -l)" -eq 1 ] || echo; cat "$tree/cut"; echo; cat ../sessions/lines.in; } | "$command" | cmp - "$tree/out"
}

# A file that cannot be read is told before anything is printed, and so is an option that there is not.
not_read() {
    local name
    for name in "$tree/missing" "$tree"; do
        script 1 ../sessions/example.in "$name" && [ ! -s "$tree/out" ] && printf 'silkcliff: cannot read %s\n' "$name" | cmp - "$tree/said" || return 1
    done
    script 2 --report && [ ! -s "$tree/out" ] && [ -s "$tree/said" ]
}

check "a tree for the script" build_tree
check "the script's help, and what it says where it builds" help_and_building
check "the script on files" files
check "the script on files that cannot be read" not_read
