# To be read by a tests/NAME/run.sh: counting the tests that it runs, building the second program, and comparing the edges program with it.
PATH=$PATH:${HOME:-/root}/.cargo/bin

passed=0 failed=0

# check NAME COMMAND..: runs COMMAND, a test, and counts it.
check() {
    local name=$1
    shift
    echo "$name"
    if "$@"; then
        echo "$name: ok"
        passed=$((passed + 1))
    else
        echo "$name: FAILED"
        failed=$((failed + 1))
    fi
}

# cargo_oracle COMMAND: build, or test.
cargo_oracle() { cargo "$1" --release --offline --quiet --manifest-path ../../oracle/Cargo.toml --target-dir ../../oracle/target; }

# compare_edges NAME: the whole output of the edges program on the random scripts of the second program's NAME, against what the rules give.
compare_edges() {
    local edges=../../crates/test_edges/out/test_edges
    [ -x "$edges" ] || { echo "there is no crates/test_edges/out/test_edges: run rt run in crates/test_edges first"; return 1; }
    "../../oracle/target/release/$1" "$edges"
}
