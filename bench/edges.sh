# To be read by a script of bench/ at the top of the repository: the instructions of runs of the edges program, as valgrind counts them.
PATH=$PATH:${HOME:-/root}/.cargo/bin
export LC_ALL=C
command -v valgrind >/dev/null || { echo "valgrind is missing here"; exit 1; }

mkdir -p target
folder=$(mktemp -d target/bench.XXXXXX)
trap 'rm -rf "$folder"' EXIT
program=crates/test_edges/out/test_edges
rust=$folder/rust/release

# prepare FUNCTION..: builds the edges program and the second program. What the functions, none of which calls another, take is left out of the counts.
prepare() {
    printing=("$@")
    (cd crates/test_edges && rt run) >"$folder/check.log" 2>&1 </dev/null || { cat "$folder/check.log"; exit 1; }
    cargo build --release --offline --quiet --manifest-path oracle/Cargo.toml --target-dir "$folder/rust"
    local function
    for function in "${printing[@]}"; do
        nm "$program" | grep -q " $function\$" || { echo "$program has no function $function of its own: its instructions cannot be told"; exit 1; }
    done
}

# count SCRIPT: sets counted, the instructions of a run but for those of the printing.
count() {
    # --toggle-collect sets --collect-atstart too, so that comes last
    valgrind --tool=callgrind --callgrind-out-file="$folder/calls" "${printing[@]/#/--toggle-collect=}" --collect-atstart=yes \
        "$program" <"$1" >/dev/null 2>"$folder/valgrind.log" || { cat "$folder/valgrind.log"; exit 1; }
    counted=$(sed -n 's/^totals: //p' "$folder/calls")
}
