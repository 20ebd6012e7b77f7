#!/bin/sh
# compare.sh PROGRAM [limit]
# Builds the oracle and compares PROGRAM's whole output with it: on the stored sessions, and on
# random sessions of every kind from fixed seeds, each set of updates in two orders. With "limit"
# also on four inputs of more than 4,294,967,296 bytes. Exit status 0 only if all was run and
# nothing differed.
set -eu
if [ $# -lt 1 ] || [ $# -gt 2 ]; then
    echo "usage: $0 PROGRAM [limit]" >&2
    exit 2
fi
if [ ! -f "$1" ] || [ ! -x "$1" ]; then
    echo "FAILED: no program $1"
    exit 1
fi
tests=$(cd "$(dirname "$0")" && pwd)
cargo build --release --offline --quiet \
    --manifest-path "$tests/../../oracle/Cargo.toml" --target-dir "$tests/../../oracle/target"
program=$1
shift
exec "$tests/../../oracle/target/release/compare" "$program" "$tests/../sessions" "$@"
