#!/usr/bin/env bash
# Builds crates/sha256_digest_c, the static library over crates/sha256_digest, and the test program over it, and runs that.
# Arguments go to the program, as --independent-large.
set -euo pipefail
cd "$(dirname "${BASH_SOURCE[0]}")/../.."

mkdir -p target/tests target/staticlib
(cd crates/sha256_digest_c && rt lib)
cp crates/sha256_digest_c/out/libsha256_digest_c.a target/staticlib/libsha256_digest.a
rustc --edition 2021 -O -D warnings -o target/tests/sha256 tests/sha256/main.rs \
    -L native=target/staticlib -l static=sha256_digest
nm --format=posix target/staticlib/libsha256_digest.a >target/tests/sha256.symbols
exec target/tests/sha256 tests/data/nist-sha256.txt crates/test_vectors/stdout target/tests/sha256.symbols "$@"
