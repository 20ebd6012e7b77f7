#!/usr/bin/env bash
# Measures the proved SHA-256 against C and OpenSSL, on one core, and prints a table of ratios.
# Not a part of the gate: a time says nothing about a verdict. All that it makes is removed at its end, but for what rt proved and built.
set -euo pipefail
cd "$(dirname "${BASH_SOURCE[0]}")/.."

mkdir -p target
folder=$(mktemp -d target/bench.XXXXXX)
trap 'rm -rf "$folder"' EXIT
(cd crates/sha256_digest_c && rt lib) >"$folder/staticlib.log" 2>&1 || { cat "$folder/staticlib.log"; exit 1; }
mkdir -p target/staticlib
cp crates/sha256_digest_c/out/libsha256_digest_c.a target/staticlib/libsha256_digest.a
for file in plain unrolled; do
    gcc -O3 -Wall -Wextra -Werror -c -o "$folder/$file.o" "bench/$file.c"
done
rustc --edition 2021 -O -D warnings -o "$folder/sha256" bench/sha256.rs \
    -L native=target/staticlib -l static=sha256_digest \
    -C "link-arg=$folder/plain.o" -C "link-arg=$folder/unrolled.o" -l dl

sed -n '/^model name/ { s/^[^:]*: /CPU: /p; q }' /proc/cpuinfo
grep -qw sha_ni /proc/cpuinfo || echo "It has no SHA instructions: the two rows of OpenSSL measure the same."
gcc --version | sed -n 1p
if command -v openssl >/dev/null; then openssl version; else echo "The command openssl is missing here."; fi
# the first core that this process may use
core=$(taskset -cp $$ | sed 's/.*: //; s/[^0-9].*//')
taskset -c "$core" "$folder/sha256"
