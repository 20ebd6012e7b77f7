#!/usr/bin/env bash
# Lookups of ids: the edges program on random scripts of offers and lookups, against the second program. The last line is 'N passed, M failed'.
# The edges program must have been built: .ci/run builds it, or rt run in crates/test_edges.
set -euo pipefail
cd "$(dirname "${BASH_SOURCE[0]}")"
source ../check.sh

check "the second program is built" cargo_oracle build
check "the edges program on random lookups" compare_edges lookups
echo "$passed passed, $failed failed"
[ "$failed" -eq 0 ] && [ "$passed" -gt 0 ]
