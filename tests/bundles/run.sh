#!/usr/bin/env bash
# Bundles of updates: the edges program on random scripts of offers and bundles, against the second program. The last line is 'N passed, M failed'.
# The edges program must have been built: .ci/run builds it, or rt run in crates/test_edges.
set -euo pipefail
cd "$(dirname "${BASH_SOURCE[0]}")"
source ../check.sh

check "the second program is built" cargo_oracle build
check "the edges program on random bundles" compare_edges bundles
echo "$passed passed, $failed failed"
[ "$failed" -eq 0 ] && [ "$passed" -gt 0 ]
