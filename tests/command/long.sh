#!/bin/sh
# Prints the long session that crates/silkcliff/stdin holds: random sessions one after the other, the
# last line without its newline. The oracle must be built. Its answer is crates/silkcliff/stdout.
set -eu
gen=$(dirname "$0")/../../oracle/target/release/gen

# The 64 places: forks, updates backwards and settled at once, a void cascade, a list with deletes,
# malformed updates between, a line of 70,000 characters, updates whose predecessors never come. The
# last of these updates is the 65th.
"$gen" 31 fork; echo
"$gen" 38 reversed; echo
"$gen" 13 void; echo
"$gen" 17 list; echo
"$gen" 1 malformed; echo
"$gen" 20 garbage shuffled; echo
"$gen" 49 missing; echo
# No place is left: others, malformed ones and lines that do not read as offers.
"$gen" 1 full; echo
"$gen" 24 garbage shuffled; echo
"$gen" 38 malformed shuffled; echo
# Known ones, in another order.
"$gen" 31 fork shuffled; echo
"$gen" 38 reversed shuffled; echo
"$gen" 13 void shuffled; echo
"$gen" 17 list shuffled; echo
"$gen" 49 missing shuffled
