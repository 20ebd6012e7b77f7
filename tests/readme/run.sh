#!/usr/bin/env bash
# Runs the commands of README.md's blocks marked `sh`, in order and in one POSIX shell, in a folder of their own, and compares what each writes with the block marked `text` after it. The block that
# begins with `# update.sh:` is put into that file. The block marked `rust` must be the main function of crates/example_board, which is proved. The last line is 'N passed, M failed'. The command must have been built: .ci/run builds it, or rt run in crates/silkcliff.
set -euo pipefail
cd "$(dirname "${BASH_SOURCE[0]}")/../.."
root=$PWD
folder=$(mktemp -d)
trap 'rm -rf "$folder"' EXIT
cd "$folder"
ln -s "$root/silkcliff" silkcliff

awk '
    /^```/ && !inside { inside = 1; kind = substr($0, 4); if (kind == "sh") n++; first = 1; next }
    /^```/ { inside = 0; next }
    inside && first { first = 0; if (kind == "sh" && /^# update\.sh:/) { kind = "file"; n-- } }
    inside && kind == "file" { print > "update.sh" }
    inside && kind == "sh" { print > ("block" n) }
    inside && kind == "text" { print > ("expected" n) }
    inside && kind == "rust" { print > "sample" }
    END { print n + 0 > "blocks" }' "$root/README.md"

blocks=$(cat blocks) passed=0 failed=0
# The blocks share their variables, as they do for who types them.
for ((i = 1; i <= blocks; i++)); do printf '{\n%s\n} >written%d\n' "$(cat "block$i")" "$i"; done >script
status=0
sh -eu script || status=$?
for ((i = 1; i <= blocks; i++)); do
    if [ -f "expected$i" ] && cmp "expected$i" "written$i"; then
        passed=$((passed + 1))
    else
        echo "block $i of README.md: FAILED"
        cat "block$i"
        failed=$((failed + 1))
    fi
done
if sed -n '/^fn main() {$/,/^}$/p' "$root/crates/example_board/src/main.rt" | cmp - sample; then passed=$((passed + 1)); else failed=$((failed + 1)); fi
[ "$status" -eq 0 ] || { echo "the blocks ended with status $status"; failed=$((failed + 1)); }
echo "$passed passed, $failed failed"
[ "$failed" -eq 0 ] && [ "$passed" -gt 0 ]
