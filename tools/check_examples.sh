#!/usr/bin/env bash
# Sees that the files of examples/ are answered as examples/README.md says: `check`, `delays` and `run` of each legal file, and the
# status and the line on standard error of each refusal. And that the README shows a table as it is written.
#
# check_examples.sh [PROGRAM]; without a program the proved one, which has to be there.
set -eu
here=$(cd "$(dirname "${BASH_SOURCE[0]}")/.." && pwd)
program=${1:-$here/crates/dc_cli/out/dc_cli}
page=$here/examples/README.md
[ -x "$program" ] || { echo "check_examples: .ci/run leaves the proved program that this runs" >&2; exit 1; }

wrong=0
files=0
refusals=0
compare() {
    [ "$2" = "$3" ] || { wrong=1; echo "check_examples: $1: '$2' for '$3'" >&2; }
}

for file in "$here"/examples/*.json; do
    files=$((files + 1))
    name=${file##*/}
    wanted=$(sed -n "s/^| \`$name\` |.*| \`\(legal [^\`]*\)\` |.*/\1/p" "$page")
    answer=$("$program" check < "$file" 2>&1) || true
    compare "$name" "$answer" "$wanted"
    wanted=$(sed -n "s/^| \`$name\` |.*| \`\([-0-9 ]*\)\` |$/\1/p" "$page")
    answer=$("$program" delays < "$file" 2>&1 | awk '/^[0-9]/ { printf "%s%s", behind ? " " : "", $5; behind = 1 }') || true
    compare "$name: delays" "$answer" "$wanted"
    wanted=$(sed -n "s/^| \`$name\` | \`\(lock_in [^\`]*\)\` |$/\1/p" "$page")
    answer=$("$program" run < "$file" 2>&1 | tail -n 4 | awk '{ printf "%s%s", behind ? " / " : "", $0; behind = 1 }') || true
    compare "$name: run" "$answer" "$wanted"
done
wanted=$(awk '/^\$ \.\/dc delays < examples\/two-slaves.json$/ { on = 1; next } /^```/ { on = 0 } on' "$here/README.md")
compare "the README's table" "$("$program" delays < "$here/examples/two-slaves.json")" "$wanted"
for file in "$here"/examples/refused/*.json; do
    refusals=$((refusals + 1))
    name=refused/${file##*/}
    row=$(grep -F "| \`$name\` |" "$page" || true)
    command=$(sed -n 's/.*| `\([a-z]*\)` | [0-9]* | `dc: [^`]*` |.*/\1/p' <<< "$row")
    wanted=$(sed -n 's/.*| `[a-z]*` | \([0-9]*\) | `\(dc: [^`]*\)` |.*/\1 \2/p' <<< "$row")
    status=0
    line=$("$program" "${command:-check}" < "$file" 2>&1) || status=$?
    compare "$name" "$status $line" "$wanted"
done
[ "$wrong" -eq 0 ] && echo "check_examples: $files files, $refusals refusals"
exit "$wrong"
