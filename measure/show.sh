#!/usr/bin/env bash
# Measures `dc show` beside `xxd -r -p` on the same digits: 138,654 frames of 60 bytes, a line each, which is the most that
# an input of 16 MiB holds. Five runs of each by turns; the best wall clock of each counts. Then the most memory that `dc show` held.
set -eu
here=$(cd "$(dirname "${BASH_SOURCE[0]}")" && pwd)
program=$here/../crates/dc_cli/out/dc_cli
[ -x "$program" ] || { echo "measure: .ci/run leaves the proved program that this measures" >&2; exit 1; }

folder=$(mktemp -d)
trap 'rm -rf "$folder"' EXIT
line=ffffffffffff02000000000188a410100e000110100904000000785634120200$(printf '0%.0s' {1..56})
awk -v line="$line" 'BEGIN { for (i = 0; i < 138654; i++) print line }' > "$folder/frames"

# The wall clock of a command over the frames, in microseconds.
clock() {
    local start=${EPOCHREALTIME/./}
    "$@" < "$folder/frames" > "$folder/out"
    echo $((${EPOCHREALTIME/./} - start))
}

best_show=
best_xxd=
for _ in 1 2 3 4 5; do
    show=$(clock "$program" show)
    xxd=$(clock xxd -r -p)
    [ -n "$best_show" ] && [ "$best_show" -le "$show" ] || best_show=$show
    [ -n "$best_xxd" ] && [ "$best_xxd" -le "$xxd" ] || best_xxd=$xxd
done
awk -v show="$best_show" -v xxd="$best_xxd" 'BEGIN {
    printf "dc show   %6.3f s\nxxd -r -p %6.3f s\nratio     %6.2f\n", show / 1e6, xxd / 1e6, show / xxd
}'
[ -x /usr/bin/time ] && /usr/bin/time -f 'memory    %M KiB' "$program" show < "$folder/frames" 2>&1 > "$folder/out"
