#!/usr/bin/env bash
# Measures `Tree::new` on 256 rows with all path sums, 10,000 times: half of the trees are a line, the other half have three
# children to a slave. The best wall clock of five runs counts.
set -eu
here=$(cd "$(dirname "${BASH_SOURCE[0]}")" && pwd)
program=$here/../crates/measured_work/out/measured_work
[ -x "$program" ] || { echo "measure: .ci/run leaves the proved program that this measures" >&2; exit 1; }

best=
for _ in 1 2 3 4 5; do
    start=${EPOCHREALTIME/./}
    "$program" trees 10000 > /dev/null
    spent=$((${EPOCHREALTIME/./} - start))
    [ -n "$best" ] && [ "$best" -le "$spent" ] || best=$spent
done
awk -v best="$best" 'BEGIN { printf "10,000 trees  %6.3f s, %5.1f us each\n", best / 1e6, best / 1e4 }'
