#!/usr/bin/env bash
# Measures what clocks and SYNC units cost. First `LocalClock::advance` over 10^9 fs and over 10^18 fs, a million times each
# by turns: the two cost the same, because no call goes over the ticks of its interval. Then one unit that raises 200,000 edges.
# Then the pattern of a wire: 10,000 frames, one each ms, over 256 clocks, each visited once by each frame (`edges_until` and
# `advance`): units that are not armed, that are armed with a cycle of 1 s, so that hardly a visit has an edge, and with a cycle
# of 1 ms, so that each has one. The best wall clock of five runs counts.
set -eu
here=$(cd "$(dirname "${BASH_SOURCE[0]}")" && pwd)
program=$here/../crates/measured_work/out/measured_work
[ -x "$program" ] || { echo "measure: .ci/run leaves the proved program that this measures" >&2; exit 1; }

# The wall clock of a run of the program, in microseconds.
clock() {
    local start=${EPOCHREALTIME/./}
    "$program" "$@" > /dev/null
    echo $((${EPOCHREALTIME/./} - start))
}

# The lesser of two numbers, the first of which may be missing.
lesser() { [ -n "$1" ] && [ "$1" -le "$2" ] && echo "$1" || echo "$2"; }

short=
long=
edges=
alone=
seldom=
each=
for _ in 1 2 3 4 5; do
    short=$(lesser "$short" "$(clock advance 1000000000 1000000)")
    long=$(lesser "$long" "$(clock advance 1000000000000000000 1000000)")
    edges=$(lesser "$edges" "$(clock edges 101000000000000000)")
    alone=$(lesser "$alone" "$(clock wire 10000 0)")
    seldom=$(lesser "$seldom" "$(clock wire 10000 1000000000)")
    each=$(lesser "$each" "$(clock wire 10000 1000000)")
done
awk -v short="$short" -v long="$long" -v edges="$edges" -v alone="$alone" -v seldom="$seldom" -v each="$each" 'BEGIN {
    printf "advance over 10^9 fs         %6.1f ns\nadvance over 10^18 fs        %6.1f ns\n200,000 edges                %6.3f s\n", short / 1e3, long / 1e3, edges / 1e6
    printf "visit, unit not armed        %6.1f ns\nvisit, an edge each second   %6.1f ns\nvisit, an edge each visit    %6.1f ns\n", alone / 2560, seldom / 2560, each / 2560
}'
