#!/usr/bin/env bash
# Measures what one frame costs at one slave: 20,000 drift frames, one each ms, over a line of 256 clocks whose units are armed with
# a cycle of 122 ms, through `Wire::exchange` and the few lines of `frame_cases` around it. The time of making the wire is taken off.
# The best wall clock of five runs counts.
#
# wire.sh PROGRAM times beside it, by turns, a plain Rust program of the same behaviour, given by its path: its command `run` over such
# a segment with 97,748 frames, the master's side and the report among it.
set -eu
here=$(cd "$(dirname "${BASH_SOURCE[0]}")" && pwd)
program=$here/../crates/frame_cases/out/frame_cases
[ -x "$program" ] || { echo "measure: .ci/run leaves the proved program that this measures" >&2; exit 1; }
other=${1:-}
dir=$(mktemp -d)
trap 'rm -rf "$dir"' EXIT

awk 'BEGIN {
    printf "{\"version\":1,\"ppm\":50,\"frame_ns\":1000000,\"speed\":4096,\"loss_run\":2,\"epoch_ns\":800000000000000000,\"cycle_ns\":122000000,\"cycles\":781,\"slaves\":["
    for (i = 0; i < 256; i++) {
        printf "%s{\"id\":\"S%d\",\"clock\":\"%s\",\"tp_ns\":310,\"tf_ns\":300,\"cable_ps\":%d", i ? "," : "", i, i % 3 == 2 ? "c32" : "c64", i ? 50000 : 20000
        if (i) printf ",\"parent\":\"S%d\",\"port\":1", i - 1
        printf ",\"start\":%d,\"phase_fs\":%d,\"period_fs\":%d,\"shift_ns\":%d}", (i * 15485863) % 4000000000, 1 + (i * 104729) % 9000000, 9999500 + (i * 7919) % 1001, (i * 1009) % 40000
    }
    print "]}"
}' > "$dir/segment"

# wire TIMES: the actions of a wire over which so many drift frames go
wire() {
    echo "table wires"
    echo "segment $(cat "$dir/segment")"
    echo "send 1000000 APWR:0000:0010:0110"
    echo "send 1000000 BWR:0000:09a0:000e450700000000,BWR:0000:0981:03"
    echo "repeat $1 1000000 FRMW:1001:0910:0000000000000000"
}
wire 1 > "$dir/one"
wire 20001 > "$dir/many"

# The wall clock of a command over an input, in microseconds.
clock() {
    local input=$1 start=${EPOCHREALTIME/./}
    shift
    "$@" < "$input" > /dev/null
    echo $((${EPOCHREALTIME/./} - start))
}

# The lesser of two numbers, the first of which may be missing.
lesser() { [ -n "$1" ] && [ "$1" -le "$2" ] && echo "$1" || echo "$2"; }

one=
many=
run=
for _ in 1 2 3 4 5; do
    one=$(lesser "$one" "$(clock "$dir/one" "$program")")
    many=$(lesser "$many" "$(clock "$dir/many" "$program")")
    [ -z "$other" ] || run=$(lesser "$run" "$(clock "$dir/segment" "$other" run)")
done
awk -v one="$one" -v many="$many" -v run="$run" 'BEGIN {
    printf "a frame at a slave                        %5.1f ns\n", (many - one) / (20000 * 256) * 1e3
    if (run != "") printf "a frame at a slave, the other program run %5.1f ns\n", run / (97748 * 256) * 1e3
}'
