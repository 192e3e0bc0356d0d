#!/usr/bin/env bash
# Measures `dc delays` and `dc run`: two slaves; 64 clocks; 256 clocks with 199,936 edges; 256 clocks and 97,748 drift frames of the run
# phase; two slaves with 200,000 edges and their rows. run.sh OTHER times another `dc`, given by its path, beside it, by turns, and sees
# that both write the same. The least of five counts (`by_turns.py`).
set -eu
. "$(dirname "${BASH_SOURCE[0]}")/head.sh"

# segment CLOCKS CYCLES CYCLE_NS [SYNC1]: a line of clocks of both widths
segment() {
    awk -v n="$1" -v cycles="$2" -v cycle_ns="$3" -v sync1="${4:-}" 'BEGIN {
        printf "{\"version\":1,\"ppm\":50,\"frame_ns\":1000000,\"speed\":4096,\"loss_run\":2,\"epoch_ns\":800000000000000000,\"cycle_ns\":%d,\"cycles\":%d,\"slaves\":[", cycle_ns, cycles
        for (i = 0; i < n; i++) {
            printf "%s{\"id\":\"S%d\",\"clock\":\"%s\",\"tp_ns\":310,\"tf_ns\":300,\"cable_ps\":%d", i ? "," : "", i, i % 3 == 2 ? "c32" : "c64", i ? 50000 : 20000
            if (i) printf ",\"parent\":\"S%d\",\"port\":1", i - 1
            printf ",\"start\":%d,\"phase_fs\":%d,\"period_fs\":%d,\"shift_ns\":%d", (i * 15485863) % 4000000000, 1 + (i * 104729) % 9000000, 9999500 + (i * 7919) % 1001, (i * 1009) % 40000
            if (sync1 != "") printf ",\"sync1_ns\":%d", sync1
            printf "}"
        }
        print "]}"
    }'
}
segment 64 10 1000000 > "$folder/64"
segment 256 781 1000000 > "$folder/edges"
segment 256 781 122000000 > "$folder/frames"
segment 2 50000 1000000 500 > "$folder/rows"

python3 "$here/by_turns.py" "$program" "$@" <<END
{"name": "delays, two slaves", "words": ["delays"], "input": "$here/../examples/two-slaves.json"}
{"name": "run, 64 clocks", "words": ["run"], "input": "$folder/64"}
{"name": "run, 256 clocks and 199,936 edges", "words": ["run"], "input": "$folder/edges"}
{"name": "run, 256 clocks and 97,748 frames", "words": ["run"], "input": "$folder/frames"}
{"name": "run --edges, two slaves and 200,000 edges", "words": ["run", "--edges"], "input": "$folder/rows"}
END
