#!/usr/bin/env bash
# Measures the commands that make files and drive them: `gen 256 1`, `drill 256 1`, `drill 40 7`, and `migrate` of 256 slaves with 64 rates
# each. files.sh OTHER times another `dc`, given by its path, beside it, by turns, and sees that both write the same. The least of five counts
# (`by_turns.py`).
set -eu
. "$(dirname "${BASH_SOURCE[0]}")/head.sh"

awk 'BEGIN {
    printf "{\"version\":2,\"ppm\":50,\"frame_ns\":1000000,\"speed\":4096,\"loss_run\":2,\"epoch_ns\":800000000000000000,\"cycle_ns\":1000000,\"cycles\":4,\"slaves\":["
    for (i = 0; i < 256; i++) {
        printf "%s{\"id\":\"S%d\",\"clock\":\"c64\",\"tp_ns\":310,\"tf_ns\":300,\"cable_ps\":%d", i ? "," : "", i, i ? 50000 : 20000
        if (i) printf ",\"parent\":\"S%d\",\"port\":1", i - 1
        printf ",\"start\":%d,\"phase_fs\":%d,\"period_fs\":10000000,\"shift_ns\":%d,\"rates\":[", (i * 15485863) % 4000000000, 1 + (i * 104729) % 9000000, (i * 1009) % 40000
        for (k = 1; k <= 64; k++) printf "%s{\"tick\":%d,\"period_fs\":%d}", (k > 1 ? "," : ""), k * 100000, 9999500 + (k * 7919 + i) % 1001
        printf "]}"
    }
    print "]}"
}' > "$folder/rates"

python3 "$here/by_turns.py" "$program" "$@" <<END
{"name": "gen 256 1", "words": ["gen", "256", "1"], "input": null}
{"name": "drill 256 1", "words": ["drill", "256", "1"], "input": null}
{"name": "drill 40 7", "words": ["drill", "40", "7"], "input": null}
{"name": "migrate, 256 slaves with 64 rates each", "words": ["migrate"], "input": "$folder/rates"}
END
