#!/usr/bin/env bash
# Measures `dc check` on inputs of 16 MiB, the most that it reads, that are made to be slow or large: keys and numbers without end,
# deep nesting, the most slaves, rates and losses. Each must be answered rightly within two seconds and 256 MiB. Of some inputs the value
# that `serde_json` makes takes more than that by itself; they are marked `value`, and their memory is shown and not judged. Prints a table
# and ends with 1 where an input is over. `measure/check.sh PROGRAM` measures another program.
set -eu
here=$(cd "$(dirname "${BASH_SOURCE[0]}")" && pwd)
program=${1:-$here/../crates/dc_cli/out/dc_cli}
[ -x "$program" ] || { echo "measure: .ci/run leaves the proved program that this measures" >&2; exit 1; }
command -v python3 > /dev/null || { echo "measure: python3 makes the inputs" >&2; exit 1; }

most_seconds=2
most_kib=262144
give_up=60

folder=$(mktemp -d)
trap 'rm -rf "$folder"' EXIT

# Writes the input of a name, beginning from the example of two slaves.
cat > "$folder/make.py" <<'END'
import json
import sys

SIZE = 16777216
file = json.load(open(sys.argv[1]))
name = sys.argv[2]


def text(value):
    return json.dumps(value, separators=(',', ':'))


def padded(value):
    return text(value).ljust(SIZE)


def filled(front, piece, back):
    """`front`, then piece(0), piece(1) and so on while there is room for `back` and one more, with blanks at the end."""
    parts, room, k = [front], SIZE - len(front) - len(back), 0
    while room >= len(piece(k)):
        parts.append(piece(k))
        room -= len(parts[-1])
        k += 1
    return (''.join(parts) + back).ljust(SIZE)


def in_head(piece):
    """Members in front of those of the file."""
    return filled('{', piece, text(file)[1:])


def in_array(item):
    """One more key of the head, an array with an element again and again."""
    return filled('{"x":[', lambda k: item + ',', item + '],' + text(file)[1:])


def one_value(front, fill, back):
    """One more key of the head, whose value fills the input."""
    front, back = '{"x":' + front, back + ',' + text(file)[1:]
    return front + fill * ((SIZE - len(front) - len(back)) // len(fill)) + back


def key(k):
    """Four letters of a number below 64^4, in rising order."""
    letters = '-0123456789ABCDEFGHIJKLMNOPQRSTUVWXYZ_abcdefghijklmnopqrstuvwxyz'
    return ''.join(letters[k // 64 ** place % 64] for place in (3, 2, 1, 0))


def line(ids, rates):
    """256 clocks, each on port 1 of the one before."""
    row = file['slaves'][1]
    file['slaves'] = [dict(file['slaves'][0], id=ids[0])]
    for k in range(1, 256):
        file['slaves'].append(dict(row, id=ids[k], parent=ids[k - 1]))
    if rates:
        file['version'] = 2
        for row in file['slaves']:
            row['rates'] = [{'tick': 10 ** 12 - 63 + k, 'period_fs': 10000000} for k in range(64)]
    return file


def slaves_of(item):
    head = {k: v for k, v in file.items() if k != 'slaves'}
    return filled(text(head)[:-1] + ',"slaves":[', lambda k: item + ',', item + ']}')


def row_keys():
    head, (first, second) = {k: v for k, v in file.items() if k != 'slaves'}, file['slaves']
    return filled(text(head)[:-1] + ',"slaves":[' + text(first) + ',{', lambda k: '"%s":0,' % key(k), text(second)[1:] + ']}')


def losses():
    file['losses'] = [{'phase': phase, 'number': 100000 - 2 * k, 'after': 2} for k in range(5000) for phase in ('commission', 'drift')]
    return padded(file)


def alike():
    rows = line(['a' * 14 + key(k)[2:] for k in range(256)], False)
    rows['slaves'].reverse()
    return padded(rows)


INPUTS = {
    'keys of the head, rising': lambda: in_head(lambda k: '"%s":0,' % key(k)),
    'keys of the head, falling': lambda: in_head(lambda k: '"%s":0,' % key(64 ** 4 - 1 - k)),
    'keys of a slave row': row_keys,
    'keys of 4 KiB, alike up to the end': lambda: in_head(lambda k: '"%s":0,' % ('a' * 4096 + key(k))),
    'one key again and again': lambda: in_head(lambda k: '"ppm":0,'),
    '10,000 losses': losses,
    '256 slaves with 64 rates each': lambda: padded(line(['S%d' % k for k in range(256)], True)),
    '256 slaves with ids alike': alike,
    '200 arrays in each other': lambda: ('[' * 200 + ']' * 200).ljust(SIZE),
    'arrays in each other, open': lambda: '[' * SIZE,
    'arrays in each other, closed': lambda: '[' * (SIZE // 2) + ']' * (SIZE // 2),
    'objects in each other': lambda: filled('', lambda k: '{"":', ''),
    'arrays of depth 125': lambda: in_array('[' * 125 + ']' * 125),
    'one string': lambda: one_value('"', 'a', '"'),
    'one string of escapes': lambda: one_value('"', '\\u0061', '"'),
    'one number of 16 million digits': lambda: one_value('', '1', ''),
    'one fraction of 16 million digits': lambda: one_value('0.', '1', ''),
    'numbers of 300 digits': lambda: in_array('1' * 300),
    'numbers of 20 digits and an exponent': lambda: in_array('12345678901234567890e-300'),
    'slaves that are numbers': lambda: slaves_of('0'),
    'slaves that are empty objects': lambda: slaves_of('{}'),
    'slaves that are small objects': lambda: slaves_of('{"":0}'),
    'one byte too many': lambda: padded(file) + ' ',
}
sys.stdout.write(INPUTS[name]())
END

# The name of each input, what `dc check` answers, and `value` where the memory of the JSON value is not judged.
two='legal slaves 2 clocks 2 lock_in 0 mu 1542 window_fs 65500000'
most='legal slaves 256 clocks 256 lock_in 0 mu 1542 window_fs 121000000'
cases="keys of the head, rising|dc: segment: shape \$|value
keys of the head, falling|dc: segment: shape \$|value
keys of a slave row|dc: segment: shape slaves[1]|value
keys of 4 KiB, alike up to the end|dc: segment: shape \$
one key again and again|$two
10,000 losses|$two
256 slaves with 64 rates each|$most
256 slaves with ids alike|$most
200 arrays in each other|dc: not JSON
arrays in each other, open|dc: not JSON
arrays in each other, closed|dc: not JSON
objects in each other|dc: not JSON
arrays of depth 125|dc: segment: shape \$|value
one string|dc: segment: shape \$
one string of escapes|dc: segment: shape \$
one number of 16 million digits|dc: not JSON
one fraction of 16 million digits|dc: segment: shape \$
numbers of 300 digits|dc: segment: shape \$
numbers of 20 digits and an exponent|dc: segment: shape \$
slaves that are numbers|dc: segment: shape slaves|value
slaves that are empty objects|dc: segment: shape slaves
slaves that are small objects|dc: segment: shape slaves|value
one byte too many|dc: input too long"

# Runs the program over the input and leaves its seconds and KiB in the file `figures`; given up after a minute.
measure() {
    if [ -x /usr/bin/time ]; then
        /usr/bin/time -o "$folder/figures" -f '%e %M' timeout "$give_up" "$program" check < "$folder/input" > "$folder/answer" 2>&1 || true
    else
        python3 - "$folder/figures" timeout "$give_up" "$program" check 3< "$folder/input" > "$folder/answer" 2>&1 <<'END' || true
import resource
import subprocess
import sys
import time

start = time.monotonic()
subprocess.run(sys.argv[2:], stdin=3)
with open(sys.argv[1], 'w') as figures:
    print('%.2f %d' % (time.monotonic() - start, resource.getrusage(resource.RUSAGE_CHILDREN).ru_maxrss), file=figures)
END
    fi
}

over=0
printf '%-38s %8s %8s\n' input seconds MiB
while IFS='|' read -r name wanted value; do
    python3 "$folder/make.py" "$here/../examples/two-slaves.json" "$name" > "$folder/input"
    measure
    read -r seconds kib < <(tail -n 1 "$folder/figures")
    verdict=$(awk -v s="$seconds" -v k="$kib" -v ms="$most_seconds" -v mk="$most_kib" -v value="$value" 'BEGIN { if (s > ms) printf " too slow"; if (k > mk && value == "") printf " too large" }')
    [ "$(cat "$folder/answer")" = "$wanted" ] || verdict="$verdict answers '$(head -c 60 "$folder/answer" | head -n 1)' for '$wanted'"
    [ -z "$verdict" ] || over=1
    printf '%-38s %8.2f %8.1f%s\n' "$name" "$seconds" "$(awk -v k="$kib" 'BEGIN { print k / 1024 }')" "${value:+  $value}${verdict:+ $verdict}"
done <<< "$cases"
exit "$over"
