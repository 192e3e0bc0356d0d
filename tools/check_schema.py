"""Checks the schema of segment files; tools/check_schema.sh runs it."""
import copy
import json
import pathlib
import sys

from jsonschema import Draft202012Validator

ROOT = pathlib.Path(__file__).resolve().parent.parent
EXAMPLES = {path.name: json.loads(path.read_text()) for path in sorted((ROOT / 'examples').glob('*.json'))}
GONE = object()

# Rows of the examples that the edits name.
TWO, COUPLERS, JUNCTION, WARMING, SHIFTS, LOSSES = (
    name + '.json' for name in ('two-slaves', 'couplers', 'junction', 'warming', 'shifts', 'losses'))
COUPLER = ('slaves', 1)  # of couplers.json, clockless
HUB = ('slaves', 0)      # of junction.json, r32
CLOCK32 = ('slaves', 3)  # of couplers.json, c32
RATE = ('slaves', 1, 'rates', 0)  # of warming.json


def loss(k):
    return {'phase': 'drift', 'number': k, 'after': 0}


def rates(count):
    return [{'tick': k + 1, 'period_fs': 10000000} for k in range(count)]


def row_like(k):
    return {'id': 'S%d' % k, 'clock': 'none', 'tp_ns': 1, 'tf_ns': 1, 'cable_ps': 0}


# An example, the place of one edit in it, and the value that stands there then.
REFUSED = [
    # the head
    (TWO, (), []),
    (TWO, (), None),
    *((TWO, (key,), GONE) for key in EXAMPLES[TWO]),
    *((TWO, (key,), None) for key in EXAMPLES[TWO]),
    *((TWO, (key,), '1') for key in EXAMPLES[TWO]),
    (TWO, ('version',), 0), (TWO, ('version',), 3), (TWO, ('version',), True),
    (TWO, ('ppm',), -1), (TWO, ('ppm',), 101), (TWO, ('ppm',), 0.5),
    (TWO, ('frame_ns',), 49999), (TWO, ('frame_ns',), 10000001),
    (TWO, ('speed',), 127), (TWO, ('speed',), 16384),
    (TWO, ('loss_run',), -1), (TWO, ('loss_run',), 16),
    (TWO, ('epoch_ns',), -1), (TWO, ('epoch_ns',), 4000000000000000001),
    (TWO, ('cycle_ns',), 49999), (TWO, ('cycle_ns',), 500000001),
    (TWO, ('cycles',), 0), (TWO, ('cycles',), 100001),
    (TWO, ('slaves',), {}),
    (TWO, ('slaves',), [row_like(k) for k in range(257)]),
    (TWO, ('losses',), None), (TWO, ('losses',), {}),
    (TWO, ('losses',), [loss(k + 1) for k in range(10001)]),
    (TWO, ('x',), 0), (TWO, ('Version',), 1), (TWO, ('rates',), []),
    # slave rows
    (TWO, ('slaves', 0), None), (TWO, ('slaves', 0), []),
    *((TWO, ('slaves', 1, key), GONE) for key in EXAMPLES[TWO]['slaves'][1]),
    *((TWO, ('slaves', 1, key), None) for key in EXAMPLES[TWO]['slaves'][1]),
    *((TWO, ('slaves', 1, key), False) for key in EXAMPLES[TWO]['slaves'][1]),
    *((TWO, ('slaves', 0, 'id'), name) for name in ('', 'a' * 17, 'a b', 'a.b', 'A\n', '\u00e9', 'A' * 16 + '\n')),
    (TWO, ('slaves', 0, 'clock'), 'C64'), (TWO, ('slaves', 0, 'clock'), 'c16'),
    (TWO, ('slaves', 0, 'tp_ns'), 0), (TWO, ('slaves', 0, 'tp_ns'), 10001),
    (TWO, ('slaves', 0, 'tf_ns'), 0), (TWO, ('slaves', 0, 'tf_ns'), 10001),
    (TWO, ('slaves', 0, 'cable_ps'), -1), (TWO, ('slaves', 0, 'cable_ps'), 100000001),
    (TWO, ('slaves', 1, 'parent'), ''), (TWO, ('slaves', 1, 'parent'), 'a' * 17), (TWO, ('slaves', 1, 'parent'), 0),
    (TWO, ('slaves', 0, 'parent'), 'B'),
    (TWO, ('slaves', 0, 'port'), 1),
    (TWO, ('slaves', 1, 'port'), 0), (TWO, ('slaves', 1, 'port'), 4),
    (TWO, ('slaves', 0, 'start'), -1), (TWO, ('slaves', 0, 'start'), 2 ** 64),
    (COUPLERS, CLOCK32 + ('start',), 2 ** 32), (JUNCTION, HUB + ('start',), 2 ** 32),
    (TWO, ('slaves', 0, 'phase_fs'), 0), (TWO, ('slaves', 0, 'phase_fs'), 20000001),
    (TWO, ('slaves', 0, 'period_fs'), 0), (TWO, ('slaves', 0, 'period_fs'), 20000001),
    (TWO, ('slaves', 0, 'x'), 0), (TWO, ('slaves', 0, 'cycle_ns'), 1000000),
    # keys that belong to another kind
    *((COUPLERS, COUPLER + (key,), 1) for key in ('start', 'phase_fs', 'period_fs', 'shift_ns', 'sync1_ns')),
    *((COUPLERS, COUPLER + (key,), None) for key in ('start', 'phase_fs', 'period_fs', 'shift_ns', 'sync1_ns')),
    (COUPLERS, COUPLER + ('clock',), 'r32'),
    *((JUNCTION, HUB + (key,), 1) for key in ('shift_ns', 'sync1_ns')),
    *((JUNCTION, HUB + (key,), GONE) for key in ('start', 'phase_fs', 'period_fs')),
    (JUNCTION, HUB + ('clock',), 'none'),
    # rates
    (WARMING, ('version',), 1),
    (TWO, ('slaves', 0, 'rates'), []),
    (WARMING, ('slaves', 1, 'rates'), None), (WARMING, ('slaves', 1, 'rates'), {}), (WARMING, ('slaves', 1, 'rates'), rates(65)),
    (WARMING, ('slaves', 1, 'clock'), 'none'),
    (WARMING, ('slaves', 1), {**row_like(1), 'parent': 'A', 'port': 1, 'rates': []}),
    (WARMING, RATE, None), (WARMING, RATE, []),
    (WARMING, RATE + ('tick',), GONE), (WARMING, RATE + ('tick',), 0), (WARMING, RATE + ('tick',), 1000000000001), (WARMING, RATE + ('tick',), '1'),
    (WARMING, RATE + ('period_fs',), GONE), (WARMING, RATE + ('period_fs',), 0), (WARMING, RATE + ('period_fs',), 20000001),
    (WARMING, RATE + ('x',), 0), (WARMING, RATE + ('phase_fs',), 1),
    # shifts
    (SHIFTS, ('slaves', 1, 'shift_ns'), None), (SHIFTS, ('slaves', 1, 'shift_ns'), -1), (SHIFTS, ('slaves', 1, 'shift_ns'), 500000000),
    (SHIFTS, ('slaves', 1, 'sync1_ns'), None), (SHIFTS, ('slaves', 1, 'sync1_ns'), 0), (SHIFTS, ('slaves', 1, 'sync1_ns'), 500000000),
    # losses
    (LOSSES, ('losses', 0), None), (LOSSES, ('losses', 0), []), (LOSSES, ('losses', 0), 5),
    *((LOSSES, ('losses', 0, key), GONE) for key in ('phase', 'number', 'after')),
    *((LOSSES, ('losses', 0, key), None) for key in ('phase', 'number', 'after')),
    (LOSSES, ('losses', 0, 'phase'), 'Drift'), (LOSSES, ('losses', 0, 'phase'), 'settle'),
    (LOSSES, ('losses', 0, 'number'), 0), (LOSSES, ('losses', 0, 'number'), 100001),
    (LOSSES, ('losses', 0, 'after'), -1), (LOSSES, ('losses', 0, 'after'), 257),
    (LOSSES, ('losses', 0, 'x'), 0),
]

# Edits after which the shape is still right.
ACCEPTED = [
    (TWO, ('version',), 2), (WARMING, ('slaves', 1, 'rates'), GONE), (WARMING, ('slaves', 1, 'rates'), rates(64)),
    (TWO, ('ppm',), 100), (TWO, ('frame_ns',), 50000), (TWO, ('speed',), 16383), (TWO, ('loss_run',), 15), (TWO, ('epoch_ns',), 4000000000000000000),
    (TWO, ('cycle_ns',), 500000000), (TWO, ('cycles',), 100000), (TWO, ('losses',), []), (TWO, ('losses',), [loss(k + 1) for k in range(10000)]),
    (TWO, ('slaves',), [row_like(k) for k in range(256)]), (TWO, ('slaves', 0, 'id'), '-' * 16), (TWO, ('slaves', 0, 'id'), '_'),
    (TWO, ('slaves', 0, 'start'), 2 ** 64 - 1), (COUPLERS, CLOCK32 + ('start',), 2 ** 32 - 1), (JUNCTION, HUB + ('start',), 2 ** 32 - 1),
    (TWO, ('slaves', 0, 'cable_ps'), 100000000), (TWO, ('slaves', 0, 'period_fs'), 20000000), (TWO, ('slaves', 0, 'shift_ns'), 0),
    (SHIFTS, ('slaves', 1, 'sync1_ns'), 1), (LOSSES, ('losses', 0, 'after'), 0), (WARMING, RATE + ('tick',), 1),
]

# Wrong edits of which an editor shows one line.
TOLD_ONCE = [
    *((name, place, GONE) for name, place in ((TWO, ('slaves', 1, 'clock')), (COUPLERS, COUPLER + ('clock',)), (JUNCTION, HUB + ('clock',)), (SHIFTS, ('slaves', 1, 'clock')))),
    (TWO, ('slaves', 1, 'clock'), 'c16'), (COUPLERS, COUPLER + ('clock',), 'c16'),
    (TWO, ('version',), GONE), (WARMING, ('version',), GONE),
]


def edited(name, place, value):
    """The example with the edit; a place of no keys is the whole file."""
    file = copy.deepcopy(EXAMPLES[name])
    if not place:
        return value
    inside = file
    for key in place[:-1]:
        inside = inside[key]
    if value is GONE:
        del inside[place[-1]]
    else:
        inside[place[-1]] = value
    return file


def said(name, place, value):
    text = 'removed' if value is GONE else 'is ' + json.dumps(value)
    return '%s: %s %s' % (name, '.'.join(map(str, place)) or '$', text if len(text) <= 60 else text[:57] + '...')


def main():
    schema = json.loads((ROOT / 'docs' / 'segment.schema.json').read_text())
    Draft202012Validator.check_schema(schema)
    validator = Draft202012Validator(schema)
    faults = []
    for name, file in EXAMPLES.items():
        faults += ['%s is refused: %s' % (name, error.message) for error in validator.iter_errors(file)]
    for edit in ACCEPTED:
        if not validator.is_valid(edited(*edit)):
            faults.append('refused, and should not be: ' + said(*edit))
    for edit in REFUSED:
        if validator.is_valid(edited(*edit)):
            faults.append('accepted, and should not be: ' + said(*edit))
    for edit in TOLD_ONCE:
        told = [error.message for error in validator.iter_errors(edited(*edit))]
        if len(told) != 1:
            faults.append('told %d times: %s' % (len(told), said(*edit)))
    for fault in faults:
        print('check_schema: ' + fault, file=sys.stderr)
    print('check_schema: %d examples, %d right and %d wrong edits, %d that are told once, %d faults' % (
        len(EXAMPLES), len(ACCEPTED), len(REFUSED), len(TOLD_ONCE), len(faults)))
    return 1 if faults else 0


if __name__ == '__main__':
    sys.exit(main())
