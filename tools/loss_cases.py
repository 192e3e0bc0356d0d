#!/usr/bin/env python3
"""Writes the table `losses` of crates/segment_cases and its right answers.

Which numbers are the tries of which step is worked out here try by try, from docs/DEFINITIONS.md, "Lost step": a frame of commissioning or
arming is sent up to three times, and each sending takes the next number of its phase. The lock-in count comes from "Bounds" there.
"""
import json
import random

from stored import store

MEASURING = ('r32', 'c32', 'c64')
CLOCKS = ('c32', 'c64')
NS = 1_000_000


def file(kinds, hung=None, ppm=0, loss_run=3, frame_ns=1_000_000, speed=4096):
    """A segment of these kinds; a slave hangs at a port of another row, or else behind the one before it."""
    slaves = []
    for row, kind in enumerate(kinds):
        slave = {'id': 'S%d' % row, 'clock': kind, 'tp_ns': 310, 'tf_ns': 300, 'cable_ps': 20_000}
        place = (hung or {}).get(row, (row - 1, 1) if row else None)
        if place is not None:
            slave['parent'], slave['port'] = 'S%d' % place[0], place[1]
        if kind in MEASURING:
            slave.update(start=0, phase_fs=10_000_000, period_fs=10_000_000)
        slaves.append(slave)
    return {'version': 1, 'ppm': ppm, 'frame_ns': frame_ns, 'speed': speed, 'loss_run': loss_run, 'epoch_ns': 800_000_000_000_000_000,
            'cycle_ns': 1_000_000, 'cycles': 3, 'slaves': slaves, 'losses': []}


def kinds_in_order(file):
    """The kinds of the slaves by position: a frame leaves a slave at the ports 3, 1 and 2."""
    at = {}
    for slave in file['slaves']:
        at[(slave.get('parent'), slave.get('port'))] = slave
    kinds = []

    def visit(slave):
        kinds.append(slave['clock'])
        for port in (3, 1, 2):
            if (slave['id'], port) in at:
                visit(at[(slave['id'], port)])

    visit(at[(None, None)])
    return kinds


def lock_in(file):
    """K: the drift frames until all clocks have taken off what they had to correct."""
    drift, runs = 10 * file['ppm'], file['loss_run'] + 1
    period = file['frame_ns'] * NS
    kinds = [slave['clock'] for slave in file['slaves']]
    reach = (3 * sum(k in MEASURING for k in kinds) + 3 * sum(k in CLOCKS for k in kinds) + runs) * period

    def off(length):
        return 2 * (10 * NS + drift * (length // (10 * NS - drift) + 2)) // NS

    step = min(k * period // (10 * NS + drift) // (file['speed'] // 64) - off(k * period) for k in range(1, runs + 1))
    return runs * -(-max(0, off(reach) - off(runs * period)) // step)


def steps(file):
    """The steps of commissioning and those of arming, with the phase and the first number of each list."""
    kinds = list(enumerate(kinds_in_order(file)))
    commission = (['count'] + ['identify %d' % p for p, _ in kinds] + ['rate', 'latch']
                  + ['times %d' % p for p, k in kinds if k in MEASURING] + ['set %d' % p for p, k in kinds if k in CLOCKS])
    arming = ['arm %d' % p for p, k in kinds if k in CLOCKS]
    return [('commission', 1, commission), ('drift', lock_in(file) + file['loss_run'] + 2, arming)]


def lost(file, command):
    """The step whose three tries are listed, each try with the next number of its phase."""
    listed = {(loss['phase'], loss['number']) for loss in file['losses']}
    for phase, number, asked in steps(file)[:2 if command == 'run' else 1]:
        for step in asked:
            for tried in range(3):
                number += 1
                if (phase, number - 1) not in listed:
                    break
            else:
                return step
    return 'none'


def losing(file, step, tries=3, before=()):
    """The file with so many tries of a step listed, and before it so many of other steps."""
    losses = []
    for phase, number, asked in steps(file):
        for one in asked:
            gone = tries if one == step else dict(before).get(one, 0)
            losses += [{'phase': phase, 'number': number + k, 'after': (number + k) % (len(file['slaves']) + 1)} for k in range(gone)]
            if gone >= 3:
                return dict(file, losses=losses)
            number += gone + 1
    return dict(file, losses=losses)


def with_losses(file, phase, numbers):
    return dict(file, losses=file['losses'] + [{'phase': phase, 'number': n, 'after': 0} for n in numbers])


TWO = file(['c64', 'c64'])
MIXED = file(['c64', 'none', 'r32', 'c32', 'none'])
STAR = file(['r32', 'c32', 'none', 'c64', 'c64'], hung={1: (0, 1), 2: (0, 3), 3: (0, 2), 4: (2, 1)}, ppm=25, loss_run=4)
LINE = file(['r32'] + 6 * ['c64'], ppm=100, loss_run=15)


def table():
    yield '# no frame is lost', None, None
    for segment in (TWO, MIXED, STAR, LINE):
        yield None, 'run', segment
        yield None, 'delays', segment
    for name, segment in (('two clocks', TWO), ('every kind', MIXED), ('a star', STAR), ('a line', LINE)):
        for phase, _, asked in steps(segment):
            for step in asked:
                if phase == 'drift' and segment['loss_run'] < 3:
                    continue
                yield '# %s: the three tries of %s' % (name, step), None, None
                yield None, 'run', losing(segment, step)
                yield None, 'delays', losing(segment, step)
    yield '# two tries are lost, and the third comes', None, None
    for segment in (MIXED, STAR):
        for phase, _, asked in steps(segment):
            for step in asked:
                yield None, 'run', losing(segment, step, 2)
    yield '# losses before move the numbers of a step', None, None
    for step in ('identify 2', 'rate', 'latch', 'times 2', 'set 3', 'arm 3'):
        for before in ((('count', 1),), (('count', 2), ('identify 1', 1)), (('count', 2), ('identify 0', 2), ('identify 1', 2), ('arm 0', 2))):
            yield None, 'run', losing(MIXED, step, 3, before)
            yield None, 'delays', losing(MIXED, step, 3, before)
    yield '# the numbers of one phase lose no step of the other', None, None
    first = steps(MIXED)[1][1]
    yield None, 'run', with_losses(MIXED, 'commission', range(first, first + 3))
    yield None, 'run', with_losses(MIXED, 'drift', (1, 2, 3))
    yield '# three numbers in a row of two steps', None, None
    for at in (2, 3, 4):
        yield None, 'run', with_losses(with_losses(MIXED, 'commission', (1,)), 'commission', range(at + 1, at + 4))
    for at in range(first - 3, first + 4):
        yield None, 'run', with_losses(MIXED, 'drift', range(at, at + 3))
    yield '# both phases lose a step', None, None
    both = losing(MIXED, 'arm 0')
    yield None, 'run', with_losses(both, 'commission', (9, 10, 11))
    yield None, 'delays', with_losses(both, 'commission', (9, 10, 11))
    yield '# losses of any kind', None, None
    draw = random.Random(20)
    for _ in range(60):
        segment = draw.choice((MIXED, STAR, LINE))
        begin = draw.choice((1, 1, steps(segment)[1][1]))
        phase = 'commission' if begin == 1 else 'drift'
        numbers = [n for n in range(begin, begin + 24) if draw.random() < 0.6]
        if phase == 'drift':  # no more in a row than the file allows for
            numbers = [n for k, n in enumerate(numbers) if k < segment['loss_run'] or n - numbers[k - segment['loss_run']] > segment['loss_run']]
        yield None, 'run', with_losses(segment, phase, numbers)
    yield '# no legal file', None, None
    yield None, 'run', dict(TWO, loss_run=16)
    yield None, 'run', with_losses(MIXED, 'drift', (7, 8, 9, 10))


def answer(command, segment):
    runs, last = 0, None
    for number in sorted(loss['number'] for loss in segment['losses'] if loss['phase'] == 'drift'):
        runs = runs + 1 if last == number - 1 else 1
        last = number
        if runs > segment['loss_run']:
            return 'refused'
    return 'refused' if segment['loss_run'] > 15 else lost(segment, command)


def main():
    asked, answers = [], []
    for remark, command, segment in table():
        asked.append(remark or command + ' ' + json.dumps(segment, separators=(',', ':')))
        answers.append(remark or answer(command, segment))
    asked += ['run', 'runs {}', 'delays {}']
    answers += ['unread', 'unread', 'refused']
    store('segment_cases', 'losses', '\n'.join(asked) + '\n', '\n'.join(answers) + '\n')


if __name__ == '__main__':
    main()
