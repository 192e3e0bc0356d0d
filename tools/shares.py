#!/usr/bin/env python3
"""Measures what each crate takes of the gate, in processor minutes.

shares.py

Looks every half second at the checker's processes that the shell which began it has begun, until it is told to end (SIGTERM), and then
prints a row for each crate: the check of the crate, that of its tests, its must-fail edits, and all of them. The gate (.ci/run) runs it
beside `rt ci`. What a process does behind the last look at it is not counted, so the sums are short by a percent or two.
"""
import os, signal, sys, time

TICKS = os.sysconf('SC_CLK_TCK')
KINDS = ('check', 'tests', 'edits')


class Told(Exception):
    """The signal to end."""


def stat_of(pid):
    """The fields of a process behind its name, its parent the second of them."""
    stat = open(f'/proc/{pid}/stat').read()
    return stat[stat.rindex(')') + 2:].split()


def is_below(pid, ancestor):
    """Whether the ancestor, or a process that it began, began the process."""
    while int(pid) > 1:
        pid = stat_of(pid)[1]
        if int(pid) == ancestor:
            return True
    return False


def checker(pid, gate):
    """The process, its crate and kind of work, and its seconds, where it is one of the gate's checks."""
    try:
        words = open(f'/proc/{pid}/cmdline').read().split('\0')
        if os.path.basename(words[0]) != 'rattle' or '--crate-name' not in words or not is_below(pid, gate):
            return None
        crate = words[words.index('--crate-name') + 1]
        where = os.readlink(f'/proc/{pid}/cwd')
        fields = stat_of(pid)
        start, seconds = fields[19], (int(fields[11]) + int(fields[12])) / TICKS
    except (OSError, ValueError, IndexError):
        return None
    kind = 'edits' if '/rt-edit-' in where else 'tests' if '--test' in words else 'check'
    return (crate, kind, pid, start), seconds


def watch(seen):
    """Notes the seconds of each process until the signal comes."""
    gate = os.getppid()
    while True:
        for pid in filter(str.isdigit, os.listdir('/proc')):
            found = checker(pid, gate)
            if found:
                seen[found[0]] = found[1]
        time.sleep(0.5)


def main():
    def end(*_):
        raise Told

    signal.signal(signal.SIGTERM, end)
    began, seen, shares = time.time(), {}, {}
    try:
        watch(seen)
    except Told:
        pass
    for (crate, kind, _, _), seconds in seen.items():
        shares.setdefault(crate, dict.fromkeys(KINDS, 0.0))[kind] += seconds / 60
    print('| Crate | ' + ' | '.join(KINDS) + ' | all |')
    print('|---' * (len(KINDS) + 2) + '|')
    for crate, of in sorted(shares.items(), key=lambda it: -sum(it[1].values())):
        print(f'| `{crate}` | ' + ' | '.join(f'{of[it]:.1f}' for it in KINDS) + f' | {sum(of.values()):.1f} |')
    total = sum(sum(of.values()) for of in shares.values())
    print(f'{total:.0f} processor minutes in {(time.time() - began) / 60:.0f} minutes', flush=True)


sys.exit(main())
