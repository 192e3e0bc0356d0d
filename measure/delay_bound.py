#!/usr/bin/env python3
"""Looks for the greatest |1,000,000·DELAY - WIRE| / BOUND of a clock in the tables of `dc delays`.

Half of the files are drawn by `dc gen`, and half here: trees of all kinds of slaves, periods that change at the ends of ppm, starts near
the top of a word, long and short cables, and tries of commissioning that are lost. A bound that is passed ends it with status 1.

delay_bound.py [PROGRAM [FILES [SEED]]]: the program of crates/dc_cli/out, 4,000 files and seed 1 where they are not given.
"""
import json
import os
import random
import subprocess
import sys

HERE = os.path.dirname(os.path.abspath(__file__))
PORTS = [3, 1, 2]


def segment(draw):
    """A file of which most are legal."""
    ppm = draw.choice([0, 1, 10, 50, 100, 100, 100])
    end = 10 * ppm
    slaves, free = [], []
    kinds = draw.choice([["c64"], ["c64", "c32"], ["c64", "c32", "r32"], ["c64", "c32", "r32", "none", "none"]])
    for i in range(draw.choice([2, 3, 4, 5, 8, 12, 20])):
        kind = draw.choice(kinds) if i else draw.choice(["c64", "c32", draw.choice(kinds)])
        slave = {
            "id": f"S{i}",
            "clock": kind,
            "tp_ns": draw.choice([1, 310, draw.randrange(1, 2000)]),
            "tf_ns": draw.choice([1, 300, draw.randrange(1, 2000)]),
            "cable_ps": draw.choice([0, 20000, draw.randrange(0, 1000000), 100000000]),
        }
        if i:
            parent, port = free.pop(draw.choice([0, -1, draw.randrange(len(free))]))
            slave |= {"parent": f"S{parent}", "port": port}
        free += [(i, port) for port in draw.sample(PORTS, draw.choice([1, 2, 3, 3]))]
        if kind != "none":
            period = 10000000 + draw.choice([-end, end, draw.randint(-end, end)])
            top = 2**64 if kind == "c64" else 2**32
            slave |= {
                "start": draw.choice([0, top - 1 - draw.randrange(100000), draw.randrange(top)]),
                "phase_fs": draw.choice([1, period, draw.randint(1, period)]),
                "period_fs": period,
                "rates": [
                    {"tick": tick, "period_fs": 10000000 + draw.choice([-end, end])}
                    for tick in sorted(draw.sample(range(1, 3000000), draw.choice([0, 0, 1, 8])))
                ],
            }
        slaves.append(slave)
    lost, number = [], 1
    while draw.random() < 0.6 and number < 60:
        number += draw.randrange(1, 12)
        for _ in range(draw.choice([1, 2])):
            lost.append({"phase": "commission", "number": number, "after": draw.randint(0, len(slaves))})
            number += 1
        number += 1
    return {
        "version": 2,
        "ppm": ppm,
        "frame_ns": draw.choice([1000000, 2000000, 10000000]),
        "speed": 256,
        "loss_run": 0,
        "epoch_ns": 800000000000000000,
        "cycle_ns": 1000000,
        "cycles": 1,
        "slaves": slaves,
        "losses": lost,
    }


def main():
    program = sys.argv[1] if len(sys.argv) > 1 else os.path.join(HERE, "../crates/dc_cli/out/dc_cli")
    files = int(sys.argv[2]) if len(sys.argv) > 2 else 4000
    draw = random.Random(int(sys.argv[3]) if len(sys.argv) > 3 else 1)
    refused, clocks, most = 0, 0, (0, 1, "none")
    for i in range(files):
        if i % 2:
            text, name = json.dumps(segment(draw)).encode(), f"file {i}"
        else:
            words = ["gen", str(draw.randint(1, 256)), str(draw.randrange(2**64))]
            text, name = subprocess.run([program, *words], capture_output=True, check=True).stdout, " ".join(words)
        table = subprocess.run([program, "delays"], input=text, capture_output=True)
        if table.returncode:
            refused += 1
            continue
        for line in table.stdout.decode().splitlines():
            fields = line.split(" ")
            if len(fields) != 7 or not fields[4].isdigit():
                continue
            delay, wire, bound = map(int, fields[4:])
            off = abs(1000000 * delay - wire)
            clocks += 1
            if off > bound:
                print(f"{name}: {line}")
                sys.exit(1)
            if off * most[1] > most[0] * bound:
                most = (off, bound, f"{name}: {line}")
    print(f"{files - refused} files, {refused} refused, {clocks} clocks, greatest part of the bound {most[0] / most[1]:.4f} ({most[2]})")


main()
