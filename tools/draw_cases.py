#!/usr/bin/env python3
"""Writes the table `draws` of crates/segment_cases and its right answers.

Segments are drawn and written here by docs/FORMATS.md, "Drawn segments" and "Written files", by no more than is said there.
"""
import json

from stored import store

MODULUS = 2**31 - 1
HEAD = {"version": 1, "ppm": 50, "frame_ns": 1000000, "speed": 4096, "loss_run": 2, "losses": [], "epoch_ns": 800000000000000000, "cycle_ns": 1000000, "cycles": 4}

# N and SEED: one slave; an odd and an even draw for SYNC1; full ports; seeds that wrap; the most slaves and the greatest seed
CASES = ((1, 0), (2, 1), (3, 2), (12, 7), (5, MODULUS - 2), (5, MODULUS - 1), (40, 7), (256, 2**64 - 1))


def generated(count, seed):
    """The file of a segment."""
    state = 1 + seed % (MODULUS - 1)

    def draw(below):
        nonlocal state
        state = 48271 * state % MODULUS
        return state % below

    rows, used = [], set()
    for i in range(count):
        clockless = draw(4) == 0 and i > 0
        narrow = draw(2) == 1
        row = {"id": f"S{i}", "clock": "none" if clockless else "c32" if narrow else "c64"}
        row["tp_ns"] = 300 + draw(50)
        row["tf_ns"] = 280 + draw(50)
        row["cable_ps"] = 5000 + draw(95001)
        branch, parent = draw(4) == 0, draw(max(i, 1))
        high, low = draw(MODULUS), draw(MODULUS)
        clock = {
            "start": 2 * high + low % 2 if narrow else 8589934592 * high + low,
            "period_fs": 9999500 + draw(1001),
            "phase_fs": 1 + draw(9999500),
            "shift_ns": draw(1000000),
            "sync1_ns": draw(1000000),
        }
        if clock["sync1_ns"] % 2 == 0:
            del clock["sync1_ns"]
        if not clockless:
            row.update(clock)
        if i > 0:
            free = [port for port in (1, 2, 3) if (parent, port) not in used]
            place = (parent, free[0]) if branch and free and rows[parent]["clock"] != "none" else (i - 1, 1)
            used.add(place)
            row["parent"], row["port"] = f"S{place[0]}", place[1]
        rows.append(row)
    return json.dumps(dict(HEAD, slaves=rows), sort_keys=True, separators=(",", ":"))


def main():
    cases = "".join(f"{count} {seed}\n" for count, seed in CASES)
    store("segment_cases", "draws", cases, "".join(generated(count, seed) + "\n\n" for count, seed in CASES))


main()
