#!/usr/bin/env python3
"""Writes the table `reports` of crates/segment_cases and its right answers.

The texts are worked out from docs/FORMATS.md, "Output", and docs/DEFINITIONS.md, by no more than is said there: path sums by recursion,
bounds by their formulas, spread and window over each pair of edges. What a line asks is said in crates/segment_cases/src/reports.rt.
"""
import json
from itertools import combinations

from stored import store

PORTS = (3, 1, 2)
HEAD = {"version": 1, "ppm": 0, "frame_ns": 1000000, "speed": 4096, "loss_run": 1, "epoch_ns": 800000000000000000, "cycle_ns": 1000000, "cycles": 3}
ROOT = {"id": "A", "clock": "c64", "tp_ns": 310, "tf_ns": 300, "cable_ps": 20000, "start": 0, "phase_fs": 10000000, "period_fs": 10000000}
ONE = dict(ROOT, cable_ps=50000)


def behind(parent, port, **numbers):
    """A clock behind a slave."""
    row = dict(ONE, parent=parent, port=port)
    row.update(numbers)
    return {key: row[key] for key in row if row[key] is not None}


def clockless(name, parent, port, tp_ns, tf_ns):
    """A slave without a clock."""
    return {"id": name, "clock": "none", "tp_ns": tp_ns, "tf_ns": tf_ns, "cable_ps": 50000, "parent": parent, "port": port}


class Segment:
    """A legal segment, its slaves by position."""

    def __init__(self, file):
        self.head = file
        self.rows = file["slaves"]
        self.children = {row["id"]: {} for row in self.rows}
        for row in self.rows:
            if "parent" in row:
                self.children[row["parent"]][row["port"]] = row
        self.order = []
        self.arrive = {}
        self.above = {}
        root = next(row for row in self.rows if "parent" not in row)
        self.place(root, 1000 * root["cable_ps"])
        self.round_trip = 2000 * root["cable_ps"] + self.span(root)
        self.clocks = [p for p, row in enumerate(self.order) if row["clock"] in ("c64", "c32")]
        self.reference = self.clocks[0]

    def below(self, row):
        """The children in frame order."""
        return [self.children[row["id"]][port] for port in PORTS if port in self.children[row["id"]]]

    def span(self, row):
        """From port 0 in to port 0 out (fs)."""
        return 10**6 * row["tp_ns"] + sum(2000 * child["cable_ps"] + self.span(child) + 10**6 * row["tf_ns"] for child in self.below(row))

    def place(self, row, at):
        """The order of the subtree, and when a frame arrives at each of its slaves (fs)."""
        self.order.append(row)
        self.arrive[row["id"]] = at
        at += 10**6 * row["tp_ns"]
        for child in self.below(row):
            self.above[child["id"]] = row
            self.place(child, at + 1000 * child["cable_ps"])
            at += 2000 * child["cable_ps"] + self.span(child) + 10**6 * row["tf_ns"]

    def way(self, row):
        """A slave and its ancestors, up to the root."""
        return [row] + (self.way(self.above[row["id"]]) if row["id"] in self.above else [])

    def delay(self, p):
        """D (fs)."""
        return self.arrive[self.order[p]["id"]] - self.arrive[self.order[self.reference]["id"]]

    def gap(self, length):
        """G (fs)."""
        e = 10 * self.head["ppm"]
        return 10**7 + e * (length // (10**7 - e) + 2)

    def jump(self, length):
        """Q (ns)."""
        return 2 * self.gap(length) // 10**6

    def weight_below(self, top, row):
        """The weight of a slave from one above it."""
        weight, below = 0, row
        while below is not top:
            above = self.above[below["id"]]
            children = self.below(above)
            if len(children) > 1:
                weight += 1 if below in (children[0], children[-1]) else 2
            below = above
        return 0 if row is top else 1 + weight + (1 if self.below(row) else 0)

    def bound(self, p):
        """B (fs)."""
        if p == self.reference:
            return 0
        row, reference = self.order[p], self.order[self.reference]
        ways = self.way(reference)
        top = next(slave for slave in self.way(row) if slave in ways and slave["clock"] != "none")
        weight = self.weight_below(top, row) + self.weight_below(top, reference)
        return (weight * self.gap(self.round_trip) + 10**6) // 2

    def silence(self):
        """The time in which a drift frame comes back (fs)."""
        return (self.head["loss_run"] + 1) * 10**6 * self.head["frame_ns"]

    def copy_bound(self, p):
        """X (fs)."""
        if p == self.reference:
            return 0
        return 10**6 * self.jump(self.silence()) + self.bound(p) + 2 * self.gap(self.silence() + self.delay(p))

    def lock_in(self):
        """K."""
        e, m, f = 10 * self.head["ppm"], self.head["loss_run"], 10**6 * self.head["frame_ns"]
        g = self.head["speed"] // 64
        mu = min(k * f // (10**7 + e) // g - self.jump(k * f) for k in range(1, m + 2))
        measuring = sum(row["clock"] != "none" for row in self.rows)
        first = self.jump((3 * measuring + 3 * len(self.clocks) + m + 1) * f)
        return (m + 1) * -(-max(0, first - self.jump(self.silence())) // mu)

    def shift(self, p, signal):
        """The total shift of a signal (ns)."""
        row = self.order[p]
        return row.get("shift_ns", 0) + (row["sync1_ns"] if signal else 0)

    def window(self, a, b):
        """W of the signals of two edges (fs)."""
        apart = abs(self.shift(a[0], a[1]) - self.shift(b[0], b[1]))
        both = self.copy_bound(a[0]) + self.copy_bound(b[0])
        ticks = (10**6 * apart + 10**7 + both) // 10**7
        return 2 * 10**7 + both + (ticks + 1) * 10 * self.head["ppm"]

    def gap_between(self, a, b):
        """How far apart two edges are, their shifts taken off (fs)."""
        return abs(b[3] - a[3] - 10**6 * (self.shift(b[0], b[1]) - self.shift(a[0], a[1])))


def edges_of(segment, count, fewer, first, late):
    """The edges: position, whether SYNC1, index and time (fs)."""
    edges = []
    for p in segment.clocks:
        for index in range(min(max(0, count - fewer * p), segment.head["cycles"])):
            for signal in (False, True)[: 2 if "sync1_ns" in segment.order[p] else 1]:
                at = first + p * late + 10**6 * (index * segment.head["cycle_ns"] + segment.shift(p, signal))
                edges.append((p, signal, index, at % 2**64))
    return edges


def kind_of(segment, p):
    """The kind in words."""
    kind = segment.order[p]["clock"]
    return "ref" + kind[1:] if p == segment.reference else kind


def answer(start, sent, lost, count, fewer, first, late, lines, file):
    """The three texts of a case."""
    segment = Segment(file)
    edges = edges_of(segment, count, fewer, first, late)
    head = f"slaves {len(segment.order)} clocks {len(segment.clocks)} reference {segment.reference}\n"
    slaves = ""
    for p, row in enumerate(segment.order):
        measured = f"{360 * p} {segment.delay(p)} {segment.bound(p)}" if p in segment.clocks else "- - -"
        slaves += f"{p} {row['id']} {0x1001 + p:04x} {kind_of(segment, p)} {measured}\n"
    frames = f"frames {sent} lost {lost}\n"
    pairs = [(a, b) for a, b in combinations(edges, 2) if a[2] == b[2] and a[0] != b[0]]
    spread = max((segment.gap_between(a, b) for a, b in pairs), default=0)
    window = max((segment.window(a, b) for a, b in pairs), default=0)
    summary = head + (slaves if lines else "") + f"lock_in {segment.lock_in()} difference_ns {segment.jump(segment.silence())}\nstart {start}\n" + frames
    summary += f"edges {len(edges)} spread_fs {spread} window_fs {window}\n"
    rows = "cycle,id,signal,time_fs,shift_ns\n"
    for p, signal, index, at in sorted(edges, key=lambda edge: (edge[2], edge[0], edge[1])):
        rows += f"{index},{segment.order[p]['id']},sync{int(signal)},{at},{segment.shift(p, signal)}\n"
    return head + slaves + frames + summary + rows + "\n"


def cases():
    """START SENT LOST EDGES FEWER FIRST LATE LINES and the file."""
    slow = dict(HEAD, ppm=100, loss_run=3, cycles=2)
    late = {"phase_fs": 10001000, "period_fs": 10001000}
    two = [ROOT, behind("A", 1, id="B")]
    star = [behind("A", 2, id="D"), behind("A", 1, id="C"), behind("A", 3, id="B"), ROOT]
    shifted = [dict(ROOT, shift_ns=7), behind("A", 1, id="B", **late, shift_ns=500000, sync1_ns=400000)]
    # one clock, without edges
    yield 0, 6, 0, 0, 0, 0, 0, False, dict(HEAD, slaves=[ROOT])
    # two slaves in a line, and edges that are apart
    yield 800000000016000000, 30, 0, 3, 0, 21000020000000, 0, True, dict(HEAD, slaves=two)
    yield 800000000016000000, 34, 3, 2, 0, 21000020000000, 7000000, False, dict(HEAD, slaves=two)
    # a slow clock, and more edges than cycles, with shifts and SYNC1
    yield 800000000028000000, 41, 0, 2, 0, 33000020000000, 99682000, True, dict(slow, slaves=[ROOT, behind("A", 1, id="B", **late)])
    yield 800000000028000000, 41, 0, 5, 0, 33000020000000, 1234567, False, dict(slow, slaves=shifted)
    yield 800000000016000000, 30, 0, 3, 0, 21000020000000, 0, True, dict(HEAD, slaves=[ROOT, behind("A", 1, id="B", shift_ns=999999, sync1_ns=999999)])
    # two signals of one slave, which are not compared
    yield 5, 9, 2, 2, 0, 100, 0, False, dict(HEAD, slaves=[dict(ROOT, shift_ns=5, sync1_ns=7)])
    # a star
    yield 1, 15, 0, 1, 0, 0, 10000000, True, dict(HEAD, cycles=1, slaves=star)
    # a slave that measures and is no clock in front of the clocks, and times that wrap
    fork = [dict(ROOT, id="R", clock="r32"), behind("R", 3, id="A", clock="c32"), behind("R", 1, id="B")]
    yield 7, 11, 0, 1, 0, 2**64 - 5, 3, False, dict(HEAD, cycles=1, slaves=fork)
    yield 7, 11, 0, 1, 0, 2**64 - 5, 3, True, dict(HEAD, cycles=1, slaves=fork)
    # clockless slaves between clocks
    between = [ROOT, clockless("J1", "A", 1, 700, 650), clockless("J2", "J1", 1, 320, 300), behind("J2", 1, id="B")]
    yield 7, 11, 0, 1, 0, 0, 0, False, dict(HEAD, cycles=1, slaves=between)
    yield 7, 11, 0, 1, 0, 0, 0, True, dict(HEAD, cycles=1, slaves=between)
    # fewer edges of each later slave: one less, the last index then being that of the first slave alone; and the first slave's alone
    yield 2, 40, 1, 3, 1, 21000020000000, 5, True, dict(HEAD, slaves=two)
    yield 2, 40, 1, 3, 3, 21000020000000, 5, False, dict(HEAD, slaves=two)
    yield 2, 40, 1, 2, 1, 33000020000000, 1234567, True, dict(slow, slaves=shifted)
    # fewer of each: three slaves have one edge at index 0, two at index 1, and one at index 2; the slave without one has the greatest window
    wide = [dict(ROOT, shift_ns=1), behind("A", 3, id="B", shift_ns=90000), behind("A", 1, id="C", shift_ns=3, sync1_ns=70000), behind("C", 1, id="D", shift_ns=499999)]
    for count in (4, 3, 2):
        yield 9, 50, 0, count, 1, 1000, 777777, True, dict(slow, cycles=4, slaves=wide)


def main():
    table, answers = "", ""
    for case in cases():
        *numbers, lines, file = case
        table += " ".join(map(str, numbers)) + (" lines " if lines else " plain ") + json.dumps(file, separators=(",", ":")) + "\n"
        answers += answer(*case)
    store("segment_cases", "reports", table, answers)


main()
