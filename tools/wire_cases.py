#!/usr/bin/env python3
"""Writes the table `wires` of crates/frame_cases and its right answers.

The answers are worked out here from docs/DEFINITIONS.md and docs/FORMATS.md: clocks tick by tick, as in clock_cases.py,
registers by the table of register_cases.py, and slaves and frames in the words of "Frame pass" and "The cable tree".
What a line asks is said in crates/frame_cases/src/wires.rt.
"""
import json
import random

import clock_cases
import register_cases
from register_cases import signed
from stored import store

PORTS = [3, 1, 2]
READS = {"APRD", "APRW", "FPRD", "FPRW", "BRD", "BRW"}
WRITES = {"APWR", "APRW", "FPWR", "FPRW", "BWR", "BRW"}


class Slave:
    def __init__(self, row, keep):
        self.kind = row["clock"]
        self.registers = register_cases.Slave(self.kind)
        self.bits = 64 if self.kind == "c64" else 32
        self.clock = None
        self.event = None
        if self.kind != "none":
            rates = [(r["tick"], r["period_fs"]) for r in row.get("rates", [])]
            osc = clock_cases.Oscillator(row["phase_fs"], row["period_fs"], rates)
            self.clock = clock_cases.Clock(self.bits, osc, row["start"], 64, keep if self.kind != "r32" else 0)

    def get(self, addr, size):
        return sum(self.registers.memory.get(addr + k, 0) << (8 * k) for k in range(size))

    def put(self, addr, size, number):
        for k in range(min(size, self.bits // 8)):
            self.registers.memory[addr + k] = number >> (8 * k) & 0xFF

    def copy(self):
        return self.clock.cut(self.clock.reading + self.get(0x0920, 8))

    def advance(self, t):
        """Tick by tick: an edge at each that is due, and the stamp at the first one at or after an event."""
        clock = self.clock
        if clock is None or t < clock.now:
            return
        last = clock.now
        while clock.next <= t:
            before = last_tick(clock)
            clock.tick()
            if clock.due:
                clock.raise_edges(self.copy())
            if self.event is not None and before < self.event <= clock.now or self.event == 0 == before and clock.taken == 1:
                self.put(0x09AE, 1, 1)
                self.put(0x09B0, 8, self.copy())
                self.event = None
        clock.now = max(t, last)

    def system_time(self):
        return self.clock.cut(self.copy() - self.get(0x0928, 4))

    def read(self, addr, size):
        live = []
        if self.clock is not None:
            due = self.clock.due[0][0] if self.clock.due else None
            live = [(0x0910, self.system_time()), (0x0990, due)]
        told = self.registers.read(addr, size, live)
        return None if told.startswith("refused") else bytes.fromhex(told)

    def write(self, addr, data):
        """Whether it is done, and whether the ports latch."""
        told = self.registers.write(addr, data).split(",")
        if told[0] == "refused":
            return False, False
        told = dict((word + "=").split("=")[:2] for word in told[1:])
        clock = self.clock
        if clock is None:
            return True, "latched" in told
        if "latched" in told:
            self.put(0x0900, 4, clock.reading)
            self.put(0x0918, 8, clock.reading)
        if "received" in told:
            ahead = signed(self.system_time() - int(told["received"]), 32)
            clock.act("receive", ahead)
            self.put(0x092C, 4, (2**31 if ahead < 0 else 0) + min(abs(ahead), 2**31 - 1))
        if "rate" in told:
            clock.act("reset", told["rate"])
            self.put(0x092C, 4, 0)
        if "activation" in told:
            self.activate(int(told["activation"]))
        return True, "latched" in told

    def activate(self, byte):
        cycle, after = self.get(0x09A0, 4), self.get(0x09A4, 4)
        if byte & 3 != 3 or cycle < 1000:
            self.clock.act("disarm")
            return
        second = after if byte & 4 and 1 <= after < cycle else "-"
        self.clock.act("clear")
        self.clock.act("arm", self.get(0x0990, 8), cycle, second)

    def edges(self):
        kept = self.clock.kept() if self.clock else "empty"
        return "none" if kept == "empty" else kept


def last_tick(clock):
    """The instant of the last tick that was taken; 0 where none was."""
    at = 0
    if clock.taken:
        at = clock.next - clock.osc.gap(clock.taken)
    return at


class Wire:
    def __init__(self, text):
        segment = json.loads(text)
        rows = segment["slaves"]
        number = {row["id"]: k for k, row in enumerate(rows)}
        kids = {}
        for k, row in enumerate(rows):
            if "parent" in row:
                kids[number[row["parent"]], row["port"]] = k
            else:
                root = k
        cable = [row["cable_ps"] * 1000 for row in rows]
        tp = [row["tp_ns"] * 1_000_000 for row in rows]
        tf = [row["tf_ns"] * 1_000_000 for row in rows]
        arrive, back, span, order = {}, {}, {}, []

        def visit(k, at):
            """From the arrival at a slave until the frame leaves it by port 0."""
            order.append(k)
            arrive[k] = at
            there = at + tp[k]
            for port in PORTS:
                child = kids.get((k, port))
                if child is not None:
                    there = visit(child, there + cable[child]) + cable[child]
                    back[k, port] = there
                    there += tf[k]
            span[k] = there - at
            return there

        self.way = visit(root, cable[root]) + cable[root]
        self.slaves = []
        for k in order:
            slave = Slave(rows[k], segment["cycles"])
            slave.arrive = arrive[k]
            slave.back = {port: back[k, port] for port in PORTS if (k, port) in back}
            status = sum(1 << (4 + p) | 1 << (9 + 2 * p) if p == 0 or p in slave.back else 1 << (8 + 2 * p) for p in range(4))
            slave.put(0x0110, 2, status)
            self.slaves.append(slave)
        self.losses = {(l["phase"], l["number"]): l["after"] for l in segment.get("losses", [])}
        self.numbers = {"commission": 0, "drift": 0}
        self.sent = self.lost = self.last = self.free = 0

    def exchange(self, wait, datagrams):
        phase = "drift" if datagrams[0][0] == "FRMW" else "commission"
        at = max(self.last + min(wait, 10_000_000) * 1_000_000, self.free)
        self.last, self.free = at, at + self.way
        self.sent += 1
        self.numbers[phase] += 1
        after = self.losses.get((phase, self.numbers[phase]))
        reach = len(self.slaves) if after is None else after
        end = self.slaves[reach].arrive if reach < len(self.slaves) else None
        for slave in self.slaves[:reach]:
            slave.advance(at + slave.arrive)
            latches = False
            for datagram in datagrams:
                latches |= pass_one(slave, datagram)
            for port in PORTS:
                if latches and port in slave.back and (end is None or slave.back[port] < end):
                    slave.advance(at + slave.back[port])
                    if slave.clock:
                        slave.put({1: 0x0904, 2: 0x0908, 3: 0x090C}[port], 4, slave.clock.reading)
        if after is not None:
            self.lost += 1
        return after is None

    def act(self, what, rest):
        if what == "send":
            wait, words = rest.split(" ")
            datagrams = [[w, int(adp, 16), int(ado, 16), bytes.fromhex(data), 0] for w, adp, ado, data in (d.split(":") for d in words.split(","))]
            if not self.exchange(int(wait), datagrams):
                return "lost"
            return ",".join("%04x:%s:%d" % (adp, data.hex(), wkc) for _, adp, _, data, wkc in datagrams)
        if what == "finish":
            self.free = max(self.free, int(rest))
            for slave in self.slaves:
                slave.advance(int(rest))
            return "-"
        if what == "expect":
            position, t = map(int, rest.split())
            self.slaves[position].event = t
            return "-"
        if what == "read":
            position, ado, size = rest.split()
            data = self.slaves[int(position)].read(int(ado, 16), int(size))
            return "refused" if data is None else data.hex()
        if what == "edges":
            return self.slaves[int(rest)].edges()
        return f"sent {self.sent} lost {self.lost}"


def pass_one(slave, datagram):
    """Changes the datagram as the slave does, and tells whether the slave's ports latch."""
    command, adp, ado, data, _ = datagram
    own = adp == slave.get(0x0010, 2)
    kind = command[0]
    addressed = {"A": adp == 0, "F": own, "B": True}.get(kind, False) and command not in ("ARMW", "FRMW")
    if command in ("ARMW", "FRMW"):
        mine = own if command == "FRMW" else adp == 0
        reads, writes = mine, not mine
    else:
        reads, writes = addressed and command in READS, addressed and command in WRITES
    if kind in "AB" and command != "NOP":
        datagram[1] = (adp + 1) % 65536
    gain, latches = 0, False
    if reads:
        found = slave.read(ado, len(data))
        if found is not None:
            gain += 1
            datagram[3] = bytes(a | b for a, b in zip(data, found)) if kind == "B" else found
    if writes:
        done, latches = slave.write(ado, data)
        gain += (2 if reads else 1) if done else 0
    datagram[4] = (datagram[4] + gain) % 65536
    return latches


def answers(lines):
    wire = None
    for line in lines:
        what, _, rest = line.partition(" ")
        if what == "segment":
            wire = Wire(rest)
            yield f"slaves {len(wire.slaves)}"
        elif what == "#" or not rest:
            yield line
        else:
            yield wire.act(what, rest)


# Cases.

def row(name, kind, parent=None, port=None, cable=50_000, tp=310, tf=300, start=0, phase=10_000_000, period=10_000_000, rates=()):
    told = {"id": name, "clock": kind, "tp_ns": tp, "tf_ns": tf, "cable_ps": cable}
    if parent:
        told.update(parent=parent, port=port)
    if kind != "none":
        told.update(start=start, phase_fs=phase, period_fs=period)
        if rates:
            told["rates"] = [{"tick": t, "period_fs": p} for t, p in rates]
    return told


def segment(rows, losses=(), ppm=0, cycles=3, loss_run=1, epoch=0):
    told = {"version": 2, "ppm": ppm, "frame_ns": 1_000_000, "speed": 4096, "loss_run": loss_run, "epoch_ns": epoch, "cycle_ns": 1_000_000,
            "cycles": cycles, "slaves": rows, "losses": [{"phase": p, "number": n, "after": a} for p, n, a in losses]}
    return "segment " + json.dumps(told, separators=(",", ":"))


def by_hand():
    star = [row("D", "c64", "A", 2), row("C", "c64", "A", 3), row("B", "c64", "A", 1), row("A", "c64", cable=20_000)]
    yield "# one latch frame over a star: the ports of the root at 1000020, 1001450, 1002160 and 1000740"
    yield segment(star)
    yield "send 1000000 BWR:0000:0900:00000000"
    for addr in ("0900", "0904", "0908", "090c", "0918"):
        yield f"read 0 {addr} {8 if addr == '0918' else 4}"
    yield "# a later datagram of a frame reads the old port latch; the frame after it reads the new one"
    yield "send 1000000 BWR:0000:0900:00000000,APRD:0000:0900:" + "00" * 16
    yield "send 1000000 APRD:0000:0900:" + "00" * 16
    yield "# a frame lost after two slaves: the ports that it came back into before it would have arrived at the third"
    yield segment(star, [("commission", 2, 2), ("commission", 3, 4), ("drift", 1, 0)])
    yield "send 1000000 BWR:0000:0010:0110"
    yield "send 1000000 BWR:0000:0900:00000000"
    for position in range(4):
        yield f"read {position} 0900 16"
    yield "# lost on the way back: every port latches; then a drift frame that reaches none"
    yield "send 1000000 BWR:0000:0900:00000000"
    for position in range(4):
        yield f"read {position} 0900 16"
    yield "send 1000000 FRMW:1001:0910:0000000000000000"
    yield "send 1000000 FRMW:1001:0910:0000000000000000"
    yield "sent all"
    yield "# frames do not leave before the one before them came back, nor before what was given to finish"
    yield "send 0 BRD:0000:0910:0000000000000000"
    yield "send 0 BRD:0000:0910:0000000000000000"
    yield "finish 20000000000000"
    yield "send 1 BRD:0000:0910:0000000000000000"
    yield "# a clockless slave and one of receive times alone: accesses that they refuse raise no counter"
    yield segment([row("A", "c64"), row("B", "none", "A", 1), row("C", "r32", "B", 3), row("D", "c32", "C", 1)])
    for words in ("BWR:0000:0900:00000000", "BRD:0000:0918:0000000000000000", "BRD:0000:0910:0000", "BWR:0000:0920:01", "BRW:0000:0010:0101",
                  "BRD:0000:0000:0000", "BRD:0000:0008:0000", "BRD:0000:0110:0000", "NOP:0000:0000:0000", "LRW:0000:0900:00000000", "BRD:0000:0ffe:000000"):
        yield "send 100000 " + words
    for position in range(4):
        yield f"read {position} 0900 8"
        yield f"read {position} 0918 8"
    yield "# the comparison: four bytes of the system time, less the delay; three bytes compare nothing"
    yield segment([row("A", "c64"), row("B", "c32", "A", 1, start=4294967290)])
    yield "send 1000 APWR:0000:0010:0110,APWR:ffff:0010:0210"
    yield "send 1000 FPWR:1002:0920:0500000000000000,FPWR:1002:0928:07000000"
    for words in ("FPWR:1002:0910:000000", "FPWR:1002:0910:00000000", "FRMW:1001:0910:00000000", "FPWR:1002:0910:ffffff7f"):
        yield "send 1000 " + words
        yield "send 1000 FPRD:1002:0910:0000000000000000,FPRD:1002:092c:00000000"
    yield "send 1000 FPWR:1002:0930:8001,FPRD:1002:092c:00000000"
    yield "# events of the latch input: at a tick, between two, and one of the past"
    yield segment([row("A", "c64"), row("B", "c64", "A", 1, phase=3_000_000)])
    yield "expect 0 100000000"
    yield "expect 1 100000001"
    yield "read 1 09ae 10"
    yield "send 0 APRD:0000:09ae:" + "00" * 10
    yield "send 0 APRD:ffff:09ae:" + "00" * 10
    yield "expect 0 100000001"
    yield "finish 200000000"
    yield "read 0 09ae 10"
    yield "expect 0 1"
    yield "send 5 APRD:0000:09ae:" + "00" * 10
    yield "read 0 09b0 8"
    yield "# an edge each 1000 ns from the start on; SYNC1 250 ns later; arming drops the old edges"
    yield segment([row("A", "c64")], cycles=4)
    yield "send 1 APWR:0000:0990:8813000000000000,APWR:0000:09a0:e8030000,APWR:0000:09a4:fa000000,APWR:0000:0981:07"
    yield "read 0 0990 8"
    yield "finish 7300000000"
    yield "edges 0"
    yield "read 0 0990 8"
    yield "send 1 APWR:0000:0981:03"
    yield "edges 0"
    yield "finish 9000000000"
    yield "edges 0"
    yield "send 1 APWR:0000:0981:01"
    yield "read 0 0990 8"
    yield "edges 0"


def word(number, size):
    return number.to_bytes(size, "little").hex()


def slow_clock():
    """The whole run of a clock that is 100 ppm slow behind one that is right, frame by frame."""
    epoch = 800_000_000_000_000_000
    yield "# a slow clock: the first drift frame comes five periods after the latch and differs by -500, each later one by -100, none above 8 by more than 820"
    yield segment([row("A", "c64", cable=20_000), row("B", "c64", "A", 1, phase=10_001_000, period=10_001_000)], ppm=100, cycles=2, loss_run=3, epoch=epoch)
    yield "send 1000000 BRD:0000:0000:00"
    for p in range(2):
        at = f"{0x1001 + p:04x}"
        yield f"send 1000000 APWR:{-p % 65536:04x}:0010:{word(0x1001 + p, 2)},FPRD:{at}:0008:0000,FPRD:{at}:0110:0000,FPRD:{at}:0910:00000000"
    yield f"send 1000000 BWR:0000:0930:{word(4096, 2)}"
    yield "send 1000000 BWR:0000:0900:00000000"
    for p in range(2):
        at = f"{0x1001 + p:04x}"
        yield f"send 1000000 FPRD:{at}:0900:{word(0, 16)},FPRD:{at}:0918:{word(0, 8)}"
    for at, offset, delay in (("1001", epoch - 5_000_020, 0), ("1002", epoch + 360 - 4_999_880, 360)):
        yield f"send 1000000 FPWR:{at}:0920:{word(offset, 8)},FPWR:{at}:0928:{word(delay, 4)}"
    start = word(epoch + 28_000_000, 8)
    drift = "FRMW:1001:0910:00000000"
    for number in range(1, 33):
        arms = {13: "1001", 14: "1002"}.get(number)
        plan = f",FPWR:{arms}:0981:00,FPWR:{arms}:09a0:{word(1_000_000, 4)}{word(0, 4)},FPWR:{arms}:0990:{start},FPWR:{arms}:0981:03" if arms else ""
        yield f"send 1000000 {drift}{plan}"
        yield "read 1 092c 4"
    yield "read 0 092c 4"
    yield "finish 42000000000000"
    yield "edges 0"
    yield "edges 1"
    yield "sent all"


def at_random(r):
    n = r.randint(1, 6)
    rows, free = [], []
    for k in range(n):
        kind = r.choice(["c64", "c32"]) if k == 0 else r.choice(["c64", "c64", "c32", "c32", "r32", "none"])
        start = r.choice([0, 2**32 - r.randint(1, 30_000), r.randrange(2**32)])
        if kind == "c64" and r.random() < 0.5:
            start = r.choice([2**64 - r.randint(1, 30_000), r.randrange(2**64)])
        period = r.randint(9_999_500, 10_000_500)
        rates = []
        tick = 0
        for _ in range(r.choice([0, 0, 1, 3])):
            tick += r.randint(1, 2000)
            rates.append((tick, r.randint(9_999_500, 10_000_500)))
        place = free.pop(r.randrange(len(free))) if k else None
        parent, port = (f"S{place[0]}", place[1]) if place else (None, None)
        rows.append(row(f"S{k}", kind, parent, port, r.randint(0, 100_000), r.randint(1, 900), r.randint(1, 900), start, r.randint(1, 9_999_000), period, rates))
        ports = [3, 1, 2] if kind != "none" else [r.choice([3, 1, 2])]
        free += [(k, p) for p in ports]
    r.shuffle(rows)
    losses = {}
    for _ in range(r.randint(0, 4)):
        losses[r.choice(["commission", "drift"]), 2 * r.randint(1, 8)] = r.randint(0, n)
    yield segment(rows, [(p, k, a) for (p, k), a in losses.items()], 50, r.randint(1, 8))
    for position in range(n):
        if r.random() < 0.3:
            yield f"expect {position} {r.randint(0, 300_000_000)}"
    now = 0
    for k in range(n):
        yield f"send {r.randint(0, 3000)} APWR:{-k % 65536:04x}:0010:{(0x1001 + k) % 256:02x}10"
    for _ in range(r.randint(8, 20)):
        now += 20_000_000_000
        words = ",".join(datagram(r, n) for _ in range(r.choice([1, 1, 1, 2, 3])))
        yield f"send {r.choice([0, r.randint(1, 4000), r.randint(1, 12000)])} {words}"
        if r.random() < 0.2:
            yield f"finish {now + r.randint(0, 30_000_000_000)}"
        if r.random() < 0.2:
            yield f"read {r.randrange(n)} {r.choice(['0900', '0910', '0918', '0920', '092c', '0990', '09ae', '0000', '0981'])} {r.randint(1, 16)}"
    for position in range(n):
        yield f"edges {position}"
        yield f"read {position} 0900 50"
    yield "sent all"


def datagram(r, n):
    command = r.choice(["APRD", "APWR", "APRW", "FPRD", "FPWR", "FPRW", "BRD", "BWR", "BRW", "ARMW", "FRMW", "FRMW", "FRMW", "NOP", "LRD"])
    adp = {"A": -r.randrange(n) % 65536, "F": 0x1001 + r.randrange(n)}.get(command[0], r.randrange(65536))
    addr, data = r.choice([
        (0x0900, bytes(r.choice([1, 4, 8]))), (0x0910, r.randbytes(4)), (0x0910, r.randbytes(8)), (0x0910, r.randbytes(3)), (0x0910, bytes(8)),
        (0x0920, r.randbytes(8)), (0x0920, bytes(8)), (0x0928, r.randrange(1000).to_bytes(4, "little")), (0x092C, bytes(4)), (0x0918, bytes(8)),
        (0x0930, r.choice([0x80, 0x100, 0x3FFF, 0x4000, 0x7F]).to_bytes(2, "little")), (0x0990, r.randrange(30_000).to_bytes(8, "little")),
        (0x09A0, r.choice([999, 1000, 1500, 4000]).to_bytes(4, "little") + r.choice([0, 1, 600, 1500]).to_bytes(4, "little")),
        (0x0980, bytes([r.randrange(256), r.choice([7, 3, 1, 6])])), (0x0981, bytes([r.choice([7, 3, 0])])),
        (0x0990, r.randrange(40_000).to_bytes(8, "little") + bytes(8) + (1200).to_bytes(4, "little") + (300).to_bytes(4, "little")),
        (0x090C, bytes(24)), (0x09AE, bytes(10)), (r.randrange(0x1000), r.randbytes(r.randint(1, 12)))])
    return f"{command}:{adp:04x}:{addr:04x}:{data.hex()}"


def cases():
    yield from by_hand()
    yield from slow_clock()
    r = random.Random(4)
    yield "# segments and frames at random"
    for _ in range(40):
        yield from at_random(r)


def main():
    lines = list(cases())
    store("frame_cases", "wires", *("".join(line + "\n" for line in side) for side in (lines, answers(lines))))


main()
