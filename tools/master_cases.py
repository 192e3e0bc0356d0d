#!/usr/bin/env python3
"""Writes the table `masters` of crates/frame_cases and its right answers.

Slaves are played here, honest ones and others, and what a master sends to them, how it judges what comes back, and what it then keeps
are worked out from docs/FORMATS.md, "The master's script", and docs/DEFINITIONS.md, by no more than is said there.
"""
import random
from dataclasses import dataclass, field

from frame_cases import Refused as NoFrame
from frame_cases import datagrams, differ, frame_of
from stored import store

APWR, FPRD, FPWR, BRD, BWR, FRMW = 2, 4, 5, 7, 8, 14
ORDER = (3, 1, 2)


def little(number, size):
    return (number % (1 << 8 * size)).to_bytes(size, "little")


def number(data):
    return int.from_bytes(data, "little")


def fields(data):
    """ADP, data and working counter of each datagram."""
    return [(number(data[at + 2:at + 4]), data[at + 10:at + 10 + size], number(data[at + 10 + size:at + 12 + size]))
            for at, size in datagrams(data)]


def bare(data):
    """A frame without padding of zeros."""
    at, size = datagrams(data)[-1]
    return data[:at + 12 + size] if not any(data[at + 12 + size:]) else data


def counted(data, counters):
    """A frame with other working counters."""
    data = bytearray(data)
    for (at, size), counter in zip(datagrams(bytes(data)), counters):
        data[at + 10 + size:at + 12 + size] = little(counter, 2)
    return bytes(data)


# What the statuses say.

def status_of(ports):
    """The DL status of a slave whose connected ports these are."""
    return sum(1 << 4 + p | 1 << 9 + 2 * p if p in ports else 1 << 8 + 2 * p for p in range(4))


def is_connected(status, p):
    return status >> 4 + p & 1 == 1 and status >> 8 + 2 * p & 3 == 2


def is_closed(status, p):
    return status >> 8 + 2 * p & 3 == 1


def is_formed(status):
    return is_connected(status, 0) and all(is_connected(status, p) or is_closed(status, p) for p in (1, 2, 3))


class Refused(Exception):
    """Why a call ended early."""


def tree(statuses):
    """Parent and parent port of each slave, None at the first; the slaves stand in the order in which a frame reaches them."""
    hung, free = [], [None]
    for position, status in enumerate(statuses):
        if not free:
            raise Refused(f"Topology(Surplus({position}))")
        if not is_formed(status):
            raise Refused(f"Topology(BadStatus({position}))")
        hung.append(free.pop())
        free += [(position, p) for p in reversed(ORDER) if is_connected(status, p)]
    if free:
        raise Refused("Topology(Missing)")
    return hung


@dataclass
class Told:
    """What a slave told at Identify."""
    features: int
    status: int
    fourth: int

    def measures(self):
        return self.features >> 2 & 1 == 1

    def is_clock(self):
        return self.measures() and self.fourth == 1

    def width(self):
        return 8 if self.features >> 3 & 1 else 4


class Shape:
    """A tree of slaves that were identified."""

    def __init__(self, slaves):
        self.slaves, self.hung = slaves, tree([s.status for s in slaves])

    def children(self, position):
        return [k for k, h in enumerate(self.hung) if h and h[0] == position]

    def above(self, position):
        """The way up to the nearest slave above that measures: those between, that slave and its port towards this one."""
        between, at = [], self.hung[position]
        while at and not self.slaves[at[0]].measures():
            between.append(at[0])
            at = self.hung[at[0]]
        return between, at

    def is_measurable(self, position):
        between, at = self.above(position)
        return at is not None and all(len(self.children(j)) <= 1 for j in between)

    def judge(self):
        """The position of the reference."""
        clocks = [k for k, s in enumerate(self.slaves) if s.is_clock()]
        if not clocks:
            raise Refused("NoReference")
        measuring = [k for k, s in enumerate(self.slaves) if s.measures()]
        for k in measuring[1:]:
            if not self.is_measurable(k):
                raise Refused(f"Unmeasurable({k})")
        return clocks[0]

    def delays(self, kinds, latches, reference):
        def lap(k, p):
            return (latches[k][0][p] - latches[k][0][0]) % (1 << 32)

        def ports(k):
            return [p for p in ORDER if is_connected(self.slaves[k].status, p)]

        def stay(k):
            return lap(k, ports(k)[-1]) + kinds[k][1] if ports(k) else kinds[k][0]

        doubled, first = {}, True
        for k, slave in enumerate(self.slaves):
            if not slave.measures():
                continue
            if first:
                doubled[k], first = 0, False
                continue
            between, (a, p) = self.above(k)
            before = ports(a)[:ports(a).index(p)]
            hop = lap(a, before[-1]) + lap(a, p) + kinds[a][1] if before else lap(a, p) + kinds[a][0]
            hop += sum(kinds[j][0] - kinds[j][1] for j in between) - stay(k)
            doubled[k] = doubled[a] + hop
        return [max(0, (doubled[k] - doubled[reference]) // 2) if s.is_clock() else None for k, s in enumerate(self.slaves)]


# The master.

@dataclass
class Config:
    frame: int = 1_000_000
    speed: int = 4096
    loss_run: int = 0
    epoch: int = 800_000_000_000_000_000
    lock_in: int = 2
    cycle: int = 1_000_000
    slaves: list = field(default_factory=lambda: [(300, 280, 0, None)] * 2)

    def line(self):
        slaves = " ".join(f"{tp}:{tf}:{shift}:{'-' if sync1 is None else sync1}" for tp, tf, shift, sync1 in self.slaves)
        return f"master {self.frame} {self.speed} {self.loss_run} {self.epoch} {self.lock_in} {self.cycle} {slaves}"


def extend(low, expected):
    apart = (low - expected) % (1 << 32)
    return (expected + (apart - (1 << 32) if apart >= 1 << 31 else apart)) % (1 << 64)


def some(value):
    return "None" if value is None else f"Some({value})"


class Master:
    def __init__(self, config):
        self.config, self.stage, self.refusal = config, "Fresh", None
        self.sent = self.lost = self.drifts = self.latched = 0
        self.slaves, self.latches, self.delays = [], {}, None
        self.reference = self.time = self.start = None

    def send(self, parts):
        data = frame_of([(command, k, adp, ado, payload, 0) for k, (command, adp, ado, payload) in enumerate(parts)])
        self.sent += 1
        reply = self.link(self.sent, data)
        self.lost += reply is None
        return data, reply

    def judge(self, step, data, reply, expected):
        at = differ(data, reply)
        if at != "-":
            raise Refused(f"Reply({step}, {at})")
        found = fields(reply)
        for wanted, (_, _, counter) in zip(expected(found), found):
            if wanted != counter:
                raise Refused(f"Counter({step}, {wanted}, {counter})")
        return [payload for _, payload, _ in found], [counter for _, _, counter in found]

    def ask(self, step, parts, expected, drifts=0):
        for _ in range(3):
            self.drifts += drifts
            data, reply = self.send(parts)
            if reply is not None:
                return self.judge(step, data, reply, expected)
        raise Refused(f"Lost({step})")

    def clocks(self):
        return [p for p, s in enumerate(self.slaves) if s.is_clock()]

    def measuring(self):
        return [p for p, s in enumerate(self.slaves) if s.measures()]

    def identify(self, p):
        station = 0x1001 + p

        def expected(found):
            measures, fourth = number(found[1][1]) >> 2 & 1, found[3][2]
            return [1, 1, 1, 1 if measures and fourth else 0]

        parts = [(APWR, -p % (1 << 16), 0x0010, little(station, 2)), (FPRD, station, 0x0008, bytes(2)),
                 (FPRD, station, 0x0110, bytes(2)), (FPRD, station, 0x0910, bytes(4))]
        data, counters = self.ask(f"Identify({p})", parts, expected)
        self.slaves.append(Told(number(data[1]), number(data[2]), counters[3]))

    def commission(self):
        config = self.config
        count = len(config.slaves)
        self.ask("Count", [(BRD, 0, 0x0000, bytes(1))], lambda found: [count])
        for p in range(count):
            self.identify(p)
        shape = Shape(self.slaves)
        self.reference = shape.judge()
        self.ask("Rate", [(BWR, 0, 0x0930, little(config.speed, 2))], lambda found: [len(self.clocks())])
        self.ask("Latch", [(BWR, 0, 0x0900, bytes(4))], lambda found: [len(self.measuring())])
        self.latched = self.sent
        for p in self.measuring():
            station, width = 0x1001 + p, self.slaves[p].width()
            parts = [(FPRD, station, 0x0900, bytes(16)), (FPRD, station, 0x0918, bytes(width))]
            (ports, unit), _ = self.ask(f"Times({p})", parts, lambda found: [1, 1])
            self.latches[p] = [number(ports[4 * k:4 * k + 4]) for k in range(4)], number(unit)
        self.delays = shape.delays([(tp, tf) for tp, tf, _, _ in config.slaves], self.latches, self.reference)
        for p in self.clocks():
            station, width = 0x1001 + p, self.slaves[p].width()
            offset = config.epoch + self.delays[p] - self.latches[p][1]
            parts = [(FPWR, station, 0x0920, little(offset, width)), (FPWR, station, 0x0928, little(self.delays[p], 4))]
            self.ask(f"Set({p})", parts, lambda found: [1, 1])
        self.stage = "Commissioned"

    def drift_datagram(self):
        return (FRMW, 0x1001 + self.reference, 0x0910, bytes(4))

    def drift(self):
        self.drifts += 1
        data, reply = self.send([self.drift_datagram()])
        if reply is None:
            return None
        (low,), _ = self.judge(f"Drift({self.drifts})", data, reply, lambda found: [len(self.clocks())])
        return number(low)

    def settle(self):
        for _ in range(self.config.lock_in + self.config.loss_run + 1):
            low = self.drift()
            if low is not None:
                self.time = extend(low, (self.config.epoch + self.config.frame * (self.sent - self.latched)) % (1 << 64))
        if self.time is None:
            raise Refused("Lost(Settle)")
        self.stage = "Settled"

    def arm(self):
        config, clocks = self.config, self.clocks()
        lead = (3 * len(clocks) + config.loss_run + 2) * config.frame
        self.start = ((self.time + lead) // config.cycle + 1) * config.cycle % (1 << 64)
        for p in clocks:
            station, width = 0x1001 + p, self.slaves[p].width()
            _, _, shift, sync1 = config.slaves[p]
            parts = [self.drift_datagram(), (FPWR, station, 0x0981, b"\0"),
                     (FPWR, station, 0x09A0, little(config.cycle, 4) + little(sync1 or 0, 4)),
                     (FPWR, station, 0x0990, little(self.start + shift, width)),
                     (FPWR, station, 0x0981, b"\x03" if sync1 is None else b"\x07")]
            self.ask(f"Arm({p})", parts, lambda found: [len(clocks), 1, 1, 1, 1], drifts=1)
        self.stage = "Armed"

    def run(self, frames):
        for _ in range(frames):
            self.drift()
        self.stage = "Ended"

    def call(self, what, link):
        """The answer of a call over a link, and what the master then keeps."""
        self.link = link
        if self.refusal:
            return self.told(f"Err(Spent({self.refusal}))")
        name, *frames = what.split()
        try:
            getattr(self, name)(*map(int, frames))
        except Refused as refused:
            self.stage, self.refusal = "Spent", str(refused)
            return self.told(f"Err(Refused({refused}))")
        return self.told("Ok(())")

    def told(self, answer):
        delays = [None] * len(self.config.slaves) if self.delays is None else self.delays
        return (f"{answer}; sent {self.sent} lost {self.lost} {self.stage} reference {some(self.reference)} start {some(self.start)} "
                f"delays {' '.join(map(some, delays + [None]))};")


# The slaves.

@dataclass
class Slave:
    features: int = 0x000C
    status: int = 0x5A30
    fourth: int = None
    ports: tuple = (0, 0, 0, 0)
    unit: int = 0

    def counter(self):
        return self.fourth if self.fourth is not None else self.features >> 2 & 1


def line_of_two(**changes):
    """Two clocks in a line; the frame is back at the first after 1,300 ns."""
    first = Slave(status=0x5A30, ports=(1000, 2300, 0, 0), unit=1000)
    return [first, Slave(status=0x5610, ports=(1660, 0, 0, 0), unit=1660)]


def honest(slaves, config, sending, data):
    """What slaves make of a frame that is sent as this one."""
    count, clocks = len(slaves), sum(s.counter() == 1 and s.features >> 2 & 1 for s in slaves)
    measuring = sum(s.features >> 2 & 1 for s in slaves)
    parts, at_all = [], {0x0000: count, 0x0930: clocks, 0x0900: measuring}
    for at, size in datagrams(data):
        command, index, adp, ado = data[at], data[at + 1], number(data[at + 2:at + 4]), number(data[at + 4:at + 6])
        payload, counter = data[at + 10:at + 10 + size], 1
        if command in (BRD, BWR):
            adp, counter = adp + count, at_all[ado]
            payload = b"\x11" if command == BRD else payload
        elif command == APWR:
            adp = (adp + count) % (1 << 16)
        elif command == FRMW:
            payload, counter = little(config.epoch + config.frame * sending + 77 * sending, 4), clocks
        elif command == FPRD:
            slave = slaves[adp - 0x1001]
            known = {0x0008: little(slave.features, 2), 0x0110: little(slave.status, 2), 0x0910: b"\xaa\xbb\xcc\xdd",
                     0x0900: b"".join(little(t, 4) for t in slave.ports), 0x0918: little(slave.unit, size)}
            payload, counter = known[ado], slave.counter() if ado == 0x0910 else 1
        parts.append((command, index, adp, ado, payload, counter))
    return frame_of(parts)


def again(words):
    """The same words behind one another, told once with how often they come."""
    told = []
    for word in words:
        if told and told[-1][0] == word:
            told[-1][1] += 1
        else:
            told.append([word, 1])
    return [word if times == 1 else f"{word}*{times}" for word, times in told]


CALLS = ("commission", "settle", "arm", "run 3")


def case(title, config=None, slaves=None, changes=None, calls=CALLS, behind=()):
    """The lines of a case. Each change makes, of the frame that was sent and the one that comes back from honest slaves, what
    comes back at the sending of that number; `behind` are replies that no call uses."""
    config, slaves, changes = config or Config(), slaves or line_of_two(), changes or {}
    master = Master(config)
    yield f"# {title}", f"# {title}"
    yield config.line(), f"slaves {len(config.slaves)}"
    for call in calls:
        words, frames = [], []

        def link(sending, data):
            back = honest(slaves, config, sending, data)
            if sending in changes:
                back = changes[sending](data, back)
            words.append("lose" if back is None else "echo" if back == data else bare(back).hex())
            frames.append(f"{config.frame}:{bare(data).hex()}")
            return back

        answer = master.call(call, link)
        yield " ".join([call, *again(words), *behind]), " ".join([answer, *again(frames)])


# What may come back.

def lose(sent, back):
    return None


def echo(sent, back):
    return sent


def byte(at, bits):
    return lambda sent, back: back[:at] + bytes([back[at] ^ bits]) + back[at + 1:]


def counters(*numbers):
    return lambda sent, back: counted(back, numbers)


def counter(k, value):
    return lambda sent, back: counted(back, [value if j == k else c for j, (_, _, c) in enumerate(fields(back))])


def parts_of(data):
    return [(data[at], data[at + 1], number(data[at + 2:at + 4]), number(data[at + 4:at + 6]), data[at + 10:at + 10 + size],
             number(data[at + 10 + size:at + 12 + size])) for at, size in datagrams(data)]


def remade(change):
    """The frame with its list of datagrams changed."""
    return lambda sent, back: frame_of(change(parts_of(back)))


def field_of(k, at, value):
    """Datagram k with another field: command, index, ADP, ADO, data or counter."""
    return remade(lambda parts: [tuple(value if (j, i) == (k, at) else x for i, x in enumerate(p)) for j, p in enumerate(parts)])


def low(value):
    """A drift frame that brings this time back."""
    return lambda sent, back: frame_of([(c, i, adp, ado, little(value, 4) if k == 0 else data, wkc)
                                        for k, (c, i, adp, ado, data, wkc) in enumerate(parts_of(back))])


# The cases.

def scripted():
    yield from case("an echo has no counter", changes={1: echo}, calls=("commission",) * 2, behind=("echo",))
    yield from case("an empty script", changes={1: lose, 2: lose, 3: lose}, calls=("commission", "settle", "arm", "run 3"))


def rows():
    only = ("commission",)
    yield from case("Count returned as BWR", changes={1: field_of(0, 0, BWR)}, calls=only)
    yield from case("Count returned with index 1", changes={1: field_of(0, 1, 1)}, calls=only)
    yield from case("Count returned as BWR with counter 9", calls=only,
                    changes={1: lambda sent, back: counted(field_of(0, 0, BWR)(sent, back), [9])})
    yield from case("Count with counter 3", changes={1: counters(3)}, calls=only)
    for one, other in [(0x5610, 0x5610), (0x5A30, 0x5A30), (0x5A30, 0x0000)]:
        yield from case(f"statuses {one:04x} and {other:04x}", slaves=[Slave(status=one), Slave(status=other)], calls=only)
    yield from case("no slave has clocks", slaves=[Slave(0, 0x5A30), Slave(0, 0x5610)], calls=only)
    four = Config(slaves=[(300, 280, 0, None)] * 4)
    yield from case("a clockless slave with two children", four, [Slave(), Slave(0, 0x6A70), Slave(status=0x5610), Slave(status=0x5610)],
                    calls=only)
    yield from case("times that give a delay of half the range", calls=only,
                    slaves=[Slave(ports=(0xFFFFFFFF, 0xFFFFFFFE, 0, 0)), Slave(status=0x5610)])


def whole():
    yield from case("two clocks in a line, honest throughout")
    three = Config(50_000, 16_383, 1, 4_000_000_000_000_000_000, 0, 500_000_000,
                   [(1, 10_000, 499_999_999, 1), (10_000, 1, 1, 499_999_999), (310, 300, 0, None)])
    yield from case("a 64-bit clock, a clockless slave and a 32-bit clock; the ends of the ranges", three, [
        Slave(0x000C, status_of({0, 3}), ports=(0xFFFFFF00, 0, 0, 0x00003000), unit=0xFFFFFFFFFFFFFF00),
        Slave(0, status_of({0, 2})), Slave(0x0004, status_of({0}), ports=(5, 0, 0, 0), unit=0xFFFFFFFF)])
    star = Config(slaves=[(310, 300, k, 500_000 + k if k % 2 else None) for k in range(4)])
    yield from case("a star, with a slave that measures and has no system time", star, [
        Slave(ports=(100, 3000, 5000, 1700), status=status_of({0, 1, 2, 3})), Slave(0x0004, 0x5610, 0, (800, 0, 0, 0), 800),
        Slave(0x000C, 0x5610, None, (2100, 0, 0, 0), 2100), Slave(0x000C, 0x5610, None, (4200, 0, 0, 0), 4200)])
    yield from case("a clock behind a clockless first slave", slaves=[Slave(0, 0x5A30), Slave(status=0x5610, ports=(9, 0, 0, 0), unit=9)])
    yield from case("one slave, and no run frame", Config(slaves=[(1, 1, 0, None)], lock_in=0), [Slave(status=0x5610)],
                    calls=CALLS[:3] + ("run 0",))


def losses():
    steps = {"Count": 1, "Identify(1)": 3, "Rate": 4, "Latch": 5, "Times(0)": 6, "Set(1)": 9, "Arm(0)": 13}
    for name, first in steps.items():
        for times in (2, 3):
            yield from case(f"{name} is lost {times} times", changes={first + k: lose for k in range(times)})
    yield from case("every first and second try is lost", calls=CALLS[:3],
                    changes={k: lose for k in [*range(1, 28), *range(31, 37)] if k < 28 and k % 3 or k > 30 and (k - 30) % 3})
    yield from case("all settle frames are lost", changes={k: lose for k in (10, 11, 12)})
    yield from case("the last two settle frames are lost", changes={k: lose for k in (11, 12)})
    yield from case("the first settle frame and all run frames are lost", changes={k: lose for k in (10, 15, 16, 17)})
    yield from case("the run is lost, and an arming too", changes={k: lose for k in (13, 14, 16, 17, 18, 19)})


def miscounts():
    places = {1: 1, 2: 4, 3: 4, 4: 1, 5: 1, 6: 2, 9: 2, 10: 1, 14: 5, 17: 1}
    for sending, many in places.items():
        for k in range(many):
            for value in (0, 1, 2, 0xFFFF):
                yield from case(f"sending {sending}, counter {k} is {value}", changes={sending: counter(k, value)})
    yield from case("two counters are wrong, and the first is told", changes={3: counters(1, 7, 9, 1)})
    clockless = [Slave(0, 0x5A30), Slave(status=0x5610)]
    for value in (1, 2):
        yield from case(f"a clockless slave counts its system time {value} times", slaves=clockless, changes={2: counter(3, value)})


def others():
    for sending in (1, 3, 6, 10, 13, 17):
        for title, change in {
            "another destination and source": lambda s, b: bytes(range(12)) + b[12:], "a reserved bit": byte(15, 0x08),
            "another command": field_of(0, 0, 1), "another index": field_of(0, 1, 7), "another ADP": field_of(0, 2, 0xFFFF),
            "another ADO": field_of(0, 3, 0x0FFF), "a reserved bit of a length": byte(23, 0x20), "the circulating bit": byte(23, 0x40),
            "an IRQ": byte(24, 0xFF), "other padding": lambda s, b: b[:-1] + b"\xee" if len(parts_of(b)) < 4 else b,
            "a byte more of data": remade(lambda p: [*p[:-1], (*p[-1][:4], p[-1][4] + b"\0", p[-1][5])]),
            "a byte less of data": remade(lambda p: [*p[:-1], (*p[-1][:4], p[-1][4][:-1], p[-1][5])]),
            "a datagram more": remade(lambda p: [*p, (0, len(p), 0, 0, b"", 0)]),
            "a datagram less": remade(lambda p: p[:-1] or [(0, 0, 0, 0, bytes(30), 0)]),
            "another ADO and a wrong counter": lambda s, b: counter(0, 99)(s, field_of(0, 3, 0x0101)(s, b)),
        }.items():
            yield from case(f"sending {sending} comes back with {title}", changes={sending: change})


def changing():
    yield from case("features change while Identify is asked again", changes={2: lose, 3: field_of(1, 4, little(0x0004, 2))})
    yield from case("features without clocks at the second slave", calls=CALLS[:2],
                    changes={3: lambda s, b: counter(3, 0)(s, field_of(1, 4, bytes(2))(s, b))})
    yield from case("features of 32 bits at the first slave", changes={2: field_of(1, 4, little(0x0004, 2))})
    yield from case("features with all other bits", changes={2: field_of(1, 4, little(0xFFFF, 2)), 3: field_of(1, 4, little(0xFFF7, 2))})
    yield from case("statuses with other low bits", changes={2: field_of(2, 4, little(0x5A3F, 2))})
    yield from case("the second slave claims a child", changes={3: field_of(2, 4, little(0x5A30, 2))})
    yield from case("times that make the delay negative", slaves=[Slave(ports=(5000, 5001, 0, 0), unit=5000),
                                                                  Slave(status=0x5610, ports=(0, 0, 0, 0), unit=1 << 63)])
    yield from case("times that go round", slaves=[Slave(ports=(0xFFFFFF00, 0x00000500, 0, 0), unit=(1 << 64) - 1),
                                                  Slave(status=0x5610, ports=(0xFFFFFFFF, 0, 0, 0), unit=0)])
    yield from case("times of ports that are closed say nothing", slaves=[
        Slave(ports=(1000, 2300, 9, 8), unit=1), Slave(status=0x5610, ports=(7, 6, 5, 4), unit=2)])
    for value in (0, 0x7FFFFFFF, 0x80000000, 0xFFFFFFFF):
        for epoch in (0, 4_000_000_000_000_000_000):
            yield from case(f"the reference is at {value:08x} with the epoch {epoch}", Config(epoch=epoch), changes={12: low(value)})
    yield from case("a time before 0 makes the start go round", Config(epoch=0, frame=50_000, cycle=50_000), calls=CALLS[:3],
                    changes={12: low(0xF0000000)})
    yield from case("the start goes round to 0", Config(epoch=0, frame=50_000, cycle=65_536), calls=CALLS[:3],
                    changes={12: low((1 << 32) - 8 * 50_000)})


def random_slaves(dice):
    """Slaves in a tree, in the order in which a frame reaches them."""
    count = dice.randint(1, 7)
    ports = [{} for _ in range(count)]
    for k in range(1, count):
        j = dice.choice([j for j in range(k) if len(ports[j]) < 3])
        ports[j][dice.choice([p for p in ORDER if p not in ports[j]])] = k

    def reach(k):
        yield k
        for p in ORDER:
            if p in ports[k]:
                yield from reach(ports[k][p])

    return [Slave(dice.choice([0, 4, 4, 12, 12, 12, 0xFFFF]), status_of({0, *ports[k]}), None,
                  tuple(dice.randrange(1 << 32) if dice.random() < 0.3 else 1000 * dice.randrange(10) + t for t in range(4)),
                  dice.randrange(1 << 64)) for k in reach(0)]


def any_change(dice):
    def flip(sent, back):
        while True:
            at = dice.randrange(12, len(back))
            other = back[:at] + bytes([back[at] ^ 1 << dice.randrange(8)]) + back[at + 1:]
            try:
                datagrams(other)
            except NoFrame:
                continue
            return other

    return dice.choice([lose, lose, lose, echo, flip, counter(dice.randrange(3), dice.randrange(4)), low(dice.randrange(1 << 32))])


def at_random(dice):
    for number_of in range(60):
        slaves = random_slaves(dice)
        cycle = dice.choice([50_000, 65_537, 1_000_000, 500_000_000])
        config = Config(dice.choice([50_000, 999_999, 10_000_000]), dice.randrange(128, 16_384), dice.randrange(4),
                        dice.randrange(4_000_000_000_000_000_001), dice.randrange(3), cycle,
                        [(dice.randint(1, 10_000), dice.randint(1, 10_000), dice.randrange(cycle),
                          dice.choice([None, dice.randrange(1, cycle)])) for _ in slaves])
        changes = {dice.randint(1, 40): any_change(dice) for _ in range(dice.randrange(4))}
        yield from case(f"at random, {number_of}", config, slaves, changes, CALLS[:3] + (f"run {dice.randrange(6)}",))


def table():
    for lines in (scripted(), rows(), whole(), losses(), miscounts(), others(), changing(), at_random(random.Random(15))):
        yield from lines


def main():
    written = list(table())
    store("frame_cases", "masters", *("".join(row[side] + "\n" for row in written) for side in (0, 1)))


if __name__ == "__main__":
    main()
