"""The cases of oscillators, clocks, SYNC units and latch units for tools/frame_cases.py, and their right answers.

A case by hand has its answer beside it. All others, and those by hand that are not far ahead, are worked out
here from docs/DEFINITIONS.md, tick by tick: "Ticks", "The local clock", "SYNC units", "Latch units". What a line
asks is said in crates/frame_cases/src.
"""
import random

TICK = 10_000_000
LAST = 2**64 - 1


class Oscillator:
    """Tick 1 is at the phase, and a gap follows each tick."""

    def __init__(self, phase, period, rates):
        self.phase, self.period, self.rates = phase, period, rates

    def runs(self):
        ticks = [0] + [tick for tick, _ in self.rates]
        return (1 <= self.phase <= self.period and len(self.rates) <= 64
                and all(a < b for a, b in zip(ticks, ticks[1:])) and all(p > 0 for _, p in self.rates))

    def gap(self, k):
        return [self.period, *(p for tick, p in self.rates if tick <= k)][-1]

    def instants(self):
        k, at = 1, self.phase
        while True:
            yield at
            at += self.gap(k)
            k += 1


class Clock:
    """A clock of some bits that takes its ticks one by one, with a SYNC unit and a list of edges."""

    def __init__(self, bits, osc, start, g, keep):
        self.bits, self.osc, self.g, self.keep = bits, osc, g, keep
        self.reading = self.cut(start)
        self.left = self.count = self.now = 0
        self.instants = osc.instants()
        self.next = next(self.instants)
        self.taken = 0
        self.due, self.edges = None, []
        self.last, self.event = -1, None

    def cut(self, n):
        return n % 2**self.bits

    def is_behind(self, a, b):
        return self.cut(a - b) >= 2 ** (self.bits - 1)

    def tick(self):
        step = 10
        if self.left != 0:
            self.count += 1
            if self.count == self.g:
                sign = 1 if self.left > 0 else -1
                step, self.left, self.count = 10 - sign, self.left - sign, 0
        self.reading = self.cut(self.reading + step)
        self.before, self.last = self.last, self.next
        self.now = self.next
        self.taken += 1
        self.next = next(self.instants)

    def advance(self, t, offset=None):
        assert t >= self.now
        while self.next <= t:
            self.tick()
            if offset is not None and self.due:
                self.raise_edges(self.cut(self.reading + offset))
        self.now = t

    def sample(self, t, offset):
        """The stamp of the event that is expected, where one of the ticks until t is the first at or after it."""
        assert t >= self.now
        stamp = "none"
        while self.next <= t:
            self.tick()
            if self.event is not None and self.before < self.event <= self.last:
                stamp, self.event = str(self.cut(self.reading + offset)), None
        self.now = t
        return stamp

    def raise_edges(self, copy):
        for signal in sorted(self.due):
            value, index = self.due[signal]
            if not self.is_behind(copy, value):
                self.edges.append((signal, index, self.now))
                self.due[signal] = (self.cut(value + self.cycle), index + 1)

    def first(self, v):
        """The first tick from now on that is not behind v, which is to be near."""
        ahead = Clock(self.bits, self.osc, self.reading, self.g, 0)
        ahead.left, ahead.count = self.left, self.count
        ahead.instants = ahead.osc.instants()
        for _ in range(self.taken + 1):
            ahead.next = next(ahead.instants)
        for _ in range(5000):
            ahead.tick()
            if not self.is_behind(ahead.reading, self.cut(v)):
                return ahead.now
        raise ValueError("too far for a table")

    def kept(self):
        seen, told = {0: 0, 1: 0}, []
        for signal, index, at in self.edges:
            seen[signal] += 1
            if seen[signal] <= self.keep:
                told.append(f"{signal}.{index}@{at}")
        return ",".join(told) or "empty"

    def act(self, what, *rest):
        if what == "receive":
            self.left, self.count = int(rest[0]), 0
        elif what == "reset":
            self.left, self.count, self.g = 0, 0, int(rest[0])
        elif what == "advance":
            self.advance(int(rest[0]))
            return f"{self.reading}/{self.left}"
        elif what == "next":
            return str(self.next)
        elif what == "first":
            return str(self.first(int(rest[0])))
        elif what == "arm":
            start, self.cycle = self.cut(int(rest[0])), int(rest[1])
            self.due = {0: (start, 0)}
            if rest[2] != "-":
                self.due[1] = (self.cut(start + int(rest[2])), 0)
        elif what == "disarm":
            self.due = None
        elif what == "due":
            return str(self.due[0][0]) if self.due else "none"
        elif what == "edges":
            self.advance(int(rest[0]), self.cut(int(rest[1])))
        elif what == "clear":
            self.edges = []
        elif what == "expect":
            self.event = int(rest[0])
        elif what == "sample":
            return self.sample(int(rest[0]), int(rest[1]))
        elif what == "list":
            return self.kept()
        return "-"


def oscillator(phase, period, rates):
    rows = [] if rates in ("-", "none") else [tuple(map(int, row.split(":"))) for row in rates.split(",")]
    return Oscillator(int(phase), int(period), rows)


def answer(line):
    what, *words = line.split()
    if what == "#":
        return line
    bits, words = (int(words[0]), words[1:]) if what in ("clock", "latch") else (0, words)
    osc = oscillator(*words[:3])
    if not osc.runs():
        return "no oscillator"
    rest = words[3:]
    told = [what]
    if what == "clock":
        clock = Clock(bits, osc, *map(int, rest[:3]))
        told += [clock.act(*action.split(":")) for action in rest[3:]]
    if what == "latch":
        clock = Clock(bits, osc, *map(int, rest[:2]), 0)
        told += [clock.act(*action.split(":")) for action in rest[2:]]
    for asked in rest if what in ("ticks", "instants") else []:
        told.append(str(count(osc, int(asked)) if what == "ticks" else instant(osc, int(asked))))
    return " ".join(told)


def count(osc, t):
    number = 0
    for at in osc.instants():
        if at > t:
            return number
        number += 1


def instant(osc, tick):
    for number, at in enumerate(osc.instants(), 1):
        if number == tick:
            return at


TABLE = []


def title(text):
    TABLE.append((f"# {text}",) * 2)


def hand(line, told, far=False):
    """A case whose answer was worked out by hand."""
    assert far or answer(line) == told, (line, answer(line), told)
    TABLE.append((line, told))


def case(line):
    TABLE.append((line, answer(line)))


def oscillators():
    title("a tick each 10 fs, the first after a whole period; then one each fs")
    hand("ticks 10 10 - 0 9 10 19 20 100", "ticks 0 0 1 1 2 10")
    hand("ticks 10 10 none 100", "ticks 10")
    hand("ticks 1 1 - 0 1 2 50", "ticks 0 1 2 50")
    title("a rate from tick 1 on: ticks at 5, 12 and 19")
    hand("ticks 5 10 1:7 4 5 11 12 18 19", "ticks 0 1 1 2 2 3")
    title("another period after every tick")
    hand("ticks 3 4 1:5,2:6,3:2,4:9 2 3 7 8 13 14 15 16 24 25 33 34", "ticks 0 1 1 2 2 3 3 4 4 5 5 6")
    hand("instants 3 4 1:5,2:6,3:2,4:9 1 2 3 4 5 6", "instants 3 8 14 16 25 34")
    title("shorter gaps from tick 3 on, longer ones from tick 5 on")
    hand("ticks 10 10 3:4,5:20 29 30 33 34 37 38 57 58", "ticks 2 3 3 4 4 5 5 6")
    hand("instants 10 10 3:4,5:20 1 2 3 4 5 6 7", "instants 10 20 30 34 38 58 78")
    title("far ahead")
    hand("ticks 1 10000000 - 1000000000000000000", "ticks 100000000000", far=True)
    hand("ticks 10000000 10000000 500050:10001000 5000500000000 5000740000000", "ticks 500050 500073", far=True)
    hand("instants 10000000 10000000 500050:10001000 500051", "instants 5000510001000", far=True)
    hand(f"ticks 1 1 - {LAST}", f"ticks {LAST}", far=True)
    hand(f"ticks {LAST} {LAST} - {LAST}", "ticks 1", far=True)
    hand(f"ticks 1 1 {LAST}:7 {LAST}", f"ticks {LAST}", far=True)
    hand(f"instants {LAST} {LAST} - {LAST}", "instants 340282366920938463426481119284349108225", far=True)
    title("what is no oscillator")
    for phase, period in [(0, 0), (0, 10), (11, 10), (LAST, 1)]:
        hand(f"ticks {phase} {period} - 5", "no oscillator")
        hand(f"ticks {phase} {period} 1:10 5", "no oscillator")
    for rates in ["0:10", "1:0", "5:10,5:11", "5:10,4:11", "3:4,4:0"]:
        hand(f"ticks 10 10 {rates} 5", "no oscillator")
    rows = [f"{tick}:10" for tick in range(1, 66)]
    hand(f"ticks 10 10 {','.join(rows[:64])} 1000", "ticks 100")
    hand(f"ticks 10 10 {','.join(rows)} 1000", "no oscillator")


def readings(start, g, difference, told, left):
    steps = " ".join(f"advance:{TICK * (k + 1)}" for k in range(8))
    hand(f"clock 32 {TICK} {TICK} - {start} {g} 0 receive:{difference} {steps}",
         "clock - " + " ".join(f"{a}/{b}" for a, b in zip(told, left)))


def clocks():
    title("steps by hand")
    readings(0, 2, 3, [10, 19, 29, 38, 48, 57, 67, 77], [3, 2, 2, 1, 1, 0, 0, 0])
    readings(100, 2, -2, [110, 121, 131, 142, 152, 162, 172, 182], [-2, -1, -1, 0, 0, 0, 0, 0])
    readings(2**32 - 16, 1, -5, [2**32 - 5, 6, 17, 28, 39, 49, 59, 69], [-4, -3, -2, -1, 0, 0, 0, 0])
    title("far ahead and past the end")
    hand(f"clock 64 {TICK} {TICK} - 0 2 0 first:9000000000000000000 receive:3 first:48 first:77 advance:20000000 reset:7 "
         f"advance:{LAST} next", "clock none - 50000000 80000000 19/2 - 18446744073699/0 none", far=True)
    hand(f"clock 32 {TICK} {TICK} 500050:10001000 0 4 0 advance:5000500000000 advance:5000740000000",
         "clock 5000500/0 5000730/0", far=True)
    hand(f"clock 32 1 1 - 0 1 0 advance:{LAST} next first:4294967280", "clock 4294967286/0 none none", far=True)
    title("an event at the instant of a tick comes after the tick")
    hand("clock 64 10 10 - 0 1 0 advance:20 receive:1 advance:29 advance:30", "clock 20/0 - 20/1 29/0")
    title("hard cases: 601 ticks in two parts, and the first tick that reaches a value")
    for osc in [f"{TICK} {TICK} -", "1 1 -", "2 5 1:3,2:9,40:1"]:
        end = instant(oscillator(*osc.split()), 601)
        for start, g, difference, v in [
                (0, 2, 3, 48), (0, 2, -3, 77), (0, 255, 2**31 - 1, 2_900), (5, 2, -2**31, 2_500),
                (2**32 - 6, 3, -7, 2**32 + 14), (2**64 - 5, 2, 20, 1_000), (1_000, 1, 0, 990)]:
            for bits in (32, 64):
                case(f"clock {bits} {osc} {start} {g} 0 receive:{difference} first:{v} advance:{end // 2} advance:{end} next")


def units():
    title("edges by hand: the copy comes to 16,000 + 1,000 k at tick 1,600 + 100 k")
    plain = f"clock 64 {TICK} {TICK} - 0 4"
    hand(f"{plain} 3 due arm:16000:1000:- due edges:15999999999:0 list edges:16000000000:0 list due edges:20000000000:0 list due",
         "clock none - 16000 - empty - 0.0@16000000000 17000 - "
         "0.0@16000000000,0.1@17000000000,0.2@18000000000 21000")
    title("both at one tick: SYNC0 comes first")
    hand(f"{plain} 3 arm:15995:1000:5 edges:17000000000:0 list",
         "clock - - 0.0@16000000000,1.0@16000000000,0.1@17000000000,1.1@17000000000")
    title("due values of the past have an edge at each tick until the copy is caught up with")
    hand(f"{plain} 3 advance:16000000000 arm:14500:1000:- edges:17000000000:0 list disarm due edges:90000000000:0 list",
         "clock 16000/0 - - 0.0@16010000000,0.1@16020000000,0.2@16500000000 - none - "
         "0.0@16010000000,0.1@16020000000,0.2@16500000000")
    title("half of the range, and to the end of time")
    hand(f"clock 64 {TICK} {TICK} - {2**63} 4 2 arm:0:1000:- edges:{LAST}:0 list", "clock - - empty", far=True)
    hand(f"clock 32 {TICK} {TICK} - 4294966000 4 2 arm:0:1000:- edges:3000000000:0 list",
         "clock - - 0.0@1300000000,0.1@2300000000")
    hand(f"clock 64 {TICK} {TICK} - 0 4 2 arm:10:4294967295:- edges:{LAST}:0 list due",
         "clock - - 0.0@10000000,0.1@4294967310000000 18446884532035", far=True)
    title("a list that is cleared keeps as many again; a unit that is armed again begins anew")
    hand(f"{plain} 1 arm:20:1000:- edges:50000000:0 list clear edges:2000000000:0 list arm:3000:1000:- clear "
         "edges:4100000000:0 list", "clock - - 0.0@20000000 - - 0.1@1020000000 - - - 0.0@3000000000")
    title("hard cases, by one call and by two")
    for reading, difference, offset, start, cycle, sync1, keep in [
            (0, 0, 0, 2_000, 1_000, "-", 20), (0, 0, 0, 2_000, 1_000, 1, 1), (0, 0, 0, 1_995, 1_000, 999, 0),
            (0, 300, 0, 2_000, 1_000, 500, 20), (0, -300, 0, 2_000, 1_000, 500, 20),
            (100_000, 0, 0, 90_003, 1_000, 7, 20), (4_294_966_000, 0, 0, 4_294_967_000, 1_003, "-", 20),
            (4_294_966_000, -40, 0, 5, 1_000, 400, 20), (0, 0, 4_294_967_295, 500, 1_000, "-", 20),
            (LAST - 3_000, 77, 1_234, 100, 1_000, "-", 20), (0, 0, LAST - 100, 3, 1_000, 1, 20)]:
        for bits in (32, 64):
            unit = f"clock {bits} {TICK} {TICK} - {reading} 2 {keep} receive:{difference} arm:{start}:{cycle}:{sync1}"
            until = 900 * TICK
            case(f"{unit} edges:{until}:{offset} list due")
            case(f"{unit} edges:{until // 2}:{offset} edges:{until}:{offset} list due")
    for bits in (32, 64):
        case(f"clock {bits} 3 9999999 - 0 2 20 arm:{2**63 - 1}:1000:- edges:{900 * TICK}:0 list")
        case(f"clock {bits} 1 1 - 0 2 20 arm:1010:1000:20 edges:2000:0 list")


def latches():
    title("stamps by hand: an event at 21 is taken at tick 30, one at 20 at tick 20")
    plain = "latch 64 10 10 - 0 64"
    hand(f"{plain} sample:25:0 expect:21 sample:29:5 sample:30:5 sample:40:5", "latch none - none 35 none")
    hand(f"{plain} expect:20 sample:19:0 sample:40:0 sample:50:0", "latch - none 20 none")
    hand(f"{plain} expect:20 sample:20:0 expect:25 sample:28:0 sample:40:0", "latch - 20 - none 30")
    title("the first tick is at the phase, whatever comes before it")
    hand(f"{plain} expect:0 sample:9:0 sample:10:0", "latch - none 10")
    hand("latch 32 7 10 - 0 64 expect:1 sample:100:0", "latch - 10")
    title("an event of the past is not taken; another one takes its place")
    hand(f"{plain} sample:25:0 expect:15 sample:100:0 sample:1000:0", "latch none - none none")
    hand(f"{plain} sample:25:0 expect:15 expect:25 sample:100:0 sample:1000:0", "latch none - - 30 none")
    title("a clock that works off 5 ns, one at each tick; another period from tick 2 on; words that wrap")
    hand("latch 64 10 10 - 0 1 receive:5 expect:25 sample:40:0", "latch - - 27")
    hand("latch 64 10 10 2:100 0 64 expect:21 sample:119:0 sample:120:0", "latch - none 30")
    hand("latch 32 10 10 - 4294967290 64 expect:3 sample:10:4294967295", "latch - 3")
    hand(f"latch 64 10 10 - {LAST} 64 expect:10 sample:15:{LAST}", "latch - 8")


def any_oscillator(pick):
    period = pick.choice([TICK, TICK + 1000, TICK - 1000, 1, 7, 1_000])
    rates, tick = [], 0
    for _ in range(pick.choice([0, 0, 1, 3, 5])):
        tick += pick.randint(1, 60)
        rates.append(f"{tick}:{max(1, period + pick.randint(-1000, 1000))}")
    return f"{pick.randint(1, period)} {period} {','.join(rates) or '-'}"


def any_oscillators(pick):
    title("oscillators at random")
    for _ in range(60):
        osc = any_oscillator(pick)
        at = [instant(oscillator(*osc.split()), pick.randint(1, 250)) for _ in range(4)]
        times = sorted(t + pick.choice([-1, 0, 0, 1]) for t in at)
        case(f"ticks {osc} {' '.join(map(str, times))}")
        case(f"instants {osc} {' '.join(str(pick.randint(1, 250)) for _ in range(4))}")


def any_start(pick, bits):
    return (pick.choice([0, 2**32, 2**63, 2**64, 2 ** (bits - 1)]) + pick.randint(-2_000, 2_000)) % 2**bits


def any_clocks(pick):
    title("histories at random")
    for _ in range(120):
        bits, osc = pick.choice([32, 64]), any_oscillator(pick)
        run, tick, now, actions = oscillator(*osc.split()), 0, 0, []
        start, g = any_start(pick, bits), pick.choice([1, 2, 3, 5, 64, 255])
        for _ in range(pick.randint(2, 7)):
            tick += pick.randint(0, 70)
            now = max(now, (instant(run, tick) if tick else 0) + pick.choice([0, 0, 0, 1]))
            actions += [f"advance:{now}",
                        pick.choice([f"receive:{pick.choice([pick.randint(-30, 30), pick.randint(-2**31, 2**31 - 1)])}",
                                     f"reset:{pick.choice([1, 2, 4, 255])}", "next",
                                     f"first:{(start + 10 * tick + pick.randint(-50, 3_000)) % 2**bits}"])]
        actions.append(f"advance:{instant(run, tick + 40)}")
        case(f"clock {bits} {osc} {start} {g} 0 {' '.join(actions)}")


def any_units(pick):
    title("units at random, with differences, offsets and armings in between")
    for _ in range(100):
        bits, osc = pick.choice([32, 64]), any_oscillator(pick)
        run, tick, now, actions = oscillator(*osc.split()), 0, 0, []
        start, offset = any_start(pick, bits), pick.choice([0, pick.randrange(2**bits)])
        g, keep = pick.choice([1, 2, 4, 64]), pick.choice([1, 2, 5, 20])
        for _ in range(pick.randint(2, 5)):
            copy = start + 10 * tick + offset
            cycle = pick.choice([1_000, 1_001, 1_500])
            actions += pick.choice([
                [f"receive:{pick.randint(-60, 60)}"], [],
                [f"arm:{(copy + pick.randint(-3_000, 2_500)) % 2**bits}:{cycle}:{pick.choice(['-', 1, 9, cycle - 1])}", "clear"],
                [f"arm:{(copy + pick.randint(0, 500)) % 2**bits}:{cycle}:{pick.randint(1, 30)}"], ["disarm"]])
            tick += pick.randint(0, 250)
            now = max(now, (instant(run, tick) if tick else 0) + pick.choice([0, 0, 1]))
            actions += [f"edges:{now}:{offset}", "due"]
        case(f"clock {bits} {osc} {start} {g} {keep} {' '.join(actions)} list")


def any_latches(pick):
    title("latch inputs at random, with events next to ticks")
    for _ in range(60):
        bits, osc = pick.choice([32, 64]), any_oscillator(pick)
        run, tick, now, actions = oscillator(*osc.split()), 0, 0, []
        start, offset = any_start(pick, bits), pick.choice([0, pick.randrange(2**bits)])
        for _ in range(pick.randint(2, 5)):
            event = instant(run, tick + pick.randint(1, 40)) + pick.choice([-1, 0, 0, 1])
            actions += pick.choice([[f"expect:{event}"], [f"expect:{event}", f"receive:{pick.randint(-60, 60)}"], []])
            tick += pick.randint(1, 50)
            now = max(now, instant(run, tick) + pick.choice([-1, 0, 0, 1]))
            actions.append(f"sample:{now}:{offset}")
        case(f"latch {bits} {osc} {start} {pick.choice([1, 2, 4, 64])} {' '.join(actions)}")


def half_of_the_range():
    title("the first tick at which a value half of the range ahead is reached; one farther ahead lies behind")
    for osc, tick in [(f"{TICK} {TICK} -", TICK), ("1 1 -", 1)]:
        for bits, half in ((32, 2**31), (64, 2**63)):
            for v in (half + 8, half + 9, half + 10):
                at = -(-v // 10) * tick
                hand(f"clock {bits} {osc} 0 1 0 first:{v}", f"clock {at if at <= LAST else 'none'}", far=True)
            hand(f"clock {bits} {osc} 0 1 0 first:{half + 11}", f"clock {tick}")
            hand(f"clock {bits} {osc} 0 1 0 first:{half + 12}", f"clock {tick}")
    title("differences at the ends of their range, worked off a tick at a time")
    for bits in (32, 64):
        for difference in (2**31 - 1, 2**31 - 2, -(2**31), -(2**31) + 1):
            for g in (1, 2):
                steps = " ".join(f"advance:{TICK * (k + 1)}" for k in range(4))
                case(f"clock {bits} {TICK} {TICK} - {2**31 - 20} {g} 0 receive:{difference} {steps} first:{2**31} reset:1 advance:{TICK * 5}")
    title("a unit whose due value is half of the range ahead of the copy, one nearer and one farther")
    for bits, half in ((32, 2**31), (64, 2**63)):
        for reading in (0, 2**bits - 15, half - 10):
            for apart in (-2, -1, 0, 1, 2):
                start = (reading + 10 + half + apart) % 2**bits
                for sync1 in ("-", 1, 2):
                    case(f"clock {bits} {TICK} {TICK} - {reading} 1 3 arm:{start}:1000:{sync1} edges:{TICK * 4}:0 list due")
                offset = (half + apart) % 2**bits
                case(f"clock {bits} {TICK} {TICK} - {reading} 1 3 arm:{(reading + 10) % 2**bits}:1000:- edges:{TICK * 4}:{offset} list due")
    title("a cycle of half of the range, less and more")
    for bits in (32, 64):
        for cycle in (2**31 - 1, 2**31, 2**31 + 1, 2**31 + 9, 2**31 + 10, 2**31 + 11, 2**32 - 1):
            case(f"clock {bits} {TICK} {TICK} - 0 1 3 arm:20:{cycle}:{cycle - 1} edges:{TICK * 4}:0 list due")
    title("a due value that is half of the range ahead has its edge when the copy comes to it")
    for v in (2**31 + 8, 2**31 + 9, 2**31 + 10):
        at = 214_748_366 * TICK
        hand(f"clock 32 {TICK} {TICK} - 0 1 3 arm:{v}:1000:- edges:{at - 1}:0 list edges:{at}:0 list due",
             f"clock - - empty - 0.0@{at} {v + 1000}", far=True)
    for v in (2**63 + 8, 2**63 + 9, 2**63 + 10):
        at = -(-v // 10)
        hand(f"clock 64 1 1 - 0 1 3 arm:{v}:1000:- edges:{at - 1}:0 list edges:{at}:0 list due",
             f"clock - - empty - 0.0@{at} {v + 1000}", far=True)


def table():
    """Each case and its answer."""
    pick = random.Random(1588)
    oscillators()
    clocks()
    units()
    any_oscillators(pick)
    any_clocks(pick)
    any_units(pick)
    half_of_the_range()
    latches()
    any_latches(pick)
    return TABLE
