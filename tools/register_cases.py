"""The cases of registers and clock words for tools/frame_cases.py, and their right answers.

The answers are worked out here from docs/DEFINITIONS.md: "Wrapped time", "Register access".
"""
import random

# address, bytes, number at the start, what a write does
TABLE = [
    (0x0000, 1, 0x11, ""), (0x0008, 2, None, ""), (0x0010, 2, 0, "stored"), (0x0110, 2, 0, ""),
    (0x0900, 4, 0, ""), (0x0904, 4, 0, ""), (0x0908, 4, 0, ""), (0x090C, 4, 0, ""),
    (0x0910, 8, 0, ""), (0x0918, 8, 0, ""), (0x0920, 8, 0, "stored"), (0x0928, 4, 0, "stored"),
    (0x092C, 4, 0, ""), (0x0930, 2, 0x1000, "speed"), (0x0932, 2, 0, ""),
    (0x0934, 1, 4, "stored"), (0x0935, 1, 12, "stored"), (0x0980, 1, 0, "stored"),
    (0x0981, 1, 0, "stored"), (0x0990, 8, 0, "stored"), (0x09A0, 4, 0, "stored"),
    (0x09A4, 4, 0, "stored"), (0x09AE, 1, 0, ""), (0x09B0, 8, 0, ""),
]
FEATURES = {"none": 0x0000, "r32": 0x0004, "c32": 0x0004, "c64": 0x000C}
NAMES = {
    "station": (0x0010, 2), "status": (0x0110, 2), "port0": (0x0900, 4), "time": (0x0910, 8),
    "offset": (0x0920, 8), "delay": (0x0928, 4), "difference": (0x092C, 4), "speed": (0x0930, 2),
    "activation": (0x0981, 1), "start": (0x0990, 8), "cycle": (0x09A0, 4), "latched": (0x09AE, 1),
    "edge": (0x09B0, 8),
}
KINDS = ["none", "c32", "c64", "r32"]


class Slave:
    def __init__(self, kind):
        self.kind = kind
        self.wide = 8 if kind == "c64" else 4
        self.memory = {}
        self.writable = {}
        for addr, count, start, writing in TABLE:
            if start is None:
                start = FEATURES[kind]
            shown = self.wide if count == 8 else count
            for k in range(shown):
                self.memory[addr + k] = start >> (8 * k) & 0xFF
                if writing:
                    self.writable[addr + k] = writing

    def refused(self, addr, count):
        if count == 0 or addr + count > 0x1000:
            return True
        for a in range(addr, addr + count):
            if 0x0900 <= a <= 0x09FF:
                if self.kind == "none":
                    return True
                if self.kind == "r32" and not (0x0900 <= a <= 0x090F or 0x0918 <= a <= 0x091F):
                    return True
        return False

    def read(self, addr, count, live=()):
        if self.refused(addr, count):
            return "refused" + "ee" * count
        shown = dict(self.memory)
        for at, number in live:
            if number is not None:
                for k in range(self.wide):
                    shown[at + k] = number >> (8 * k) & 0xFF
        return "".join("%02x" % shown.get(a, 0) for a in range(addr, addr + count))

    def write(self, addr, data):
        if self.refused(addr, len(data)):
            return "refused"
        new = {addr + k: byte for k, byte in enumerate(data)}
        speed = None
        if 0x0930 in new and 0x0931 in new:
            number = new[0x0930] + 256 * new[0x0931]
            if 0x0080 <= number <= 0x3FFF:
                speed = number
        for a, byte in new.items():
            if self.writable.get(a) == "stored" or (self.writable.get(a) == "speed" and speed is not None):
                self.memory[a] = byte
        told = "done"
        if any(a in new for a in range(0x0900, 0x0904)):
            told += ",latched"
        if all(a in new for a in range(0x0910, 0x0914)):
            told += ",received=%d" % sum(new[0x0910 + k] << (8 * k) for k in range(4))
        if speed is not None:
            told += ",rate=%d" % (speed // 64)
        if 0x0981 in new:
            told += ",activation=%d" % new[0x0981]
        return told

    def act(self, word):
        what, *rest = word.split(":")
        if what == "write":
            return self.write(int(rest[0], 16), bytes.fromhex(rest[1].strip("-")))
        if what == "read":
            return self.read(int(rest[0], 16), int(rest[1]))
        if what == "show":
            time, due = (None if w == "-" else int(w) for w in rest[2:])
            return self.read(int(rest[0], 16), int(rest[1]), [(0x0910, time), (0x0990, due)])
        addr, count = NAMES[rest[0]]
        if what == "get":
            return str(sum(self.memory.get(addr + k, 0) << (8 * k) for k in range(count)))
        for k in range(self.wide if count == 8 else count):
            self.memory[addr + k] = int(rest[1]) >> (8 * k) & 0xFF
        return "-"


def signed(number, width):
    number %= 1 << width
    return number - (1 << width) if number >> (width - 1) else number


def answer(line):
    words = line.split()
    if words[0] == "file":
        slave = Slave(words[1])
        return " ".join([words[1]] + [slave.act(word) for word in words[2:]])
    if words[0] == "names":
        return " ".join(["names"] + ["%04x:%d" % (addr, count) for addr, count, _, _ in TABLE])
    if words[0] in ("moved", "moved_back"):
        width, time, ns = map(int, words[1:])
        start = time % (1 << width)
        end = (start + (ns if words[0] == "moved" else -ns)) % (1 << width)
        return "%d %d %d" % (end, end % (1 << 32), signed(end - start, width))
    if words[0] == "ahead":
        width, time, other = map(int, words[1:])
        return str(signed(time - other, width))
    if words[0] == "extend":
        low, time = map(int, words[1:])
        return str((time + signed(low - time, 32)) % (1 << 64))
    return line


def accesses_by_hand():
    yield "# accesses of the register table"
    for kind, addr, data in [
        ("none", 0x0000, "ff"), ("none", 0x0008, "0101"), ("none", 0x000F, "09011009"),
        ("none", 0x08FF, "0707"), ("none", 0x0A00, "07"),
        ("r32", 0x0008, "0101"), ("r32", 0x08FF, "0707"), ("r32", 0x0904, "07" * 12),
        ("r32", 0x090F, "0707"), ("r32", 0x0918, "07" * 8), ("r32", 0x09A0, "07" * 4),
        ("c32", 0x0008, "0101"), ("c32", 0x0903, "07"), ("c32", 0x090F, "0978563412"),
        ("c32", 0x0920, "0102030405060708"), ("c32", 0x092E, "0909ff3f09090305"),
        ("c32", 0x0990, "01" * 8),
        ("c64", 0x0007, "01" * 4), ("c64", 0x0900, "07" * 4), ("c64", 0x0911, "01" * 7),
        ("c64", 0x0920, "0102030405060708"), ("c64", 0x0930, "8000"), ("c64", 0x0930, "7f00"),
        ("c64", 0x0930, "0040"), ("c64", 0x0930, "20"), ("c64", 0x0980, "0107"),
        ("c64", 0x09A2, "01" * 7), ("c64", 0x09AE, "01" * 10), ("c64", 0x0010, ""),
        ("c64", 0x0FFF, "0707"), ("c64", 0xFFFF, "07"),
    ]:
        yield "file %s write:%04x:%s read:%04x:%d" % (kind, addr, data or "-", addr, len(data) // 2)
    yield "# registers from inside the slave"
    yield ("file c64 set:time:1234605616436508552 set:latched:1 write:0928:ffffff7f get:time get:delay"
           " get:latched get:station get:offset get:activation read:0912:3")
    yield "file c32 set:time:4294967295 read:0910:8 get:time set:status:23088 read:0110:2 get:status"
    yield "file c64 set:time:18446744073709551615 set:edge:72623859790382856 read:0910:8 read:09b0:8"
    yield "file r32 set:port0:305419896 read:0900:4 get:port0 set:time:1 read:0910:8 get:time"
    yield "file none set:difference:2147483648 get:difference read:092c:4 get:speed get:cycle"
    yield "names"


def accesses_at_the_edges(dice):
    yield "# what a file has at the start"
    for kind in KINDS:
        parts = ["read:0000:2304", "read:0a00:1536"]
        parts += ["read:0900:256", "read:0900:16", "read:0918:8", "read:0910:8", "read:0920:8"]
        yield "file %s %s" % (kind, " ".join(parts))
    yield "# a write of each register: whole, a byte before it and a byte behind it"
    for kind in KINDS:
        for addr, count, _, _ in TABLE:
            low = max(addr - 1, 0)
            data = bytes(dice.randrange(1, 256) for _ in range(addr + count + 1 - low))
            whole = data[addr - low:addr - low + count]
            yield "file %s write:%04x:%s read:%04x:%d write:%04x:%s read:%04x:%d" % (
                kind, addr, whole.hex(), low, len(data), low, data.hex(), low, len(data))
    yield "# parts of the registers that have effects"
    for kind in KINDS:
        for low, high in [(0x08FE, 0x0906), (0x090E, 0x091A), (0x0918, 0x0922), (0x092E, 0x0938),
                          (0x097F, 0x0983), (0x098F, 0x0999), (0x09FE, 0x0A02)]:
            for _ in range(12):
                first = dice.randrange(low, high)
                count = dice.randrange(1, high - first + 2)
                data = bytes(dice.randrange(256) for _ in range(count)).hex()
                yield "file %s write:%04x:%s read:%04x:%d" % (kind, first, data, first, count)
    yield "# speeds"
    for speed in [0, 1, 63, 64, 127, 128, 129, 191, 192, 255, 256, 4095, 4096, 16319, 16320, 16383, 16384,
                  32768, 65535]:
        data = speed.to_bytes(2, "little").hex()
        yield "file c64 write:0930:%s get:speed write:092f:aa%s55 get:speed read:092c:10" % (data, data)
    yield "# the ends of the addresses, and no bytes"
    for kind in KINDS:
        for addr, count in [(0x0000, 0), (0x0900, 0), (0x1000, 0), (0xFFFF, 0), (0x0FFF, 1), (0x0FFF, 2),
                            (0x1000, 1), (0xFFFF, 2), (0x0FF8, 8), (0x0FF9, 8), (0x08FF, 1), (0x08FF, 2),
                            (0x09FF, 1), (0x09FF, 2), (0x0A00, 1)]:
            yield "file %s write:%04x:%s read:%04x:%d" % (kind, addr, "5a" * count or "-", addr, count)
    yield "# long accesses"
    for kind in KINDS:
        data = bytes(dice.randrange(256) for _ in range(2304)).hex()
        yield "file %s write:0000:%s read:0000:2304 read:0000:2305" % (kind, data)
        data = bytes(dice.randrange(256) for _ in range(256)).hex()
        yield "file %s write:0900:%s read:0900:256 write:08ff:%s" % (kind, data, data)
    yield "file c64 write:0000:%s read:0000:4096 read:0000:4097 write:0000:%s" % ("81" * 4096, "81" * 4097)


def accesses_one_after_the_other(dice):
    yield "# one access after the other"
    for kind in KINDS:
        for _ in range(12):
            words = []
            for _ in range(6):
                addr, count, _, _ = dice.choice(TABLE[2:])
                first = max(addr - dice.randrange(3), 0)
                count += dice.randrange(4)
                data = bytes(dice.randrange(256) for _ in range(count)).hex()
                words.append("write:%04x:%s" % (first, data))
            words += ["read:0010:2", "read:0900:16", "read:0918:8", "read:0920:16", "read:0930:6",
                      "read:0980:48"]
            words += ["get:" + name for name in NAMES if name != "edge"]
            yield "file %s %s" % (kind, " ".join(words))


def live_reads(dice):
    yield "# live values"
    for kind in KINDS:
        for low, high in [(0x090E, 0x091A), (0x098E, 0x099A)]:
            for _ in range(10):
                first = dice.randrange(low, high)
                count = dice.randrange(1, high - first + 2)
                time, due = (dice.choice(["-", str(dice.randrange(1 << 64)), str(dice.randrange(1 << 32))])
                             for _ in range(2))
                yield "file %s write:0990:0102030405060708 show:%04x:%d:%s:%s read:%04x:%d" % (
                    kind, first, count, time, due, first, count)
    yield "file c64 set:time:5 show:0900:256:18446744073709551615:1 show:0900:256:-:- read:0900:256"
    yield "file c32 set:time:5 show:0900:256:18446744073709551615:1 show:0900:256:-:- read:0900:256"
    yield "file c64 show:0910:0:1:1 show:0ff9:8:1:1 show:0912:2:1311768467463790320:- get:time"


def clock_words(dice):
    yield "# times that wrap"
    for line in [
        "moved 32 4294967290 16", "moved 64 4294967290 16", "moved 64 18446744073709551615 3",
        "moved 32 5 2147483648", "ahead 32 4294967290 10",
        "extend 10 4294967290", "extend 4294967290 4294967306", "extend 123 1000000000000",
        "extend 3 18446744073709551600", "extend 4294967295 0",
    ]:
        yield line
    edges = [0, 1, 2**31 - 1, 2**31, 2**31 + 1, 2**32 - 1, 2**32, 2**32 + 1, 2**63 - 1, 2**63, 2**63 + 1,
             2**64 - 1]
    for width in (32, 64):
        for time in edges:
            for ns in (0, 1, 2**31, 2**32 - 1, 2**32, 2**63, 2**64 - 1):
                yield "moved %d %d %d" % (width, time, ns)
                yield "moved_back %d %d %d" % (width, time, ns)
            for other in edges[::2]:
                yield "ahead %d %d %d" % (width, time, other)
    for low in (0, 1, 2**31 - 1, 2**31, 2**32 - 1):
        for time in edges:
            yield "extend %d %d" % (low, time)
    for _ in range(20):
        yield "extend %d %d" % (dice.randrange(1 << 32), dice.randrange(1 << 64))


def cases():
    dice = random.Random(1)
    yield from accesses_by_hand()
    yield from accesses_at_the_edges(dice)
    yield from accesses_one_after_the_other(dice)
    yield from live_reads(dice)
    yield from clock_words(dice)
