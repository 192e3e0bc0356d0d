#!/usr/bin/env python3
"""Writes the table `cases` of crates/frame_cases and its right answers.

The lines of the table down to the line MARK are by hand and stay; what stands behind it is made here: frames at every place of their
grammar, and the cases of register_cases.py and clock_cases.py. All answers to frames, also those to the lines by hand, are worked out
here from docs/FORMATS.md, "Frames", and docs/DEFINITIONS.md, "Frames" and "Links", by no more than is said there.
"""
import random

import clock_cases
import register_cases
import stored

MARK = "# from here on by tools/frame_cases.py"
NAMES = "Nop Aprd Apwr Aprw Fprd Fpwr Fprw Brd Bwr Brw Lrd Lwr Lrw Armw Frmw".split()
OWN = bytes.fromhex("ffffffffffff020000000001" "88a4")


def bytes_of(word):
    if word == "-":
        return b""
    digits, _, times = word.partition("*")
    return bytes.fromhex(digits) * int(times or 1)


def word_at(data, at):
    return data[at] + 256 * data[at + 1]


class Refused(Exception):
    """Bytes that are no frame, and why."""


def must(holds, reason, at):
    if not holds:
        raise Refused(f"{reason} at {at}")


class Bytes:
    """Bytes that are read one by one."""

    def __init__(self, data):
        self.data = data

    def __getitem__(self, at):
        must(at < len(self.data), "short", len(self.data))
        return self.data[at]


def datagrams(data):
    """The places and lengths of the datagrams of a frame."""
    seen, found = Bytes(data), []
    must(seen[12] == 0x88, "ethertype", 12)
    must(seen[13] == 0xA4, "ethertype", 13)
    must(seen[15] >> 4 == 1, "type", 15)
    left = word_at(data, 14) & 0x7FF
    must(12 <= left <= 1498, "length", 15)
    at = 16
    while left:
        must(seen[at] <= 14, "command", at)
        low = seen[at + 6]
        must(12 + low <= left, "length", at + 6)
        must(not 1 <= left - 12 - low <= 11, "more", at + 6)
        high = seen[at + 7]
        length = low + 256 * (high & 7)
        must(12 + length <= left, "length", at + 7)
        left -= 12 + length
        must(left >= 12 if high >> 7 else left == 0, "more", at + 7)
        seen[at + 11 + length]
        found.append((at, length))
        at += 12 + length
    most = max(60, at)
    must(len(data) <= most, "too long", most)
    return found


def read(data):
    try:
        found = datagrams(data)
    except Refused as reason:
        return str(reason)
    told = f"{len(data)} bytes, {len(found)}"
    for at, length in found:
        words = " ".join("%04x" % word_at(data, at + k) for k in (2, 4, 6, 8))
        told += f"; {NAMES[data[at]]} {data[at + 1]} {words} "
        told += f"{data[at + 10:at + 10 + length].hex() or '-'} {word_at(data, at + 10 + length)}"
    return told


def frame_of(parts):
    """The bytes of a frame of these datagrams: command, index, ADP, ADO, data and working counter."""
    body = b""
    for k, (command, index, adp, ado, data, counter) in enumerate(parts):
        more = 0x8000 if k + 1 < len(parts) else 0
        body += bytes([command, index]) + b"".join(n.to_bytes(2, "little") for n in (adp, ado, len(data) | more, 0))
        body += data + counter.to_bytes(2, "little")
    return (OWN + (len(body) | 0x1000).to_bytes(2, "little") + body).ljust(60, b"\0")


def build(words):
    told, parts, cut = "", [], words.index("/") if "/" in words else len(words)
    for word in words[:cut]:
        name, index, adp, ado, data = word.split(":")
        part = [NAMES.index(name), int(index), int(adp, 16), int(ado, 16), bytes_of(data), 0]
        fits = sum(12 + len(p[4]) for p in parts) + 12 + len(part[4]) <= 1498
        told += "ok " if fits else "full "
        parts += [part] if fits else []
    for word in words[cut + 1:]:
        what, k, *rest = word.split(":")
        part = parts[int(k)]
        if what in ("adp", "answer"):
            part[2] = int(rest[0], 16)
        if what in ("wkc", "answer"):
            part[5] = int(rest[what == "answer"], 16)
        if what in ("data", "answer"):
            assert len(part[4]) == len(bytes_of(rest[-1]))
            part[4] = bytes_of(rest[-1])
        if what == "bytes":
            at, piece = int(rest[0]), bytes_of(rest[1])
            assert at + len(piece) <= len(part[4])
            part[4] = part[4][:at] + piece + part[4][at + len(piece):]
    return f"{told}{len(parts)} {frame_of(parts).hex()}"


def wiped(data):
    """A frame without what a slave may change: ADP, circulating bit, IRQ, data and working counters."""
    found, left = datagrams(data), bytearray(data)
    left[:12] = bytes(12)
    for at, length in found:
        left[at + 2:at + 4] = left[at + 8:at + 10] = bytes(2)
        left[at + 7] &= 0xBF
        left[at + 10:at + 12 + length] = bytes(length + 2)
    return bytes(left[:found[-1][0] + 12 + found[-1][1]])


def differ(sent, reply):
    a, b = wiped(sent), wiped(reply)
    apart = [k for k, (x, y) in enumerate(zip(a, b)) if x != y]
    return str(apart[0]) if apart else "-" if len(a) == len(b) else str(min(len(a), len(b)))


def link(replies):
    lost, told = 0, "0"
    for reply in replies + ["lose", "lose"]:
        lost += reply == "lose"
        ado = reply[5:] if reply.startswith("give:") else "0000"
        told += f"; {'the frame was lost' if reply == 'lose' else 'came'} {ado} {lost}"
    return told


def answer(line):
    if line.startswith("#"):
        return line
    what, *words = line.split()
    if what == "read":
        return read(bytes_of(words[0]))
    if what == "differ":
        return differ(*map(bytes_of, words))
    return build(words) if what == "build" else link(words)


def changed(data, at, byte):
    return data[:at] + bytes([byte]) + data[at + 1:]


THREE = frame_of([(7, 1, 0x0102, 0x0304, b"\x5a", 0x0506), (14, 2, 0x0708, 0x0910, b"\x11\x22\x33\x44", 7),
                  (0, 3, 0, 0, b"", 0)])
LONG = frame_of([(12, 9, 0x1234, 0x5678, bytes(range(256)) + b"\x77" * 44, 0x8001)])
SIXTY = frame_of([(4, 0, 0x1001, 0x0130, bytes(range(32)), 1)])


def places(data):
    """The first bytes of the datagrams of a frame."""
    return [at for at, _ in datagrams(data)]


def refusals():
    yield "# every other bit of the EtherType, the header word, the commands and the length words"
    for data in (THREE, SIXTY, LONG):
        structure = [12, 13, 14, 15] + [at + k for at in places(data) for k in (0, 6, 7)]
        for at in structure:
            for bit in range(8):
                yield "read " + changed(data, at, data[at] ^ 1 << bit).hex()
    yield "# bytes that end at the refused one"
    for at in [12, 13, 15] + [at + k for at in places(THREE) for k in (0, 6, 7)]:
        for byte in (0x00, 0x0F, 0x10, 0x7F, 0x80, 0xFF):
            yield "read " + changed(THREE, at, byte)[:at + 1].hex()
    yield "# the header's length at its ends, with types and the reserved bit"
    for length in (0, 1, 11, 12, 13, 1497, 1498, 1499, 2047):
        for high in (0x00, 0x08, 0x10, 0x18, 0x20, 0x90, 0xF8):
            yield "read " + (OWN + bytes([length & 0xFF, high | length >> 8])).hex()
    yield "# the length of the last datagram against what is left: as long, shorter by 1 to 13, longer, and 256 more"
    for left in (12, 13, 23, 24, 25, 40, 267, 268, 269, 280, 524):
        front = OWN + (left | 0x1000).to_bytes(2, "little") + bytes(6)
        for length in sorted({max(left - 12 + d, 0) for d in (-13, -12, -11, -1, 0, 1, 244, 256)}):
            for more in (0, 0x80):
                yield "read " + (front + bytes([length & 0xFF, more | length >> 8 & 7])).hex()


def ends():
    yield "# each front of a frame, and each padding up to one byte too many"
    for size in range(len(THREE) + 2):
        yield "read " + ((THREE + b"\xee")[:size].hex() or "-")
    for count in (0, 1, 30, 31, 32, 33, 1485, 1486):
        data = frame_of([(1, 5, 0x0A0B, 0x0C0D, b"\x99" * count, 3)])
        whole = 28 + count
        for size in sorted({whole - 1, whole, whole + 1, 59, 60, 61} | ({whole + k for k in range(33)} if count == 0 else set())):
            yield "read " + (data[:whole].ljust(size, b"\xee"))[:size].hex()
    yield "# 60 bytes, built and read"
    for count in (30, 31, 32, 33):
        yield f"build Fpwr:3:1001:0990:{'a5' * count} / wkc:0:ffff"
    yield "build Brd:1:0000:0130:0000 Fpwr:2:1001:0120:0200 Nop:3:0000:0000:- / answer:1:1001:0001:3412"


def reserved():
    yield "# reserved bits, the circulating bit and IRQ say nothing of whether bytes are a frame"
    for data in (THREE, SIXTY):
        yield "read " + changed(data, 15, data[15] | 0x08).hex()
        for at in places(data):
            for bits in range(0x00, 0x80, 0x08):
                yield "read " + changed(data, at + 7, data[at + 7] | bits).hex()
            for k in (8, 9):
                yield "read " + changed(data, at + k, 0xFF).hex()


def differences():
    yield "# the first difference at each bit of each field, and none where slaves may write"
    for data in (THREE, SIXTY):
        for at in range(len(data)):
            for bit in (0, 3, 4, 5, 6, 7):
                reply = changed(data, at, data[at] ^ 1 << bit)
                try:
                    datagrams(reply)
                except Refused:
                    continue
                yield f"differ {data.hex()} {reply.hex()}"
    yield "# the first of two differences, and other numbers of datagrams"
    for one, other in [(1, 40), (17, 30), (16, 14), (20, 36), (30, 34), (34, 35)]:
        reply = changed(changed(THREE, one, THREE[one] ^ 1), other, THREE[other] ^ 1)
        try:
            datagrams(reply)
        except Refused:
            continue
        yield f"differ {THREE.hex()} {reply.hex()}"
    for a, b in [(THREE, SIXTY), (SIXTY, LONG), (LONG, THREE), (LONG, LONG), (THREE, THREE[:57]), (THREE[:57], THREE)]:
        yield f"differ {a.hex()} {b.hex()}"
        yield f"differ {b.hex()} {a.hex()}"


def at_random(dice):
    yield "# frames at random, and each with a byte changed"
    for _ in range(40):
        parts = [(dice.randrange(15), dice.randrange(256), dice.randrange(1 << 16), dice.randrange(1 << 16),
                  dice.randbytes(dice.choice([0, 1, 2, 8, 40])), dice.randrange(1 << 16)) for _ in range(dice.randint(1, 6))]
        data = frame_of(parts)
        yield "read " + data.hex()
        at = dice.randrange(12, len(data))
        yield "read " + changed(data, at, dice.randrange(256)).hex()


def frames():
    for lines in (refusals(), ends(), reserved(), differences(), at_random(random.Random(7))):
        yield from lines


def unread():
    """Lines that say no case, each for another cause."""
    return [
        "", "reads -", "read", "read 1", "read 0g", "read - -", "read 00*", "read 00*-1", "build", "build /", "build Brd:0:0000:0000",
        "build Xrd:0:0000:0000:00", "build Brd:256:0000:0000:00", "build Brd:0:10000:0000:00", "build Brd:0:0000:0000:00 / adp:1:0000",
        "build Brd:0:0000:0000:00 / data:0:0000", "build Brd:0:0000:0000:00 / bytes:0:1:00", "build Brd:0:0000:0000:00 / irq:0:0000",
        "build Brd:0:0000:0000:00 / answer:0:0000:0000:", "differ - -", f"differ {THREE.hex()}", f"differ {THREE.hex()} {THREE[:56].hex()}",
        "link loose", "link give", "link give:xyz", "file", "file c16", "file c32 peek:0000:1", "file c32 read:0000", "file c32 read:10000:1",
        "file c32 read:0000:65536", "file c32 write:0000:1", "file c32 get:colour", "file c32 set:colour:1", "file c32 set:time:4294967296",
        "file c32 set:status:65536", "file c32 show:0910:8:-", "names 1", "moved 16 0 0", "moved 32 0", "moved 32 0 18446744073709551616",
        "moved_back 32 0 0 0", "ahead 64 0 x", "extend 1", "ticks 1", "ticks 10 10 1:x 5", "ticks 10 10 1 5", "ticks 10 10 - -1",
        "instants 10 10 - 0", "clock 16 10 10 - 0 1 0", "clock 32 10 10 - 0 0 0", "clock 32 10 10 - 0 256 0",
        "clock 32 10 10 - 0 1 100001", "clock 32 10 10 - 0 1 0 stop", "clock 32 10 10 - 0 1 0 advance:20 advance:19",
        "clock 32 10 10 - 0 1 0 advance:20 edges:19:0", "clock 32 10 10 - 0 1 0 arm:0:999:-", "clock 32 10 10 - 0 1 0 arm:0:1000:0",
        "clock 32 10 10 - 0 1 0 arm:0:1000:1000", "clock 32 10 10 - 0 1 0 reset:0", "clock 32 10 10 - 0 1 0 receive:2147483648",
        "latch 16 10 10 - 0 1", "latch 32 10 10 - 0 0", "latch 32 10 10 - 0 1 take", "latch 32 10 10 - 0 1 expect",
        "latch 32 10 10 - 0 1 sample:20:0 sample:19:0",
    ]


def table(by_hand):
    yield from ((line, answer(line)) for line in by_hand)
    yield MARK, MARK
    yield from ((line, answer(line)) for line in frames())
    yield from ((line, register_cases.answer(line)) for line in register_cases.cases())
    yield from clock_cases.table()
    yield ("# lines that cannot be read",) * 2
    yield from ((line, "unread") for line in unread())


def main():
    by_hand = stored.table("frame_cases", "cases").split("\n" + MARK)[0].split("\n")
    rows = list(table(by_hand))
    stored.store("frame_cases", "cases", *("".join(row[side] + "\n" for row in rows) for side in (0, 1)))


if __name__ == "__main__":
    main()
