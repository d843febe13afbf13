"""Makes the case tables: what a checking program reads, and what it must print.

    python3 make_cases.py [DATA [CASES]]    ../../crates/recover/data and ../../crates/cases
                                            unless given

Writes CASES/stdin and CASES/stdout. README.md has the form of the lines.
"""

import os
import random
import sys

import machine
from machine import Grant, Registers, cut, put_together

HERE = os.path.dirname(os.path.abspath(__file__))
EDGE16 = [0, 1, -1, 32767, -32768]
EDGE32 = [0, 1, -1, 2147483647, -2147483648]
UNDEFINED = 0x1203  # in every book
EVERY_BASE = ("LDB", "LDX", "STW", "BLI", "ST")
STORES = ("STB", "ST", "STW", "STX", "STY", "STZ")
A_PLACES = (
    [("A1", 0)] + [("A2", m) for m in range(4)] + [("A3", 0)]
    + [("A4", m) for m in range(4)] + [("A5", m) for m in range(4)]
)


class Table:
    """The two files, line by line, and the book that the cases use."""

    def __init__(self, book):
        self.book = book
        self.asked = []
        self.answered = []
        self.labels = {}
        self.counts = {}

    def remark(self, text):
        self.asked += ["", f"# {text}"]

    def note(self, kind, question, answer):
        self.asked.append(question)
        self.answered.append(answer)
        self.counts[kind] = self.counts.get(kind, 0) + 1

    # -- runs

    def word(self, name, fmt="L", m=0, d=0):
        return put_together(self.book, name, fmt, m, d)

    def run(self, label, words=(), items=(), grants=None, budget=1, **contents):
        """words stand at s (aligned); items are (address, bytes or hex text).

        Contents may be negative, and are cut to their registers. The label
        gets a number of its own. Where no grants are given, the words that are
        obeyed may be read, and all else written."""
        number = self.labels[label] = self.labels.get(label, 0) + 1
        r = Registers()
        contents.setdefault("s", 1000)
        for name, value in contents.items():
            bits = 32 if name in "ab" else 16
            setattr(r, name, value if name in ("fm", "n", "zr", "of", "ca")
                    else cut(value, bits))
        pieces = []
        if words:
            at = r.s & 0xFFFE
            pieces.append((at, b"".join(w.to_bytes(2, "big") for w in words)))
        for address, content in items:
            if isinstance(content, str):
                content = bytes.fromhex(content)
            pieces.append((address, content))
        self.case(f"{label}-{number}", r, grants, pieces, budget)

    def case(self, label, r, grants, pieces, budget):
        store = bytearray(machine.STORE_SIZE)
        written = set()
        for address, content in pieces:
            assert content and address + len(content) <= machine.STORE_SIZE, label
            for i, byte in enumerate(content):
                assert address + i not in written, label
                written.add(address + i)
                store[address + i] = byte
        if grants is None:
            grants = code_apart(self.book, store, r, budget)
        granted = parsed_grants(grants)
        before = bytes(store)
        steps, stop, after = machine.turn(self.book, granted, store, r, budget)
        changed = ",".join(
            f"{i}:{store[i]:02X}" for i in range(machine.STORE_SIZE)
            if store[i] != before[i]) if store != before else "-"
        question = " ".join([
            "run", label, str(r), ",".join(grants) or "-",
            ",".join(f"{a}:{c.hex().upper()}" for a, c in pieces) or "-",
            str(budget)])
        how = f"stopped {stop}" if stop else "spent"
        self.note("run", question, f"{label} {steps} {how} {after} {changed}")

    # -- the others

    def book_text(self, text):
        try:
            machine.read_book(text)
            answer = "book accepted"
        except machine.BookRefused as why:
            answer = f"book refused {why.number} {why.line}"
        self.note("book", f"book {text.hex().upper() or '-'}", answer)

    def reading(self, word):
        answer = machine.reading(self.book, word)
        self.note("reading", f"reading {word:04X}", f"reading {answer}")

    def put(self, name, fmt, m, d):
        try:
            answer = f"{put_together(self.book, name, fmt, m, d):04X}"
        except machine.PutRefused as why:
            answer = f"refused {why.number}"
        self.note("put", f"put {name} {fmt} {m} {d}", f"put {answer}")


def code_apart(book, store, registers, budget):
    """Grants of the whole store: reads of the words that a turn obeys, writes of the rest.

    A turn that writes a word which it obeys has one write grant over all. Words
    with few bytes between them that are not written go under one read grant."""
    everything = [Grant(False, 0, 65535), Grant(True, 0, 65535)]
    store, r = bytearray(store), registers
    obeyed, written = set(), set()
    for _ in range(max(budget, 1)):
        obeyed |= {r.s & 0xFFFE, r.s | 1}
        try:
            r, writes = machine.step(book, everything, store, r)
        except machine.Stopped:
            break
        for address, byte in writes:
            store[address] = byte
            written.add(address)
    if obeyed & written:
        return ["w:0:65535"]
    reads = []
    for byte in sorted(obeyed):
        if reads and byte <= reads[-1][1] + 9 and not written & set(range(reads[-1][1], byte)):
            reads[-1][1] = byte
        else:
            reads.append([byte, byte])
    texts, at = [], 0
    for first, last in reads:
        if at < first:
            texts.append(f"w:{at}:{first - 1}")
        texts.append(f"r:{first}:{last}")
        at = last + 1
    if at < machine.STORE_SIZE:
        texts.append(f"w:{at}:65535")
    return texts


def parsed_grants(texts):
    """The grants, which a bay would accept one after the other."""
    assert len(texts) <= 6
    grants = []
    for text in texts:
        kind, first, last = text.split(":")
        grant = Grant(kind == "w", int(first), int(last))
        assert kind in "rw" and 0 <= grant.first <= grant.last <= 65535, text
        assert not any(machine.clash(grant, other) for other in grants), texts
        grants.append(grant)
    return grants


def half(value):
    return cut(value, 16).to_bytes(2, "big")


def full(value):
    return cut(value, 32).to_bytes(4, "big")


def item(name, value):
    length = machine.item_length(name)
    return cut(value, 8 * length).to_bytes(length, "big")


# ---------------------------------------------------------------- values

USUAL = ["r:1000:1001", "w:2000:2003"]


def with_operand(t, name, value, label="edge", **contents):
    """The instruction with its operand at y, 2000."""
    word = t.word(name, "A2", 2, 0)
    t.run(f"{name}-{label}", [word], [(2000, item(name, value))], USUAL,
          y=2000, **contents)


def loads_and_stores(t):
    t.remark("loads: values, markers, and what they leave alone")
    others = [dict(), dict(of=1, ca=1, n=1, zr=1)]
    for value in (0, 1, 127, 128, 255):
        for rest in others:
            with_operand(t, "LDB", value, "value", a=-1, **rest)
    for name, values in (("LD", EDGE16 + [255, -256]), ("LDX", EDGE16),
                         ("LDW", EDGE32 + [65536, 32768, 65535])):
        for value in values:
            for rest in others:
                with_operand(t, name, value, "value", a=0x12345678, b=7, x=99, **rest)
    for d in (0, 1, 127, 128, 255):
        for rest in others:
            t.run("LDL-value", [t.word("LDL", d=d)], a=-1, **rest)

    t.remark("stores: what is stored, N and ZR of it, OF of ST alone")
    wide = EDGE32 + [255, 256, 128, 32767, 32768, -32768, -32769, 65535, 65536,
                     0x12340000, 0x7FFF8000, -65536]
    for name in ("STB", "ST", "STW"):
        for a in wide if name == "ST" else wide[:7] + wide[-3:]:
            with_operand(t, name, 0x5A5A5A5A, "value", a=a, n=1, zr=1)
    for a in (0, 32767, 32768, -32768, -32769):
        with_operand(t, "ST", 0, "of-stays", a=a, of=1, ca=1)
        with_operand(t, "STW", 0, "of-stays", a=a, of=1, ca=1)
        with_operand(t, "STB", 0, "of-stays", a=a, of=1, ca=1)
    for x in EDGE16:
        with_operand(t, "STX", 0x1111, "value", x=x, n=1, zr=1)
        with_operand(t, "STX", 0x1111, "of-stays", x=x, of=1, ca=1)
    for value in (0, 1, 32768, 65535):
        with_operand(t, "STZ", 0x2222, "value", z=value, n=1, zr=1, of=1)
        with_operand(t, "STZ", 0x2222, "value", z=value)
        word = t.word("STY", "A2", 3, 0)
        for rest in (dict(), dict(n=1, zr=1, of=1, ca=1)):
            t.run("STY-value", [word], [(2000, half(0x3333))], USUAL, z=2000,
                  y=value, **rest)

    t.remark("y and z: modulo 65536, no marker")
    for name in ("LDZ", "ADZ", "SBZ"):
        for content, value in ((0, 0), (65535, 1), (0, 1), (32768, 32768), (5, 65535)):
            with_operand(t, name, value, "value", z=content)
        with_operand(t, name, 3, "marks", z=5, n=1, zr=1, of=1, ca=1)
        with_operand(t, name, 0, "marks", z=0, n=1, of=1)
    for name in ("LDY", "ADY", "SBY"):
        word = t.word(name, "A2", 3, 0)
        for content, value in ((0, 0), (65535, 1), (0, 1), (32768, 32768), (5, 65535)):
            t.run(f"{name}-value", [word], [(2000, half(value))], USUAL, z=2000, y=content)
        t.run(f"{name}-marks", [word], [(2000, half(3))], USUAL, z=2000, y=5, n=1, zr=1,
              of=1, ca=1)
        t.run(f"{name}-marks", [word], [(2000, half(0))], USUAL, z=2000, y=0, n=1, of=1)
        # the base is the register that is altered
        t.run(f"{name}-own-base", [t.word(name, "A2", 2, 1)], [(2002, half(9))],
              USUAL, y=2000)


def sums(t):
    t.remark("sums and differences: true and apparent results, carry and borrow")
    for name in ("AD", "SB", "CP"):
        for a in EDGE32:
            for value in EDGE16:
                with_operand(t, name, value, a=a)
        with_operand(t, name, -32768, a=65536)
        with_operand(t, name, -32768, a=32768)
        for a, value in ((2, 3), (-2147483648, -1), (5, -1), (1, 1), (2147483647, 1)):
            with_operand(t, name, value, "of-stays", a=a, of=1, ca=1, n=1, zr=1)
    for name in ("ADW", "SBW", "CPW"):
        for a in EDGE32:
            for value in EDGE32:
                with_operand(t, name, value, a=a)
        for a, value in ((7, 3), (-2147483648, 1), (65536, -65536), (5, 5)):
            with_operand(t, name, value, "of-stays", a=a, of=1, ca=1, n=1, zr=1)
    for name in ("ADX", "SBX", "CPX"):
        for x in EDGE16:
            for value in EDGE16:
                with_operand(t, name, value, x=x)
        for x, value in ((7, 3), (-32768, 1), (256, -256), (5, 5), (32767, 1)):
            with_operand(t, name, value, "of-stays", x=x, of=1, ca=1, n=1, zr=1)
    for name in ("ADL", "SBL", "CPL"):
        for a in EDGE32 + [255]:
            for d in (0, 1, 255):
                t.run(f"{name}-edge", [t.word(name, d=d)], a=a)
        for a, d in ((3, 3), (2147483647, 1), (-2147483648, 1), (-1, 1)):
            t.run(f"{name}-of-stays", [t.word(name, d=d)], a=a, of=1, ca=1, n=1, zr=1)


def ands(t):
    t.remark("AND: N and ZR from the result, OF and CA stay")
    for a, value in ((0, -1), (-1, 0), (-1, -1), (-1, -2147483648), (0x0F0F0F0F, 0xF0F0F0F0),
                     (0x12345678, 0x0000FFFF), (-2147483648, 2147483647), (1, 3)):
        with_operand(t, "NW", value, a=a)
        with_operand(t, "NW", value, "marks", a=a, n=1, zr=1, of=1, ca=1)
    for x, value in ((0, -1), (-1, 0), (-1, -1), (-1, -32768), (0x0F0F, 0xF0F0),
                     (-32768, 32767), (1, 3)):
        with_operand(t, "NX", value, x=x)
        with_operand(t, "NX", value, "marks", x=x, n=1, zr=1, of=1, ca=1)
    for a in (0, -1, 0x12345678, -2147483648, 0x80, 0x7FFFFF00):
        for d in (0, 1, 0x80, 0xFF):
            t.run("NL-edge", [t.word("NL", d=d)], a=a, n=1, of=1, ca=1)


def products(t):
    t.remark("products: N, ZR, OF as in addition, CA stays")
    for a in EDGE32 + [0x01000000, 0x00808081, -3]:
        for d in (0, 1, 2, 255):
            t.run("ML-edge", [t.word("ML", d=d)], a=a, ca=d & 1)
    t.run("ML-example", [t.word("ML", d=2)], a=-2147483648)
    t.run("ML-of-stays", [t.word("ML", d=2)], a=2, of=1, ca=1)
    for x in EDGE16 + [2, 256]:
        for value in EDGE16 + [256]:
            with_operand(t, "MX", value, x=x)
    for x, value in ((181, 181), (182, 181), (-182, 181), (-256, 128), (256, 128), (-181, -182)):
        with_operand(t, "MX", value, "close", x=x)
    with_operand(t, "MX", 3, "of-stays", x=3, of=1, ca=1, n=1, zr=1)
    with_operand(t, "MX", 0, "of-stays", x=3, of=1, ca=1, n=1)

    t.remark("quotients: towards zero; what cannot be divided only raises OF")
    for x in EDGE16 + [7, -7]:
        for value in EDGE16 + [2, -2]:
            with_operand(t, "DX", value, x=x, b=12345)
    for x, value in ((7, 0), (0, 0), (-32768, -1), (-32768, 0)):
        for n, zr, of in ((0, 0, 0), (1, 1, 1)) if value else ((1, 0, 0), (0, 1, 1)):
            with_operand(t, "DX", value, "only-of", x=x, n=n, zr=zr, of=of, ca=1)
    for x, value in ((-7, 2), (-1, 2), (1, -2), (-32768, 1), (-32767, -1), (-32768, 2)):
        with_operand(t, "DX", value, "of-stays", x=x, of=1, ca=1, n=1, zr=1)


# ---------------------------------------------------------------- addresses

PATTERN = bytes(range(0xA1, 0xA1 + 16))


def formed(t, label, name, fmt, m, d, pointer=None, **contents):
    """An instruction with exact grants for its word, pointer and operand.

    Distinct bytes lie around the operand, so that another address shows."""
    word = t.word(name, fmt, m, d)
    r = Registers(**{k: cut(v, 16) if len(k) == 1 and k not in "ab" else v
                     for k, v in contents.items()})
    contents.setdefault("s", 1000)
    s = contents["s"] & 0xFFFE
    r.s = cut(contents["s"] + 2, 16)
    length = machine.item_length(name)
    places = [(s, 2, "r")]
    pieces = []
    if fmt in ("A3", "A4"):
        base = 0 if fmt == "A3" else (r.l, r.s, r.y, r.z)[m]
        at = cut(base + 2 * d, 16) & 0xFFFE
        pieces.append((at, half(pointer)))
        places.append((at, 2, "r"))
        target = cut(pointer + machine.signed(r.x, 16) * length, 16)
    elif fmt == "A1":
        target = d * length
    elif fmt == "A2":
        target = cut((r.l, r.s, r.y, r.z)[m] + d * length, 16)
    else:
        base = 0 if m == 1 else (r.l, r.s, r.y, r.z)[m]
        target = cut(base + d * length + machine.signed(r.x, 16) * length, 16)
    target = target // length * length
    places.append((target, length, "w"))
    used = {s, s + 1}
    for at, content in pieces:
        used |= {at, at + 1}
    for byte in range(target - 6, target + 10):
        if 0 <= byte < 65536 and byte not in used:
            pieces.append((byte, PATTERN[byte % 16:byte % 16 + 1]))
    pieces = joined(pieces)
    texts = [f"{k}:{a}:{a + n - 1}" for a, n, k in places]
    t.run(f"{name}-{label}", [word], pieces, texts, **contents)


def joined(pieces):
    """Pieces that touch become one."""
    result = []
    for at, content in sorted(pieces):
        if result and result[-1][0] + len(result[-1][1]) == at:
            result[-1] = (result[-1][0], result[-1][1] + content)
        else:
            result.append((at, content))
    return result


def formats(t):
    t.remark("every name of format A under every format and base")
    for i, name in enumerate(machine.A_NAMES):
        for j, (fmt, m) in enumerate(A_PLACES):
            # every base for a few names, one base a format for the others
            if fmt in machine.HAS_M and (i + len(fmt) + j) % 4 and name not in EVERY_BASE:
                continue
            x = (3, -3, 5, -7, 0x4001, -32768, 11)[(i + j) % 7]
            d = {"A1": 0x55 + i, "A2": 0x20 + i, "A3": 0x11 + i, "A4": i, "A5": i % 16}[fmt]
            odd = (i + j) % 2
            formed(t, f"{fmt}-M{m}", name, fmt, m, d, pointer=30000 + odd + 8 * i,
                   x=x, l=40000 + odd, y=44000 + 3 * odd, z=48001 + odd,
                   a=0x87654321 + i, b=0x11112222, s=1000, of=0, ca=i % 2, n=j % 2,
                   zr=i % 2)

    t.remark("largest and smallest D, scaled")
    for name in ("LDB", "STW"):
        for fmt, m, last in (("A1", 0, 255), ("A2", 0, 127), ("A3", 0, 63),
                             ("A4", 2, 31), ("A5", 3, 15)):
            for d in (0, last):
                formed(t, f"{fmt}-D", name, fmt, m, d, pointer=31000, x=1,
                       l=40000, y=44000, z=48000, a=0x00ABCDEF, s=5000)

    t.remark("addresses that wrap, and x scaled past 16 bits")
    for name in ("LDB", "LD", "STW"):
        formed(t, "wrap-base", name, "A2", 0, 100, l=65530, a=-2, s=3000)
        formed(t, "wrap-base", name, "A2", 2, 3, y=65535, a=-2, s=3000)
        formed(t, "wrap-x-down", name, "A5", 3, 2, z=3, x=-9, a=-2, s=3000)
        formed(t, "wrap-x-up", name, "A5", 2, 15, y=65000, x=600, a=-2, s=3000)
        formed(t, "wrap-x-scaled", name, "A5", 0, 1, l=7000, x=0x4001, a=-2, s=3000)
        formed(t, "wrap-x-scaled", name, "A5", 1, 4, x=0x4003, a=-2, s=3000)
        formed(t, "wrap-x-scaled", name, "A5", 1, 4, x=-0x8000, a=-2, s=3000)
        formed(t, "wrap-x-scaled", name, "A3", 0, 9, pointer=6000, x=-0x7FFF, a=-2, s=3000)
        formed(t, "wrap-pointer", name, "A4", 3, 30, pointer=65535, z=65500, x=1, a=-2, s=3000)
        formed(t, "wrap-pointer", name, "A4", 0, 5, pointer=2, l=65535, x=-3, a=-2, s=3000)
        formed(t, "to-last", name, "A2", 3, 0, z=65535, a=-2, s=3000)
        formed(t, "to-last", name, "A5", 1, 0, x=-1, a=-2, s=3000)
        formed(t, "to-first", name, "A1", 0, 0, a=-2, s=3000)
        formed(t, "out-and-back", name, "A5", 2, 15, y=65535, x=-2, a=-2, s=3000)

    t.remark("s as a base is at the next instruction; A5 with M 1 has base 0")
    for name in ("LDB", "LDW", "ST"):
        formed(t, "A2-next", name, "A2", 1, 4, s=3000, a=-2)
        formed(t, "A2-next-odd", name, "A2", 1, 4, s=3001, a=-2)
        formed(t, "A2-next-wraps", name, "A2", 1, 4, s=65534, a=-2)
        formed(t, "A2-next-wraps", name, "A2", 1, 5, s=65535, a=-2)
        formed(t, "A4-next", name, "A4", 1, 2, pointer=9001, s=3000, x=1, a=-2)
        formed(t, "A4-next-odd", name, "A4", 1, 2, pointer=9003, s=3001, x=-1, a=-2)
        formed(t, "A4-next-wraps", name, "A4", 1, 3, pointer=9002, s=65534, x=2, a=-2)
        formed(t, "A4-next-wraps", name, "A4", 1, 3, pointer=9002, s=65535, x=2, a=-2)
        formed(t, "A5-zero-base", name, "A5", 1, 5, s=3000, x=100, a=-2)
        formed(t, "A5-zero-base", name, "A5", 1, 0, s=3001, x=0, a=-2)
    # the instruction is its own operand, or its own pointer
    t.run("LD-own-word", [t.word("LD", "A1", 0, 100)], s=200)
    t.run("LD-own-word", [t.word("LD", "A2", 1, 0), 0x1234], s=200)
    t.run("LD-own-pointer", [t.word("LD", "A3", 0, 50)], s=100, x=1)
    t.run("ST-own-word", [t.word("ST", "A1", 0, 100), UNDEFINED], s=200, a=0x1201, budget=3)
    t.run("STX-next-word", [t.word("STX", "A2", 1, 0), UNDEFINED, UNDEFINED], s=200, x=0x2007,
          budget=3)
    # x is both index and destination, z both base and destination
    t.run("LDX-own-index", [t.word("LDX", "A5", 2, 0)], [(2006, "1234")], y=2000, x=3)
    t.run("LDX-own-index", [t.word("LDX", "A3", 0, 4)], [(8, half(2000)), (1998, "8234")], x=-1)
    t.run("STX-own-index", [t.word("STX", "A5", 2, 0)], y=2000, x=3)
    t.run("LDZ-own-base", [t.word("LDZ", "A4", 3, 0)], [(2000, half(2100)), (2104, "8234")],
          z=2000, x=2)


# ---------------------------------------------------------------- refusals


def refusals(t):
    t.remark("every name of format A without its operand's grant")
    for name in machine.A_NAMES:
        word = t.word(name, "A2", 2, 0)
        marks = dict(of=0, n=1, zr=1, ca=1)
        t.run(f"{name}-refused", [word], grants=["r:1000:1001"], y=2003, z=9, a=-65536, x=3,
              **marks)
        t.run(f"{name}-read-grant", [word], [(2000, "80018001")],
              ["r:1000:1001", "r:2000:2003"], y=2003, z=9, a=-65536, x=3, **marks)

    t.remark("each byte of a fullword and of a halfword may be the lowest refused")
    for name in ("LDW", "STW", "ADW", "SBW", "CPW", "NW"):
        kind = "w" if name == "STW" else "r"
        # bit i of refused: byte i has no grant
        for refused in range(16) if name in ("LDW", "STW") else (0, 1, 2, 4, 8, 12):
            grants = ["r:1000:1001"] + [
                f"{kind}:{2000 + i}:{2000 + i}" for i in range(4) if not refused >> i & 1]
            t.run(f"{name}-bytes", [t.word(name, "A2", 2, 0)], [(2000, "8123F567")], grants,
                  y=2000 + refused % 4, a=0x11223344)
    for name in ("LD", "ST", "STX", "MX", "BLI", "STZ"):
        kind = "w" if name in STORES else "r"
        for refused in range(4):
            grants = ["r:1000:1001"] + [
                f"{kind}:{2000 + i}:{2000 + i}" for i in range(2) if not refused >> i & 1]
            t.run(f"{name}-bytes", [t.word(name, "A2", 3, 0)], [(2000, "8123")], grants,
                  z=2000 + refused % 2, a=0x11223344, x=0x5566, y=0x7788)
    for name in ("LDB", "STB"):
        for y in (1999, 2000, 2001, 2002):
            t.run(f"{name}-bytes", [t.word(name, "A2", 2, 0)], [(1999, "81828384")],
                  ["r:1000:1001", "w:2000:2001"], y=y, a=0x11223344)
    # a write across a write and a read grant is refused in the read grant
    for name, first in (("STW", 1), ("STW", 2), ("STW", 3), ("ST", 1)):
        t.run(f"{name}-mixed", [t.word(name, "A2", 2, 0)], [(2000, "A1A2A3A4")],
              ["r:1000:1001", f"w:1990:{1999 + first}", f"r:{2000 + first}:2010"], y=2000, a=1)
        t.run(f"{name}-mixed", [t.word(name, "A2", 2, 0)], [(2000, "A1A2A3A4")],
              ["r:1000:1001", f"r:1990:{1999 + first}", f"w:{2000 + first}:2010"], y=2000, a=1)
    # across two and three grants, all of them fitting
    t.run("LDW-across", [t.word("LDW", "A2", 2, 0)], [(2000, "A1A2A3A4")],
          ["r:1000:1001", "r:2000:2000", "w:2001:2002", "r:2003:2003"], y=2001)
    t.run("STW-across", [t.word("STW", "A2", 2, 0)], [(2000, "A1A2A3A4")],
          ["r:1000:1001", "w:2000:2000", "w:2001:2002", "w:2003:2003"], y=2001, a=0x01020304)
    t.run("LDW-across", [t.word("LDW", "A2", 2, 0)], [(2000, "A1A2A3A4")],
          ["r:1000:1001", "r:1900:2001", "r:2001:2002", "r:2002:2100"], y=2002)
    t.run("LDW-across", [t.word("LDW", "A2", 2, 0)], [(2000, "A1A2A3A4")],
          ["r:1000:1001", "w:1900:2001", "r:2002:2002", "r:2004:2100"], y=2000)
    t.run("LDW-last", [t.word("LDW", "A2", 2, 0)], [(65532, "A1A2A3A4")],
          ["r:1000:1001", "r:65532:65535"], y=65535)
    t.run("LDW-last", [t.word("LDW", "A2", 2, 0)], [(65532, "A1A2A3A4")],
          ["r:1000:1001", "r:65533:65535"], y=65535)
    t.run("STW-last", [t.word("STW", "A2", 2, 0)], [(65532, "A1A2A3A4")],
          ["r:1000:1001", "w:65532:65534"], y=65535)
    t.run("STB-last", [t.word("STB", "A2", 2, 0)], (), ["r:1000:1001", "w:65535:65535"],
          y=65535, a=7)
    t.run("STB-first", [t.word("STB", "A2", 2, 0)], (), ["r:1000:1001", "w:0:0"], y=0, a=7)

    t.remark("pointers: refused before the operand, read only, at the even address")
    for name in ("LDB", "STW", "BLI"):
        for fmt, m in (("A3", 0), ("A4", 0), ("A4", 1), ("A4", 2), ("A4", 3)):
            base = 0 if fmt == "A3" else (3001, 1002, 4001, 5001)[m]
            at = (base + 40) & 0xFFFE
            for missing in (at, at + 1):
                t.run(f"{name}-pointer-refused", [t.word(name, fmt, m, 20)], [(at, half(2000))],
                      ["r:1000:1001", f"r:{2 * at + 1 - missing}:{2 * at + 1 - missing}"],
                      l=3001, y=4001, z=5001, x=1, a=77, n=1, of=1)
            t.run(f"{name}-pointer-only", [t.word(name, fmt, m, 20)], [(at, half(2000))],
                  ["r:1000:1001", f"r:{at}:{at + 1}"], l=3001, y=4001, z=5001, x=1, a=77, n=1)
    t.run("ST-pointer-in-write", [t.word("ST", "A3", 0, 20)], [(40, half(2000))],
          ["r:1000:1001", "w:40:41", "w:2000:2001"], a=9)
    t.run("ST-pointer-is-operand", [t.word("ST", "A3", 0, 20)], [(40, half(40))],
          ["r:1000:1001", "w:40:41"], a=0x1234)
    t.run("ST-pointer-is-operand", [t.word("ST", "A3", 0, 20)], [(40, half(40))],
          ["r:1000:1001", "r:40:41"], a=0x1234)

    t.remark("fetch: both bytes, at the even address, before all else")
    for s in (1000, 1001):
        for grants in ([], ["r:1000:1000"], ["r:1001:1001"], ["r:1000:1001"], ["w:1000:1001"],
                       ["w:1000:1000"], ["r:1002:1003"], ["r:1000:1000", "w:1001:1001"]):
            t.run("LDL-fetch", [t.word("LDL", d=9), t.word("LDL", d=8)], (), grants, s=s, a=1)
    for s in (65534, 65535):
        for grants in ([], ["r:65534:65535"], ["r:65534:65534"], ["r:65535:65535"], ["r:0:1"]):
            t.run("LDL-fetch-last", [t.word("LDL", d=9)], (), grants, s=s, a=1)
        t.run("LDL-fetch-wraps", [t.word("LDL", d=9)], [(0, "2107"), (2, "1201")],
              ["r:65534:65535", "r:0:3"], s=s, a=1, budget=5)
        t.run("LDL-fetch-wraps", [t.word("LDL", d=9)], [(0, "2107"), (2, "1201")],
              ["r:65534:65535"], s=s, a=1, budget=5)
    t.run("undefined-fetch-first", [UNDEFINED], (), ["r:1000:1000"])
    t.run("HRK-fetch-first", [t.word("HRK")], (), ["r:1001:1001"])
    t.run("LD-fetch-first", [t.word("LD", "A1", 0, 0)], (), ["r:1000:1000"], fm=1)
    t.run("MBS-fetch-first", [t.word("MBS")], (), ["r:1000:1000"])


# ---------------------------------------------------------------- branches


def branches(t):
    t.remark("branches: from the next instruction, modulo 65536")
    for name in ("B", "BL"):
        for d in (0, 1, -1, 511, -512):
            for s in (1000, 1001, 65534, 65535, 64600)[d & 1::2]:
                t.run(f"{name}-to", [t.word(name, "B", 0, d)], s=s, z=5, n=1, of=1)
    t.run("B-example", [t.word("B", "B", 0, 11)], s=1000)
    for name in machine.CONDITIONAL:
        for marks in range(16) if name == "BOF" else (0, 3, 5, 6, 9, 10, 12, 15):
            n, zr, of, ca = marks >> 3, marks >> 2 & 1, marks >> 1 & 1, marks & 1
            d = (5, -6, 127, -128, 0, -1)[marks % 6]
            t.run(f"{name}-marks", [t.word(name, d=d)], n=n, zr=zr, of=of, ca=ca, a=3, x=4)
        taken = dict(n=int(name == "BN"), zr=int(name == "BZ"), of=1, ca=1)
        untaken = dict(n=int(name == "BNN"), zr=int(name == "BNZ"), of=0, ca=0)
        for d in (127, -128):
            t.run(f"{name}-taken", [t.word(name, d=d)], s=65534, **taken)
            t.run(f"{name}-taken", [t.word(name, d=d)], s=101, **taken)
            t.run(f"{name}-untaken", [t.word(name, d=d)], s=65535, **untaken)
    t.run("BOF-twice", [t.word("BOF", d=0), t.word("BOF", d=10)], of=1, budget=2)
    t.run("BOF-far", [t.word("BOF", d=-128)], of=1, s=2)

    t.remark("BI and BLI: the operand goes into s, odd or not; z after the address is formed")
    for name in ("BI", "BLI"):
        for value in (0, 1, 999, 1000, 32768, 65534, 65535):
            t.run(f"{name}-to", [t.word(name, "A1", 0, 100)], [(200, half(value))],
                  ["r:1000:1001", "r:200:201"], z=5, n=1, zr=1, of=1, ca=1)
        t.run(f"{name}-old-z", [t.word(name, "A2", 3, 1)], [(302, "0400"), (1004, "0800")],
              z=300)
        t.run(f"{name}-old-z", [t.word(name, "A5", 3, 1)], [(306, "0401"), (1004, "0800")],
              z=301, x=2)
        t.run(f"{name}-old-z", [t.word(name, "A4", 3, 1)], [(302, half(500)), (502, "0402")],
              z=300, x=1)
        t.run(f"{name}-odd-goes-on", [t.word(name, "A1", 0, 100)],
              [(200, half(2001)), (2000, "2007"), (2002, "2101"), (2004, "1201")], budget=9)
        t.run(f"{name}-wraps", [t.word(name, "A2", 1, 0)], [(0, half(700))], s=65534, z=9)
        t.run(f"{name}-wraps", [t.word(name, "A2", 1, 0)], [(0, half(701))], s=65535, z=9)


# ---------------------------------------------------------------- bits and the rest


def bits(t):
    t.remark("bit instructions: bit 0 is the top one of the low half of a")
    for high in (0, 9, 10, 11, 14):
        for bit in range(16):
            one = 1 << (15 - bit)
            both = ((0, -1), (0xA5A50000 | one, 0x5A5AFFFF ^ one), (0x0000FFFF, 0xFFFF0000))
            for a in both[(bit + high) % 3][bit % 2:bit % 2 + 1 + (high == 0)]:
                t.run("BITL-bit", [t.word("BITL", d=16 * high + bit)], a=a,
                      zr=bit >> 1 & 1, n=1)
    for high in range(16):
        for low in (0, 15)[high % 2:high % 2 + 1]:
            t.run("BITL-control", [t.word("BITL", d=16 * high + low)], a=0x12345678,
                  of=1, ca=1, n=1, fm=low & 1)
            t.run("BITX-control", [t.word("BITX", d=16 * high + low)], a=0x12345678,
                  of=1, ca=1, n=1, fm=low & 1)
    t.run("BITL-example", [0x16AC], a=0x1234FFFF)
    for d, x in ((0x90, 5), (0x9F, 1), (0xAF, -15), (0xB0, -1), (0x00, -1), (0xFF, 1),
                 (0xFF, 0xA1 + 256), (0x00, 0x00B3), (0x00, 0x12B3), (0xE5, 0x100),
                 (0xE5, -0x100), (0x80, 0x10), (0x80, 0x0F), (0x9F, 2), (0xAF, 1), (0xBF, 1),
                 (0xDF, 1), (0xEF, 1), (0xF0, 0x10), (0xF0, 0x0F), (0xF0, -0x10), (0, -32768),
                 (0xEE, 32767), (0x01, 32767), (0x0E, -32767)):
        t.run("BITX-sum", [t.word("BITX", d=d)], a=0x7777F0F0, x=x, n=1, ca=1)
    for high in (0, 9, 10, 11, 14):
        for x in (0, 5, 15):
            for a in (0x12340000, -1, 0x12340400)[x % 2:]:
                t.run("BITX-bit", [t.word("BITX", d=16 * high)], a=a, x=x)
    t.run("BITX-undefined-no-change", [t.word("BITX", d=0x10)], a=5, x=0, n=1, zr=1, of=1,
          ca=1, fm=1)

    t.remark("keys, modes and the halt")
    for name in ("RK", "SFN", "SIM", "SFM", "HRK"):
        for fm in (0, 1):
            for a, mark in ((-1, 1), (0x12345678, 0)):
                t.run(f"{name}-whole", [t.word(name)], a=a, b=9, x=8, fm=fm, n=mark,
                      zr=1 - mark, of=mark, ca=1 - mark)
        t.run(f"{name}-odd", [t.word(name)], a=7, s=65535)
        t.run(f"{name}-no-more-grants", [t.word(name)], (), ["r:1000:1001"], a=7)
    t.run("SFM-then-A", [t.word("SFM"), t.word("LD", "A1", 0, 0)], budget=2)
    t.run("SFM-then-SIM", [t.word("SFM"), t.word("SIM"), t.word("LD", "A1", 0, 0)], budget=3)


def modes(t):
    t.remark("FM 1: format A stops with 4, before pointer and operand; undefined words with 1")
    for name in machine.A_NAMES:
        fmt, m = A_PLACES[machine.A_NAMES.index(name) % len(A_PLACES)]
        t.run(f"{name}-fm", [t.word(name, fmt, m, 1)], (), ["r:1000:1001"], fm=1, a=3, z=4)
    for name in machine.L_NAMES + ["BITL"] + list(machine.WHOLE_WORDS):
        t.run(f"{name}-fm", [t.word(name)], (), ["r:1000:1001"], fm=1, a=3, zr=1, of=1)
    for name in machine.B_NAMES:
        t.run(f"{name}-fm", [t.word(name, "B", 0, 3)], (), ["r:1000:1001"], fm=1)
    t.remark("words without a reading")
    numbers = set(t.book.a.values())
    undefined = [n << 10 | 0x155 for n in range(16, 64) if n not in numbers]
    undefined += [n << 8 | 5 for n in (16, 17, 18, 19, 23, 24, 27, 31, 38, 39, 44, 47, 48, 55, 63)]
    undefined += [0x0001, 0x03FF, 0x0C00, 0x0FFF, 0x1203, 0x1702, 0x2701, 0x27C1,
                  0x3701, 0x12FF, 0x2741, 0x277F, 0x3740, 0x1204]
    for word in undefined:
        assert machine.reading(t.book, word) == machine.UNDEFINED
        t.run("undefined-word", [word], (), ["r:1000:1001"], fm=word & 1, a=2, n=1)


# ---------------------------------------------------------------- strings

HEAD = "r:1000:1001"


def strings(t):
    words = {name: [t.word(name), t.word("HRK")] for name in
             ("MBS", "CPBS", "TRBS", "SCBS", "MHS")}
    table = bytes((7 * i + 3) % 256 for i in range(256))

    t.remark("strings: x 0 is complete at once and needs no grant but the fetch")
    for name, code in words.items():
        for n, zr in ((0, 0), (1, 0), (0, 1), (1, 1)):
            t.run(f"{name}-x-zero", code, (), [HEAD], n=n, zr=zr, of=n, ca=zr, y=7, z=9, a=255)
        t.run(f"{name}-x-zero-odd", code, (), [HEAD], s=1001, y=7, z=9)
        t.run(f"{name}-x-zero-goes-on", code, (), ["r:1000:1003"], y=7, z=9, budget=5)

    t.remark("moves: x 1, -1, short strings both ways, cut off by the budget")
    for x in (1, -1, 2, -2, 5, -5):
        for budget in (1, 4, 9) if abs(x) > 2 else (1, 9):
            t.run("MBS-move", words["MBS"], [(2000, "A1A2A3A4A5A6A7A8A9AAAB")],
                  ["r:1000:1003", "r:2000:2010", "w:3000:3010"], y=3005, z=2005, x=x,
                  budget=budget, n=1, of=1)
            t.run("MHS-move", words["MHS"],
                  [(2000, "A1A2A3A4A5A6A7A8A9AAABACADAEAFB0B1B2B3B4B5B6B7B8")],
                  ["r:1000:1003", "r:2000:2023", "w:3000:3023"], y=3010, z=2010, x=x,
                  budget=budget, n=1, of=1)
    t.run("MBS-example", words["MBS"], [(200, "0B16")], x=-2, y=101, z=201, budget=1)
    t.run("MBS-example", words["MBS"], [(200, "0B16")], x=-2, y=101, z=201, budget=2)
    t.run("MBS-example", words["MBS"], [(200, "0B16")], x=-2, y=101, z=201, budget=3)
    for y, z in ((3000, 2001), (3001, 2000), (3001, 2001), (3003, 2003)):
        for x in (3, -3):
            t.run("MHS-odd", words["MHS"], [(1990, bytes(range(0x40, 0x58)))],
                  ["r:1000:1003", "r:1990:2013", "w:2990:3013"], y=y, z=z, x=x, budget=9)
    for name in ("MBS", "MHS"):
        size = 1 if name == "MBS" else 2
        # overlapping, both directions
        for y, z, x in ((2002, 2000, 6), (2000, 2002, 6), (2011, 2009, -4), (2009, 2011, -4),
                        (2000, 2000, 3)):
            t.run(f"{name}-overlap", words[name], [(2000, bytes(range(1, 20)))], y=y, z=z, x=x,
                  budget=20)
        # addresses that wrap
        t.run(f"{name}-wrap", words[name], [(65530, "010203040506"), (0, "0708090A0B0C")],
              y=3000, z=65533, x=5, budget=20)
        t.run(f"{name}-wrap", words[name], [(2000, "0102030405060708090A0B0C")],
              y=65534, z=2000, x=5, budget=20)
        t.run(f"{name}-wrap", words[name], [(2000, "0102030405060708090A0B0C")],
              y=2, z=2008, x=-5, budget=20)
        t.run(f"{name}-x-least", words[name], [(2000, "AB" * 4)], y=2000, z=2002, x=-32768,
              budget=3)
        t.run(f"{name}-x-greatest", words[name], [(2000, "AB" * 4)], y=2000, z=2002, x=32767,
              budget=3)
        # the read is refused before the write; the write needs a write grant
        for x in (1, -2):
            start = dict(y=3000, z=2000, x=x, n=1, zr=0, of=1, ca=1, budget=4)
            t.run(f"{name}-no-grant", words[name], (), [HEAD], **start)
            t.run(f"{name}-no-read", words[name], (), [HEAD, "w:2990:3009"], **start)
            t.run(f"{name}-no-write", words[name], (), [HEAD, "r:1990:2009"], **start)
            t.run(f"{name}-read-only", words[name], (), [HEAD, "r:1990:2009", "r:2990:3009"],
                  **start)
            t.run(f"{name}-from-write", words[name], [(1998, "010203040506")],
                  [HEAD, "w:1990:2009", "w:2990:3009"], **start)
        # stopped in the middle: what was moved stays moved
        for last in range(0, 4):
            t.run(f"{name}-middle", words[name], [(2000, "0102030405060708")],
                  [HEAD, "r:2000:2015", f"w:{3000 + size * last}:3015"], y=3000, z=2000, x=5,
                  budget=9)
            t.run(f"{name}-middle", words[name], [(2000, "0102030405060708")],
                  [HEAD, f"r:{2000 + size * last}:2015", "w:3000:3015"], y=3000, z=2000, x=5,
                  budget=9)
            t.run(f"{name}-middle", words[name], [(1992, "0102030405060708090A")],
                  [HEAD, "r:1990:2001", f"w:2990:{3000 + size - 1 - size * last}"], y=3000,
                  z=2000, x=-5, budget=9)
        # its own instruction is overwritten, and the next step obeys the new word
        code = words[name] + [UNDEFINED]
        t.run(f"{name}-own-word", code, [(2000, "12011201")], y=998, z=1998, x=3, budget=9)
        t.run(f"{name}-own-word", code, [(2000, "2105220622072308")], y=1000, z=2000, x=2,
              budget=9)
        t.run(f"{name}-own-word", code, [(1998, "2740274027402740")], y=1001, z=2001, x=-3,
              budget=9)
        t.run(f"{name}-next-word", code, [(2000, "21052106")], y=1002, z=2000, x=2, budget=9)
    for bytes_ in ("r:2000:2000", "r:2001:2001"):
        t.run("MHS-half-read", words["MHS"], (), [HEAD, bytes_, "w:3000:3001"], y=3001, z=2001,
              x=1)
        t.run("MHS-half-write", words["MHS"], (),
              [HEAD, "r:2000:2001", bytes_.replace("r:2", "w:3").replace(":2", ":3")], y=3001,
              z=2001, x=-1)
    t.run("MHS-half-mixed", words["MHS"], [(2000, "0102")],
          [HEAD, "r:2000:2001", "w:3000:3000", "r:3001:3001"], y=3000, z=2000, x=1)
    t.run("MHS-half-mixed", words["MHS"], [(2000, "0102")],
          [HEAD, "w:2000:2000", "r:2001:2001", "w:3000:3000", "w:3001:3001"], y=3000, z=2000,
          x=1)

    t.remark("comparing: z's byte less y's, unsigned; the last pair does not end it")
    pairs = (("01020304", "01020304"), ("01020304", "01FF0304"), ("01FF0304", "01020304"),
             ("0102FF04", "0102037F"), ("80000000", "7F000000"), ("00000000", "000000FF"),
             ("FF000000", "00000000"), ("01020304", "05060708"))
    for first, second in pairs:
        for x in (4, -4):
            at = 0 if x > 0 else 3
            t.run("CPBS-pair", words["CPBS"], [(2000, first), (3000, second)],
                  ["r:1000:1003", "r:2000:2003", "r:3000:3003"], z=2000 + at, y=3000 + at,
                  x=x, budget=9, n=int(x < 0), zr=int(x > 0), of=1, ca=1)
            t.run("CPBS-one", words["CPBS"], [(2000, first), (3000, second)],
                  ["r:1000:1003", "r:2000:2003", "r:3000:3003"], z=2000 + at, y=3000 + at,
                  x=x, n=int(x > 0), zr=int(x < 0))
    for x in (1, -1):
        for first, second in (("05", "05"), ("05", "06"), ("06", "05"), ("FF", "00"), ("00", "80")):
            for n, zr in ((0, 0), (1, 0)):
                t.run("CPBS-last-pair", words["CPBS"], [(2000, first), (3000, second)],
                      [HEAD, "r:2000:2000", "r:3000:3000"], z=2000, y=3000, x=x, n=n, zr=zr)
    for grants in ([HEAD], [HEAD, "r:2000:2009"], [HEAD, "r:3000:3009"],
                   [HEAD, "r:2000:2002", "r:3000:3009"], [HEAD, "r:2002:2009", "r:3002:3009"],
                   [HEAD, "r:2001:2009", "r:3000:3009"], [HEAD, "r:2000:2009", "r:3001:3009"],
                   [HEAD, "w:2000:2009", "w:3000:3009"]):
        for x in (4, 1):
            t.run("CPBS-grants", words["CPBS"], [(2000, "0102030405"), (3000, "0102030405")],
                  grants, z=2000, y=3000, x=x, budget=9, n=1)
        t.run("CPBS-grants", words["CPBS"], [(1996, "0102030405"), (2996, "0102030405")],
              grants, z=2000, y=3000, x=-3, budget=9, n=1)
    t.run("CPBS-wrap", words["CPBS"], [(65534, "0102"), (0, "030405"), (2000, "0102030405")],
          z=65534, y=2000, x=5, budget=9)
    t.run("CPBS-wrap", words["CPBS"], [(65534, "0102"), (0, "030405"), (2000, "0103030405")],
          y=65534, z=2000, x=5, budget=9)
    t.run("CPBS-same", words["CPBS"], [(2000, "010203")], y=2000, z=2000, x=3, budget=9)
    t.run("CPBS-odd", words["CPBS"], [(2000, "010203"), (3000, "010303")], y=3000, z=2000, x=3,
          s=1001, budget=9)
    t.run("CPBS-then", [t.word("CPBS"), t.word("BZ", d=2), t.word("LDL", d=1), t.word("HRK"),
                        t.word("LDL", d=2), t.word("HRK")],
          [(2000, "0102"), (3000, "0102")], y=3000, z=2000, x=2, budget=9)

    t.remark("translating: b at y+x, then the byte at z+b, then the write")
    for x in (1, -1, 4, -4):
        for budget in (1, 3, 9):
            at = 3000 if x > 0 else 3003
            t.run("TRBS-some", words["TRBS"], [(2000, table), (3000, "00FF8001")],
                  ["r:1000:1003", "r:2000:2255", "w:3000:3003"], y=at, z=2000, x=x,
                  budget=budget, n=1, of=1, ca=1)
    for b in (0, 127, 128, 255):
        start = dict(y=3000, z=2000, x=1, n=1)
        string = (3000, bytes([b]))
        t.run("TRBS-grants", words["TRBS"], [(2000, table), string], [HEAD], **start)
        t.run("TRBS-grants", words["TRBS"], [(2000, table), string], [HEAD, "w:3000:3000"],
              **start)
        t.run("TRBS-grants", words["TRBS"], [(2000, table), string],
              [HEAD, f"r:{2000 + b}:{2000 + b}", "w:3000:3000"], **start)
        t.run("TRBS-grants", words["TRBS"], [(2000, table), string],
              [HEAD, f"r:{2000 + b}:{2000 + b}", "r:3000:3000"], **start)
        t.run("TRBS-grants", words["TRBS"], [(2000, table), string],
              [HEAD, "r:3000:3000"], **start)
        t.run("TRBS-grants", words["TRBS"], [(2000, table), string],
              [HEAD, "r:2000:2255"], **start)
        t.run("TRBS-wrap", words["TRBS"], [(65500, table[:36]), (0, table[36:]), string],
              y=3000, z=65500, x=1)
    t.run("TRBS-middle", words["TRBS"], [(2000, table), (3000, "0102030405")],
          [HEAD, "r:2000:2255", "w:3002:3004", "r:3000:3001"], y=3000, z=2000, x=5, budget=9)
    t.run("TRBS-middle", words["TRBS"], [(2000, table), (3000, "0102030405")],
          [HEAD, "r:2003:2255", "w:3000:3004"], y=3000, z=2000, x=5, budget=9)
    t.run("TRBS-in-table", words["TRBS"], [(2000, table)], y=2000, z=2000, x=6, budget=9)
    t.run("TRBS-in-table", words["TRBS"], [(2000, table)], y=2010, z=2000, x=-6, budget=9)
    t.run("TRBS-own-word", words["TRBS"], [(2000, table)], y=999, z=2000, x=3, budget=9)
    t.run("TRBS-own-word", words["TRBS"], [(2000, table)], y=1001, z=2000, x=-2, budget=9)
    t.run("TRBS-wrap", words["TRBS"], [(2000, table), (65534, "0102"), (0, "0304")], y=65534,
          z=2000, x=4, budget=9)

    t.remark("scanning: the byte at z+b AND the low byte of a; the last does not end it")
    marks = bytearray(256)
    marks[0x30:0x3A] = b"\x01" * 10
    marks[0x41:0x5B] = b"\x82" * 26
    marks = bytes(marks)
    for a in (1, 0x80, 0xFF, 0xFFFFFF00):
        for text in (b"a1B-", b"xyz7", b"7xyz", b"--Q-"):
            for x in (4, -4):
                at = 3000 if x > 0 else 3003
                t.run("SCBS-some", words["SCBS"], [(2000, marks), (3000, text)],
                      ["r:1000:1003", "r:2000:2255", "r:3000:3003"], y=at, z=2000, x=x, a=a,
                      budget=9 if a > 1 else 2, n=1, of=1, ca=1)
    for x in (1, -1):
        for a in (1, 2):
            for n, zr in ((1, 0), (0, 0)):
                t.run("SCBS-last", words["SCBS"], [(2000, marks), (3000, b"5")],
                      [HEAD, "r:2053:2053", "r:3000:3000"], y=3000, z=2000, x=x, a=a, n=n, zr=zr)
    for b in (0x30, 0xFF):
        for x in (1, 2, -2):
            start = dict(y=3000, z=2000, x=x, a=1, n=1)
            string = [(2999, bytes([b, b, b])), (2000 + b, "01")]
            t.run("SCBS-grants", words["SCBS"], string, [HEAD], **start)
            t.run("SCBS-grants", words["SCBS"], string, [HEAD, "r:2999:3001"], **start)
            t.run("SCBS-grants", words["SCBS"], string, [HEAD, "r:2000:2255"], **start)
            t.run("SCBS-grants", words["SCBS"], string,
                  [HEAD, f"r:{2000 + b}:{2000 + b}", "r:2999:3001"], **start)
    t.run("SCBS-middle", words["SCBS"], [(2000, marks), (3000, b"abcde")],
          [HEAD, "r:2000:2255", "r:3002:3004"], y=3000, z=2000, x=5, a=255, budget=9)
    t.run("SCBS-middle", words["SCBS"], [(2000, marks), (3000, b"abcde")],
          [HEAD, "r:2099:2255", "r:3000:3004"], y=3000, z=2000, x=5, a=255, budget=9)
    t.run("SCBS-wrap", words["SCBS"], [(65500, marks[:36]), (0, marks[36:]), (3000, b"ab3de")],
          y=3000, z=65500, x=5, a=1, budget=9)
    t.run("SCBS-table-over-word", words["SCBS"], [(3000, b"\x00\x01\x02")], y=3000, z=1000, x=3,
          a=0xFF, budget=9)


# ---------------------------------------------------------------- turns


def turns(t):
    t.remark("turns: nothing for budget 0, spent before a stop that would come next")
    program = [t.word("LDL", d=7), t.word("ADL", d=1), t.word("STB", "A1", 0, 200),
               t.word("HRK")]
    for budget in (0, 1, 2, 3, 4, 65535):
        t.run("HRK-budget", program, (), ["r:1000:1007", "w:200:200"], budget=budget)
        t.run("HRK-budget-at-once", [t.word("HRK")], budget=budget, a=5)
        t.run("undefined-budget", [t.word("LDL", d=0), UNDEFINED], budget=budget, a=5)
        t.run("STB-budget-refused", program, (), ["r:1000:1007"], budget=budget)
        t.run("SFM-budget", [t.word("SFM"), t.word("LDL", d=1), t.word("LD", "A1", 0, 0)],
              budget=budget)
        t.run("LDL-budget-off-end", [t.word("LDL", d=0)], (), ["r:1000:1001"], budget=budget,
              a=5)
        t.run("B-budget-no-fetch", [t.word("B", "B", 0, -1)], (), [], budget=budget)
        t.run("MBS-budget", [t.word("MBS"), t.word("HRK")], [(2000, "010203")],
              ["r:1000:1003", "r:2000:2002", "w:3000:3002"], y=3000, z=2000, x=3,
              budget=budget)
    for budget in (0, 1, 9):
        t.run("undefined-at-once", [UNDEFINED], budget=budget, a=1)
        t.run("undefined-no-grant", (), (), [], budget=budget, s=65535)
    t.run("B-loop", [t.word("B", "B", 0, -1)], budget=65535)
    t.run("B-loop", [t.word("B", "B", 0, -1)], budget=1000)
    t.run("SBL-loop", [t.word("SBL", d=1), t.word("BNZ", d=-2), t.word("HRK")], a=255,
          budget=65535)
    t.run("SBL-loop", [t.word("SBL", d=1), t.word("BNN", d=-2), t.word("HRK")], a=100,
          budget=201)
    t.run("SBL-loop", [t.word("SBL", d=1), t.word("BNN", d=-2), t.word("HRK")], a=100,
          budget=202)
    t.run("SBL-loop", [t.word("SBL", d=1), t.word("BNN", d=-2), t.word("HRK")], a=100,
          budget=203)
    t.run("BL-and-back", [t.word("BL", "B", 0, 3), t.word("HRK"), 0, 0,
                          t.word("STZ", "A1", 0, 50), t.word("LDL", d=5),
                          t.word("BI", "A1", 0, 50)],
          (), ["r:1000:1013", "w:100:101"], z=9, budget=20)
    t.run("BLI-and-back", [t.word("BLI", "A2", 1, 1), t.word("HRK"), 1010, 0, 0,
                           t.word("STZ", "A1", 0, 50), t.word("BI", "A1", 0, 50)],
          (), ["r:1000:1013", "w:100:101"], z=9, budget=20)
    t.run("LDL-through-end", [t.word("LDL", d=1)], [(0, "2102"), (2, "2103"), (4, "1201")],
          s=65534, budget=20)
    # the worked examples
    t.run("LD-example", [t.word("LD", "A2", 1, 3)], [(208, half(77))],
          ["r:200:201", "r:208:209"], s=200)
    t.run("LD-example", [t.word("LD", "A4", 0, 2)], [(404, half(600)), (598, half(-5))],
          ["r:200:201", "r:404:405", "r:598:599"], s=200, l=400, x=-1)
    with_operand(t, "DX", 2, "example", x=-7)
    with_operand(t, "DX", -1, "example", x=-32768)
    with_operand(t, "ADX", 1, "example", x=32767)
    with_operand(t, "ADX", -32768, "example", x=-32768)


# ---------------------------------------------------------------- at random


def at_random(t, count, seed):
    t.remark("at random, from a fixed seed")
    rng = random.Random(seed)
    edges = [0, 1, 2, 3, 127, 128, 255, 256, 32767, 32768, 32769, 65533, 65534, 65535]
    names = machine.ALL_NAMES

    def word():
        if rng.random() < 0.01:
            return rng.randrange(65536)
        name = rng.choice(names)
        if name in ("HRK", "SFM", "BI", "BLI") and rng.random() < 0.7:
            name = rng.choice(("LDX", "ADW", "MX", "STW"))
        if name in machine.A_NAMES:
            fmt, m = rng.choice(A_PLACES)
            last = {"A1": 255, "A2": 127, "A3": 63, "A4": 31, "A5": 15}[fmt]
            return t.word(name, fmt, m, rng.choice([0, 1, last, rng.randint(0, last)]))
        if name in machine.B_NAMES:
            return t.word(name, "B", 0, rng.choice([0, 1, 2, -2, -3, rng.randint(-9, 9)]))
        if name in machine.CONDITIONAL:
            return t.word(name, "L", 0, rng.choice([0, 1, 2, -2, rng.randint(-6, 6)]))
        if name in machine.WHOLE_WORDS:
            return t.word(name)
        if name in ("BITL", "BITX"):
            return t.word(name, "L", 0, 16 * rng.choice([0, 9, 10, 11, 14]) + rng.randrange(16))
        return t.word(name, "L", 0, rng.choice([0, 1, 128, 255, rng.randrange(256)]))

    def small():
        return rng.choice([rng.randint(-6, 6), rng.randint(-6, 6), rng.randint(-200, 200),
                           rng.choice(edges), rng.randrange(65536)])

    def base():
        return rng.choice([2000, 2001, 2002, 2003, 2100, 2200, rng.randint(1990, 2300),
                           rng.randint(1024, 1060), rng.choice(edges), rng.randint(0, 1000)])

    def wide():
        return rng.choice([rng.choice(EDGE32), small(), rng.getrandbits(32),
                           rng.choice([32767, 32768, -32768, -32769, 65535, 65536])])

    # the words stand from 1024 on; one set in twenty has the first of them under a write grant
    grant_sets = [
        None,
        None,
        ["r:0:1060", "w:1061:4000"],
        ["r:0:1055", "w:1900:4000", "w:65000:65535"],
        ["r:0:1023", "r:1024:1055", "w:1980:2400"],
        ["r:0:1023", "r:1024:1055", "w:2000:2099", "r:2100:2299"],
        ["w:0:511", "r:512:1055", "w:1990:2004", "w:2006:2150", "r:2151:2400"],
        ["r:0:1055", "r:100:2400", "w:2401:2403", "w:65530:65535"],
        ["w:0:1023", "r:1024:1060", "w:1061:2049", "r:2050:2500", "w:65000:65535"],
        ["w:0:1023", "r:1024:1029", "r:1030:1060", "r:1990:2600", "r:60000:65535"],
    ]
    grant_sets += grant_sets[:-1]
    grant_sets.append(["w:0:1023", "w:1024:1029", "r:1030:1060", "r:1990:2600", "r:60000:65535"])
    for _ in range(count):
        words = [word() for _ in range(rng.choice([2, 4, 8, 12]))]
        low = b"".join(half(rng.choice([base(), base(), small()])) for _ in range(16))
        middle = bytes(rng.choice([0, 1, 127, 128, 255, rng.randrange(256)])
                       for _ in range(48))
        first = rng.choice([0, 16, 40, 96])
        at = rng.choice([0, 0, 0, 1])
        words += [t.word("B", "B", 0, -1 - len(words))] + [UNDEFINED] * 4
        contents = dict(a=wide(), b=wide(), x=small(), y=base(), z=base(), l=base(),
                        s=1024 + at)
        for mark in ("n", "zr", "of", "ca"):
            contents[mark] = rng.randrange(2)
        contents["fm"] = int(rng.random() < 0.02)
        first_name = machine.reading(t.book, words[0])
        label = first_name.name if isinstance(first_name, machine.Reading) else "undefined"
        t.run(f"{label}-random", words,
              [(first, low), (1004, half(UNDEFINED) * 10), (1996, middle), (2200, middle[::-1])],
              rng.choice(grant_sets), rng.choice([1, 2, 3, 5, 10, 30]), **contents)


# ---------------------------------------------------------------- books


def books(t):
    t.remark("books: the text in hexadecimal")
    parts = [b"F\tA1\t10\n", b"F\tA2\t0\n", b"F\tA3\t1110\n", b"F\tA4\t110\n", b"F\tA5\t1111\n"]
    five = b"".join(parts)
    take = t.book_text

    # whole books
    take(b"")
    take(five)
    take(b"".join(reversed(parts)))
    full_text = five
    for letter, table in (("A", t.book.a), ("L", t.book.l), ("B", t.book.b)):
        for name, number in table.items():
            full_text += f"{letter}\t{name}\t{number}\n".encode()
    take(full_text)
    take(full_text + full_text)
    take(b"F\tA1\t01\nF\tA2\t1\nF\tA3\t0001\nF\tA4\t001\nF\tA5\t0000\n")

    # 15, and its line
    for i in range(5):
        take(b"".join(parts[:i] + parts[i + 1:]))
    take(b"A\tLD\t17\n")
    take(b"A\tLD\t17\nL\tLDL\t32\nB\tB\t1\n")
    for i in range(1, 5):
        take(b"".join(parts[:i]))

    # 11: fields and line feeds
    for line in (b"\n", b"\t\t\n", b"A\n", b"A\tLD\n", b"A\t\t17\n", b"\tLD\t17\n",
                 b"A\tLD\t\n", b"A\tLD\t17\t\n", b"A\tLD\t17\t18\n", b"A\tLD\t\t17\n",
                 b"\tA\tLD\t17\n", b"A LD 17\n", b"Q\tXX\n", b" \n", b"\r\n"):
        take(five + line)
    take(b"\n" + five)
    take(b"A\tLD\n" + five)
    take(b"A\tLD\t17\t\n" + five)
    for text in (five[:-1], b"A", b"A\tLD\t17", b"Q\tXX\t99", b"\t", b"A\tLD\t99", b" ",
                 b"\r"):
        take(text)
        if text in (b"A\tLD\t17", b"Q\tXX\t99", b" "):
            take(five + text)
    take(five + b"\n\n")
    take(five + b"\n" + b"A\tLD\t17\n")
    take(b"\n")

    # 12: letter and name
    for first, name in ((b"X", b"LD"), (b"a", b"LD"), (b"AA", b"LD"), (b" A", b"LD"),
                        (b"A ", b"LD"), (b"F", b"A6"), (b"F", b"a1"), (b"F", b"LD"),
                        (b"F", b"A"), (b"F", b"A11"), (b"A", b"LDL"), (b"A", b"B"),
                        (b"A", b"HRK"), (b"A", b"BITL"), (b"A", b"D"),
                        (b"A", b"ld"), (b"A", b"LD "), (b"A", b"LDD"), (b"A", b"L"),
                        (b"L", b"LD"), (b"L", b"BITL"), (b"L", b"BNCA"), (b"L", b"RK"),
                        (b"B", b"BI"), (b"B", b"b"), (b"R", b"RLD"), (b"\xc3\x84", b"LD"),
                        (b"A", b"L\xffD"), (b"\xff", b"LD"), (b"A", b"LD\r"), (b"#", b"LD"),
                        (b"A", b"LD\x00")):
        take(five + first + b"\t" + name + b"\t17\n")

    # 13: values
    for letter, name, values in (
            (b"A", b"LD", (b"15", b"16", b"63", b"64", b"0", b"016", b"+16", b"-16", b" 16",
                           b"16 ", b"16\r", b"0x10", b"1", b"160", b"17a", b"65552",
                           b"4294967312", b"18446744073709551632", b"9" * 60,
                           b"0" * 40 + b"17", b"17\xff", b"18", b"22", b"55")),
            (b"L", b"LDL", (b"15", b"16", b"17", b"18", b"19", b"22", b"23", b"39", b"40",
                            b"55", b"63", b"64", b"032")),
            (b"B", b"BL", (b"0", b"1", b"3", b"4", b"01", b"10", b"-1"))):
        for value in values:
            take(five + letter + b"\t" + name + b"\t" + value + b"\n")
    for name, value in ((b"A1", b"1"), (b"A1", b"101"), (b"A1", b"12"), (b"A1", b"10\r"),
                        (b"A2", b"00"), (b"A2", b"2"), (b"A3", b"111"), (b"A3", b"11101"),
                        (b"A4", b"11"), (b"A4", b"1100"), (b"A5", b"111"), (b"A5", b"111l")):
        take(b"F\t" + name + b"\t" + value + b"\n" + five)
    take(five.replace(b"\n", b"\r\n"))
    take(b"F\tA1\t10\n" + five[8:].replace(b"\n", b"\r\n"))
    take(five.replace(b"\n", b"\r"))
    take(b"\xef\xbb\xbf" + five)

    # 14: names, numbers and patterns
    for lines in ((b"A\tLD\t17", b"A\tLD\t17"), (b"A\tLD\t17", b"A\tLD\t18"),
                  (b"A\tLD\t17", b"A\tLDW\t17"), (b"A\tLD\t17", b"L\tLDL\t17"),
                  (b"A\tLD\t17", b"A\tLD\t15"), (b"A\tLD\t17", b"A\tLD\t"),
                  (b"A\tLD\t17", b"A\tXX\t17"), (b"A\tLD\t17", b"A\tLD\t17\t"),
                  (b"A\tLD\t17", b"A\tLDW\t017"), (b"L\tLDL\t40", b"L\tADL\t40"),
                  (b"L\tLDL\t40", b"L\tLDL\t41"), (b"L\tLDL\t40", b"A\tLDB\t40"),
                  (b"B\tB\t1", b"B\tBL\t1"), (b"B\tB\t1", b"B\tB\t2"), (b"B\tB\t1", b"B\tBL\t2"),
                  (b"B\tB\t1", b"B\tBL\t4"), (b"L\tLDL\t40", b"L\tLDL\t22"),
                  (b"L\tLDL\t40", b"A\tLD\t40", b"A\tLDX\t40"),
                  (b"A\tLD\t17", b"F\tA1\t10"), (b"A\tLD\t17", b"F\tA1\t11"),
                  (b"A\tLD\t17", b"F\tA1\t1")):
        take(five + b"\n".join(lines) + b"\n")
    for first, second in ((b"A2\t0", b"A1\t01"), (b"A2\t1", b"A4\t100"),
                          (b"A2\t1", b"A5\t1000"), (b"A1\t10", b"A4\t101"),
                          (b"A1\t11", b"A5\t1111"), (b"A4\t110", b"A3\t1101"),
                          (b"A3\t1110", b"A5\t1110"), (b"A1\t10", b"A3\t1110"),
                          (b"A1\t10", b"A1\t11"), (b"A2\t0", b"A2\t0")):
        take(b"F\t" + first + b"\nF\t" + second + b"\n")
        take(b"F\t" + second + b"\nF\t" + first + b"\n")

    # the first bad line decides, whatever comes later
    take(b"A\tLD\t15\nQ\tLD\t17\n\n")
    take(b"Q\tLD\t17\nA\tLD\t15\n\n")
    take(b"\nQ\tLD\t17\nA\tLD\t15\n")
    take(b"A\tLD\t17\nA\tLD\t17\nA\tLD\t15\nQ")
    take(five + b"A\tLD\t17\nA\tAD\t18\nA\tSB\t64\nA\tCP\t17")
    take(five + b"A\tLD\t17\nA\tAD\t18\nA\tSB\t63\nA\tCP\t19")
    take(full_text[:-1])
    take(full_text + b"\n")
    take(full_text + b"A\tLD\t32\n")
    take(b"Q\tXX\t99\t\n")
    take(b"Q\tXX\t99\n")
    take(b"A\tXX\t99\n")
    take(b"A\tLD\t99\n")


# ---------------------------------------------------------------- readings and words


def readings(t):
    t.remark("readings: the borders of every field")
    words = [0x0000, 0x0001, 0x0200, 0x03FF, 0x0400, 0x040B, 0x05FF, 0x0600, 0x07F5, 0x07FF,
             0x0800, 0x09FF, 0x0A00, 0x0BFF, 0x0C00, 0x0DFF, 0x0E00, 0x0FFF, 0x1000, 0x3FFF,
             0x4000, 0xFFFF]
    for number in range(16, 64):
        words += [number << 8, number << 8 | 0xFF]
    for number in (21, 22, 26, 32, 40, 43, 46):
        words += [number << 8 | d for d in (1, 0x7F, 0x80, 0xAC, 0xFE)]
    for whole in machine.WHOLE_WORDS.values():
        words += [whole - 1, whole, whole + 1]
    borders = [0x000, 0x07F, 0x080, 0x0FF, 0x100, 0x17F, 0x180, 0x1FF, 0x200, 0x201, 0x2FF,
               0x300, 0x31F, 0x320, 0x33F, 0x340, 0x35F, 0x360, 0x37F, 0x380, 0x3BF, 0x3C0,
               0x3CF, 0x3D0, 0x3DF, 0x3E0, 0x3EF, 0x3F0, 0x3FF]
    for number in (16, 17, 32, 63):
        words += [number << 10 | low for low in borders]
    for number in range(16, 64):
        words.append(number << 10 | borders[number % len(borders)])
    for word in sorted(set(words)):
        t.reading(word)


def puts(t):
    t.remark("put together: every name, then the borders of M and D, then 21 before 22")
    for i, name in enumerate(machine.ALL_NAMES):
        if name in machine.A_NAMES:
            fmt = machine.A_FORMATS[i % 5]
            t.put(name, fmt, 3 if fmt in machine.HAS_M else 0, i % 16)
        elif name in machine.B_NAMES:
            t.put(name, "B", 0, -9)
        elif name in machine.WHOLE_WORDS:
            t.put(name, "L", 0, 0)
        else:
            t.put(name, "L", 0, 77)
    for name in ("LD", "STZ"):
        for fmt, last in (("A1", 255), ("A2", 127), ("A3", 63), ("A4", 31), ("A5", 15)):
            for d in (0, last, last + 1, -1):
                t.put(name, fmt, 0, d)
            for m in (1, 3, 4, -1)[:4 if name == "LD" else 1]:
                t.put(name, fmt, m, 1)
    for name in ("B", "BL"):
        for m, d in ((0, 511), (0, 512), (0, -512), (0, -513), (1, 0)):
            t.put(name, "B", m, d)
    for i, name in enumerate(machine.CONDITIONAL):
        for m, d in ((0, 127 + i % 2), (0, -128 - i % 2), (0, 128 - i % 2)):
            t.put(name, "L", m, d)
    for name in ("LDL", "BITX", "BITL", "ML"):
        for m, d in ((0, 255), (0, 256), (0, -1), (1, 0)):
            t.put(name, "L", m, d)
    for name in machine.WHOLE_WORDS:
        t.put(name, "L", *((0, 1) if name < "R" else (1, 0)))
    for name, fmt in (("LD", "L"), ("LD", "B"), ("LDL", "A1"), ("LDL", "B"), ("B", "L"),
                      ("BL", "A2"), ("BZ", "B"), ("BI", "B"), ("BITL", "A5"), ("BITL", "B"),
                      ("HRK", "B"), ("BLI", "L"), ("MBS", "A3")):
        t.put(name, fmt, 0, 0)
    for name, fmt in (("XYZ", "A2"), ("ld", "A2"), ("LDBB", "A1"), ("A1", "A1"), ("LD", "A6"), ("LD", "a2"), ("LD", "A")):
        t.put(name, fmt, 0, 0)
    t.put("LD", "L", 9, 99999)
    t.put("LDL", "A1", 9, 99999)
    t.put("HRK", "A1", 9, 99999)
    t.put("B", "L", 9, 99999)
    for d in (65536, 65535, 32768, -32768, 256 + 5, 1024 + 5, 2147483647, -2147483648):
        t.put("LD", "A1", 0, d)
        t.put("LDL", "L", 0, d)
        t.put("B", "B", 0, d)
    for m in (5, 256, 65537, -4):
        t.put("LD", "A2", m, 0)
        t.put("LD", "A1", m, 0)


def main(arguments):
    data = arguments[0] if arguments else os.path.join(HERE, "..", "..", "crates", "recover", "data")
    cases = arguments[1] if len(arguments) > 1 else os.path.join(HERE, "..", "..", "crates", "cases")
    with open(os.path.join(data, "shore.book"), "rb") as file:
        t = Table(machine.read_book(file.read()))
    t.asked.append("# made by tools/oracle/make_cases.py, not by hand")
    for part in (loads_and_stores, sums, ands, products, formats, refusals, branches, bits,
                 modes, strings, turns):
        part(t)
    at_random(t, 500, 4080)
    for part in (books, readings, puts):
        part(t)
    os.makedirs(cases, exist_ok=True)
    for name, lines in (("stdin", t.asked), ("stdout", t.answered)):
        with open(os.path.join(cases, name), "w", newline="") as file:
            file.write("".join(line + "\n" for line in lines))
    print(", ".join(f"{kind} {count}" for kind, count in t.counts.items()))


if __name__ == "__main__":
    main(sys.argv[1:])
