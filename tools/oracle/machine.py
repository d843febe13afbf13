"""A second, independent writing of the machine's rules, in plain Python.

It exists to be compared with the proved programs, so it is written for
clarity and straight from the rules: exact integers for true results, a copy
of the registers for every step, one clause for each instruction.

    python3 machine.py                                  the self-check
    python3 machine.py assemble BOOK LISTING IMAGE      a listing to an image
    python3 machine.py recover BOOK IMAGE JOB..         jobs over an image

Bit 0 of a word is its most significant one.
"""

import os
import re
import sys
from dataclasses import dataclass, field, replace

STORE_SIZE = 65536

# ---------------------------------------------------------------- names

A_NAMES = (
    "LDB LD LDW LDX STB ST STW STX AD ADW SB SBW ADX SBX CP CPW CPX NW NX MX "
    "DX LDY STY ADY SBY LDZ STZ ADZ SBZ BI BLI"
).split()
L_NAMES = "LDL ADL SBL CPL NL ML BITX BZ BNZ BN BNN BCA BOF".split()
B_NAMES = "B BL".split()
WHOLE_WORDS = {
    "MBS": 0x2700, "CPBS": 0x2740, "TRBS": 0x2780, "SCBS": 0x27C0,
    "MHS": 0x3700, "RK": 0x1200, "HRK": 0x1201, "SFN": 0x1202,
    "SIM": 0x1700, "SFM": 0x1701,
}
BITL_NUMBER = 22
ALL_NAMES = A_NAMES + L_NAMES + B_NAMES + list(WHOLE_WORDS) + ["BITL"]
CONDITIONAL = ("BZ", "BNZ", "BN", "BNN", "BCA", "BOF")

A_FORMATS = ["A1", "A2", "A3", "A4", "A5"]
PATTERN_LENGTH = {"A1": 2, "A2": 1, "A3": 4, "A4": 3, "A5": 4}
HAS_M = ("A2", "A4", "A5")
NEW_PATTERNS = {"A1": "10", "A2": "0", "A3": "1110", "A4": "110", "A5": "1111"}

# the numbers that a line of the code book may give
A_NUMBERS = range(16, 64)
L_NUMBERS = [n for n in range(16, 64) if n not in (18, 22, 23, 39, 55)]
B_NUMBERS = range(1, 4)


def signed(value, bits):
    """The content of a register or field, read as two's complement."""
    return value - (1 << bits) if value >> (bits - 1) & 1 else value


def cut(value, bits):
    """The lowest bits of an exact value."""
    return value % (1 << bits)


# ---------------------------------------------------------------- the book


class BookRefused(Exception):
    def __init__(self, number, line):
        super().__init__(f"refused {number} at line {line}")
        self.number = number
        self.line = line


@dataclass
class Book:
    """Patterns by format, and numbers by name for each letter."""

    patterns: dict = field(default_factory=dict)
    a: dict = field(default_factory=dict)
    l: dict = field(default_factory=dict)
    b: dict = field(default_factory=dict)

    def table(self, letter):
        return {"F": self.patterns, "A": self.a, "L": self.l, "B": self.b}[letter]


def new_book():
    return Book(patterns=dict(NEW_PATTERNS))


LETTERS = {b"F": A_FORMATS, b"A": A_NAMES, b"L": L_NAMES, b"B": B_NAMES}


def line_value(letter, name, text):
    """The value of a line, or None if it is not of its kind."""
    if letter == "F":
        fits = re.fullmatch(rb"[01]+", text) and len(text) == PATTERN_LENGTH[name]
        return text.decode("ascii") if fits else None
    # no number of a book has more than two digits, none begins with 0
    if not re.fullmatch(rb"[1-9][0-9]?", text):
        return None
    number = int(text)
    allowed = {"A": A_NUMBERS, "L": L_NUMBERS, "B": B_NUMBERS}[letter]
    return number if number in allowed else None


def read_book(text):
    """The book that a text of bytes says, from nothing."""
    book = Book()
    lines = text.split(b"\n")
    rest = lines.pop()  # what follows the last line feed
    number = 0
    for line in lines:
        number += 1
        take_line(book, line, number)
    if rest:
        # a last line that lacks its line feed
        raise BookRefused(11, number + 1)
    if any(f not in book.patterns for f in A_FORMATS):
        raise BookRefused(15, number + 1)
    return book


def take_line(book, line, number):
    fields = line.split(b"\t")
    if len(fields) != 3 or any(f == b"" for f in fields):
        raise BookRefused(11, number)
    first, name_bytes, text = fields
    if first not in LETTERS:
        raise BookRefused(12, number)
    names = {n.encode("ascii"): n for n in LETTERS[first]}
    if name_bytes not in names:
        raise BookRefused(12, number)
    letter, name = first.decode("ascii"), names[name_bytes]
    value = line_value(letter, name, text)
    if value is None:
        raise BookRefused(13, number)
    table = book.table(letter)
    if name in table or value in table.values():
        raise BookRefused(14, number)
    if letter == "F" and any(
        value.startswith(p) or p.startswith(value) for p in table.values()
    ):
        raise BookRefused(14, number)
    table[name] = value


# ---------------------------------------------------------------- readings


@dataclass(frozen=True)
class Reading:
    name: str
    format: str
    m: int
    d: int

    def __str__(self):
        return f"{self.name} {self.format} {self.m} {self.d}"


UNDEFINED = "undefined"
NO_PATTERN = "no pattern"


def named(table, number):
    for name, n in table.items():
        if n == number:
            return name
    return None


def reading(book, word):
    """A Reading, UNDEFINED or NO_PATTERN."""
    if word >> 10 == 0:
        return UNDEFINED
    if word >> 12 == 0:
        name = named(book.b, word >> 10 & 3)
        return Reading(name, "B", 0, signed(word & 1023, 10)) if name else UNDEFINED
    if word >> 14 == 0:
        return reading_l(book, word)
    return reading_a(book, word)


def reading_l(book, word):
    for name, whole in WHOLE_WORDS.items():
        if word == whole:
            return Reading(name, "L", 0, 0)
    number, d = word >> 8 & 63, word & 255
    name = "BITL" if number == BITL_NUMBER else named(book.l, number)
    if name is None:
        return UNDEFINED
    return Reading(name, "L", 0, signed(d, 8) if name in CONDITIONAL else d)


def reading_a(book, word):
    after = format(word & 1023, "010b")  # bits 6 to 15
    for fmt, pattern in book.patterns.items():
        if after.startswith(pattern):
            break
    else:
        return NO_PATTERN
    name = named(book.a, word >> 10)
    if name is None:
        return UNDEFINED
    rest = after[len(pattern):]
    if fmt in HAS_M:
        return Reading(name, fmt, int(rest[:2], 2), int(rest[2:], 2))
    return Reading(name, fmt, 0, int(rest, 2))


class PutRefused(Exception):
    def __init__(self, number):
        super().__init__(f"refused {number}")
        self.number = number


def put_together(book, name, fmt, m, d):
    """The word with this name, format, M and D."""
    if name in book.a and fmt in A_FORMATS:
        pattern = book.patterns[fmt]
        m_bits = 2 if fmt in HAS_M else 0
        d_bits = 10 - len(pattern) - m_bits
        if not 0 <= m < 1 << m_bits or not 0 <= d < 1 << d_bits:
            raise PutRefused(22)
        after = pattern
        if m_bits:
            after += format(m, "02b")
        after += format(d, f"0{d_bits}b")
        return book.a[name] << 10 | int(after, 2)
    if name in book.b and fmt == "B":
        if m != 0 or not -512 <= d <= 511:
            raise PutRefused(22)
        return book.b[name] << 10 | cut(d, 10)
    if name in WHOLE_WORDS and fmt == "L":
        if m != 0 or d != 0:
            raise PutRefused(22)
        return WHOLE_WORDS[name]
    if fmt == "L" and (name == "BITL" or name in book.l):
        number = BITL_NUMBER if name == "BITL" else book.l[name]
        low, high = (-128, 127) if name in CONDITIONAL else (0, 255)
        if m != 0 or not low <= d <= high:
            raise PutRefused(22)
        return number << 8 | cut(d, 8)
    raise PutRefused(21)


# ---------------------------------------------------------------- registers


@dataclass
class Registers:
    """Contents are unsigned here; the rules read them as signed where due."""

    a: int = 0
    b: int = 0
    x: int = 0
    y: int = 0
    z: int = 0
    s: int = 0
    l: int = 0
    fm: int = 0
    n: int = 0
    zr: int = 0
    of: int = 0
    ca: int = 0

    def listed(self):
        return [self.a, self.b, self.x, self.y, self.z, self.s, self.l,
                self.fm, self.n, self.zr, self.of, self.ca]

    def __str__(self):
        return " ".join(str(v) for v in self.listed())


# ---------------------------------------------------------------- stops, grants

FETCH, POINTER, OPERAND = 1, 2, 3


class Stopped(Exception):
    """Why a step cannot be done. The turn adds the instruction's address."""

    def __init__(self, cause, place=None, access=None, byte=None):
        super().__init__(cause)
        self.cause = cause
        self.place = place
        self.access = access
        self.byte = byte


@dataclass(frozen=True)
class Stop:
    cause: int
    address: int
    place: int = None
    access: str = None
    byte: int = None

    def __str__(self):
        text = f"{self.cause} {self.address}"
        if self.cause == 2:
            text += f" {self.place} {self.access} {self.byte}"
        return text


@dataclass(frozen=True)
class Grant:
    write: bool
    first: int
    last: int

    def has(self, address):
        return self.first <= address <= self.last


class Sight:
    """What one step may see of the store, and what it is going to write."""

    def __init__(self, grants, store):
        self.grants = grants
        self.store = store
        self.writes = []  # (address, byte), done only if the step is

    def allowed(self, address, access):
        return any(
            g.has(address) and (access == "read" or g.write) for g in self.grants
        )

    def span(self, address, length, place, access):
        """The item's own addresses, all of them allowed."""
        first = address % STORE_SIZE // length * length
        span = range(first, first + length)
        for byte in span:
            if not self.allowed(byte, access):
                raise Stopped(2, place, access, byte)
        return span

    def read(self, address, length, place):
        value = 0
        for byte in self.span(address, length, place, "read"):
            value = value * 256 + self.store[byte]
        return value

    def write(self, address, length, value):
        span = self.span(address, length, OPERAND, "write")
        for byte, content in zip(span, value.to_bytes(length, "big")):
            self.writes.append((byte, content))


# ---------------------------------------------------------------- one step


def item_length(name):
    if name in ("LDB", "STB"):
        return 1
    return 4 if name.endswith("W") else 2


def operand_address(sight, r, reading_):
    """Where the operand of a format A instruction is, before alignment.

    r.s is already at the next instruction."""
    fmt, m, d = reading_.format, reading_.m, reading_.d
    length = item_length(reading_.name)
    base = (r.l, r.s, r.y, r.z)[m]
    scaled_x = signed(r.x, 16) * length
    if fmt == "A1":
        address = d * length
    elif fmt == "A2":
        address = base + d * length
    elif fmt == "A3":
        address = sight.read(2 * d, 2, POINTER) + scaled_x
    elif fmt == "A4":
        address = sight.read(base + 2 * d, 2, POINTER) + scaled_x
    else:
        address = (0 if m == 1 else base) + d * length + scaled_x
    return address % STORE_SIZE


def mark_item(r, value, bits):
    """N and ZR from a register or a stored item."""
    r.n = value >> (bits - 1) & 1
    r.zr = int(value == 0)


def mark_true(r, true, bits):
    """N, ZR, OF from a true result; the apparent one is the answer."""
    apparent = cut(true, bits)
    r.n = int(true < 0)
    r.zr = int(apparent == 0)
    if signed(apparent, bits) != true:
        r.of = 1
    return apparent


def added(r, content, operand, bits):
    r.ca = int(content + cut(operand, bits) >= 1 << bits)
    return mark_true(r, signed(content, bits) + operand, bits)


def subtracted(r, content, operand, bits):
    r.ca = int(content < cut(operand, bits))
    return mark_true(r, signed(content, bits) - operand, bits)


def multiplied(r, content, operand, bits):
    return mark_true(r, signed(content, bits) * operand, bits)


def divided(r, content, operand):
    """x divided by a signed halfword, towards zero."""
    dividend = signed(content, 16)
    if operand == 0 or (dividend == -32768 and operand == -1):
        r.of = 1
        return content
    size = abs(dividend) // abs(operand)
    quotient = size if (dividend < 0) == (operand < 0) else -size
    mark_item(r, cut(quotient, 16), 16)
    return cut(quotient, 16)


def obey_a(sight, r, reading_):
    name = reading_.name
    length = item_length(name)
    address = operand_address(sight, r, reading_)

    # the stores make no read
    if name == "STB":
        item = r.a & 0xFF
        sight.write(address, 1, item)
        r.n, r.zr = 0, int(item == 0)
        return
    if name in ("ST", "STW", "STX"):
        item = r.x if name == "STX" else cut(r.a, 8 * length)
        sight.write(address, length, item)
        mark_item(r, item, 8 * length)
        if name == "ST" and not -32768 <= signed(r.a, 32) <= 32767:
            r.of = 1
        return
    if name in ("STY", "STZ"):
        sight.write(address, 2, r.y if name == "STY" else r.z)
        return

    item = sight.read(address, length, OPERAND)
    value = signed(item, 8 * length)  # a byte is not signed, see LDB

    if name == "LDB":
        r.a = item
        mark_item(r, r.a, 32)
    elif name in ("LD", "LDW"):
        r.a = cut(value, 32)
        mark_item(r, r.a, 32)
    elif name == "LDX":
        r.x = item
        mark_item(r, r.x, 16)
    elif name in ("AD", "ADW"):
        r.a = added(r, r.a, value, 32)
    elif name in ("SB", "SBW"):
        r.a = subtracted(r, r.a, value, 32)
    elif name in ("CP", "CPW"):
        subtracted(r, r.a, value, 32)
    elif name == "ADX":
        r.x = added(r, r.x, value, 16)
    elif name == "SBX":
        r.x = subtracted(r, r.x, value, 16)
    elif name == "CPX":
        subtracted(r, r.x, value, 16)
    elif name == "NW":
        r.a &= item
        mark_item(r, r.a, 32)
    elif name == "NX":
        r.x &= item
        mark_item(r, r.x, 16)
    elif name == "MX":
        r.x = multiplied(r, r.x, value, 16)
    elif name == "DX":
        r.x = divided(r, r.x, value)
    elif name == "LDY":
        r.y = item
    elif name == "ADY":
        r.y = cut(r.y + item, 16)
    elif name == "SBY":
        r.y = cut(r.y - item, 16)
    elif name == "LDZ":
        r.z = item
    elif name == "ADZ":
        r.z = cut(r.z + item, 16)
    elif name == "SBZ":
        r.z = cut(r.z - item, 16)
    elif name == "BI":
        r.s = item
    elif name == "BLI":
        r.z = r.s
        r.s = item
    else:
        raise AssertionError(name)


def control_byte(r, reading_):
    return reading_.d if reading_.name == "BITL" else (reading_.d + r.x) % 256


BIT_OPERATIONS = {0: "test", 9: "toggle", 10: "place", 11: "set", 14: "clear"}


def obey_bit(r, control):
    operation = BIT_OPERATIONS[control >> 4]
    one = 1 << (15 - (control & 15))
    low = r.a & 0xFFFF
    if operation == "test":
        r.zr = int(low & one == 0)
        return
    if operation == "toggle":
        low ^= one
    elif operation == "place":
        low = one
    elif operation == "set":
        low |= one
    elif operation == "clear":
        low &= 0xFFFF - one
    r.a = (r.a >> 16 << 16) | low
    r.zr = int(low == 0)


def branch(r, d):
    r.s = cut(r.s + 2 * d, 16)


def obey_string(sight, r, name):
    if r.x == 0:
        r.n, r.zr = 0, 1
        return
    x = signed(r.x, 16)
    x += -1 if x > 0 else 1
    r.x = cut(x, 16)
    ends = False
    if name == "MBS":
        sight.write(r.y + x, 1, sight.read(r.z + x, 1, OPERAND))
    elif name == "MHS":
        sight.write(r.y + 2 * x, 2, sight.read(r.z + 2 * x, 2, OPERAND))
    elif name == "TRBS":
        b = sight.read(r.y + x, 1, OPERAND)
        sight.write(r.y + x, 1, sight.read(r.z + b, 1, OPERAND))
    elif name == "CPBS":
        first = sight.read(r.z + x, 1, OPERAND)
        difference = first - sight.read(r.y + x, 1, OPERAND)
        if x != 0 and difference != 0:
            ends = True
            r.n, r.zr = int(difference < 0), 0
    elif name == "SCBS":
        b = sight.read(r.y + x, 1, OPERAND)
        result = sight.read(r.z + b, 1, OPERAND) & r.a & 0xFF
        if x != 0 and result != 0:
            ends = True
            r.n, r.zr = 0, 0
    else:
        raise AssertionError(name)
    if x == 0:
        r.n, r.zr = 0, 1
    elif not ends:
        r.s = cut(r.s - 2, 16)


def obey_l(sight, r, reading_):
    name, d = reading_.name, reading_.d
    if name == "LDL":
        r.a = d
        mark_item(r, r.a, 32)
    elif name == "ADL":
        r.a = added(r, r.a, d, 32)
    elif name == "SBL":
        r.a = subtracted(r, r.a, d, 32)
    elif name == "CPL":
        subtracted(r, r.a, d, 32)
    elif name == "NL":
        r.a &= d
        mark_item(r, r.a, 32)
    elif name == "ML":
        r.a = multiplied(r, r.a, d, 32)
    elif name in ("BITL", "BITX"):
        obey_bit(r, control_byte(r, reading_))
    elif name in CONDITIONAL:
        taken = {
            "BZ": r.zr == 1, "BNZ": r.zr == 0, "BN": r.n == 1,
            "BNN": r.n == 0, "BCA": r.ca == 1, "BOF": r.of == 1,
        }[name]
        if taken:
            branch(r, d)
            if name == "BOF":
                r.of = 0
    elif name in ("RK", "SFN"):
        r.a, r.n, r.zr = 0, 0, 1
    elif name == "SFM":
        r.fm = 1
    elif name == "SIM":
        r.fm = 0
    else:
        obey_string(sight, r, name)


def step(book, grants, store, registers):
    """One step: the new registers and the bytes to write, or Stopped."""
    sight = Sight(grants, store)
    word = sight.read(registers.s, 2, FETCH)
    reading_ = reading(book, word)
    if reading_ == NO_PATTERN:
        raise Stopped(5)
    if reading_ == UNDEFINED:
        raise Stopped(1)
    name = reading_.name
    if name in ("BITL", "BITX"):
        if control_byte(registers, reading_) >> 4 not in BIT_OPERATIONS:
            raise Stopped(1)
    if reading_.format in A_FORMATS and registers.fm == 1:
        raise Stopped(4)
    if name == "HRK":
        raise Stopped(3)
    r = replace(registers)
    r.s = cut(r.s + 2, 16)
    if reading_.format in A_FORMATS:
        obey_a(sight, r, reading_)
    elif reading_.format == "B":
        if name == "BL":
            r.z = r.s
        branch(r, reading_.d)
    else:
        obey_l(sight, r, reading_)
    return r, sight.writes


def turn(book, grants, store, registers, budget):
    """Steps until the budget is spent or a stop: steps, stop or None, registers.

    The store (a bytearray) is altered by the completed steps."""
    steps = 0
    while steps < budget:
        try:
            after, writes = step(book, grants, store, registers)
        except Stopped as why:
            stop = Stop(why.cause, registers.s, why.place, why.access, why.byte)
            return steps, stop, registers
        for address, byte in writes:
            store[address] = byte
        registers = after
        steps += 1
    return steps, None, registers


# ---------------------------------------------------------------- listings


class ListingRefused(Exception):
    def __init__(self, line, why):
        super().__init__(f"line {line}: {why}")
        self.line = line


def plain_number(text, low, high):
    """A number in base ten within the range, or None."""
    if not re.fullmatch(r"-?(0|[1-9][0-9]{0,8})", text):
        return None
    value = int(text)
    return value if low <= value <= high else None


def listing_words(book, words, line):
    """The halfwords that the words of one line, after its address, say."""
    if not words:
        raise ListingRefused(line, "nothing after the address")
    if words[0] == "word":
        if len(words) != 2 or not re.fullmatch(r"[0-9A-Fa-f]{4}", words[1]):
            raise ListingRefused(line, "a word has four hexadecimal digits")
        return [int(words[1], 16)]
    if words[0] == "halfwords":
        values = [plain_number(w, 0, 65535) for w in words[1:]]
        if not values or None in values:
            raise ListingRefused(line, "halfwords are numbers from 0 to 65535")
        return values
    if len(words) != 4:
        raise ListingRefused(line, "an instruction has a name, a format, M and D")
    m, d = (plain_number(w, -99999, 99999) for w in words[2:])
    if m is None or d is None:
        raise ListingRefused(line, "M and D are numbers")
    try:
        return [put_together(book, words[0], words[1], m, d)]
    except PutRefused as why:
        raise ListingRefused(line, f"refused {why.number}") from None


def assemble(book, text):
    """The image, and what was put into it as (address, word) in order."""
    image = bytearray(STORE_SIZE)
    said = []
    taken = set()
    for line, content in enumerate(text.split("\n"), 1):
        words = content.split("#", 1)[0].split()
        if not words:
            continue
        address = plain_number(words[0], 0, STORE_SIZE - 1)
        if address is None or address % 2:
            raise ListingRefused(line, "an address is even, from 0 to 65534")
        for word in listing_words(book, words[1:], line):
            if address >= STORE_SIZE:
                raise ListingRefused(line, "beyond the store")
            if address in taken:
                raise ListingRefused(line, f"{address} has been given already")
            taken.add(address)
            image[address:address + 2] = word.to_bytes(2, "big")
            said.append((address, word))
            address += 2
    return bytes(image), said


# ---------------------------------------------------------------- jobs


class JobRefused(Exception):
    pass


@dataclass
class Job:
    bay: int = None
    grants: list = field(default_factory=list)
    registers: Registers = None
    input: tuple = None
    output: tuple = None
    turns: tuple = None
    records: str = None
    results: str = None


def parse_job(text):
    job = Job()
    seen = set()
    for line, content in enumerate(text.split("\n"), 1):
        if content == "":
            continue
        word, *rest = content.split("\t")

        def numbers(fields, high):
            values = [plain_number(f, 0, high) for f in fields]
            if None in values:
                raise JobRefused(f"line {line}: a number is wrong")
            return values

        if word != "grant":
            if word in seen:
                raise JobRefused(f"line {line}: {word} a second time")
            seen.add(word)
        if word == "bay" and len(rest) == 1:
            job.bay, = numbers(rest, 8)
        elif word == "grant" and len(rest) == 3 and rest[0] in ("read", "write"):
            first, last = numbers(rest[1:], 65535)
            job.grants.append(Grant(rest[0] == "write", first, last))
        elif word == "registers" and len(rest) == 7:
            fields = rest
            wide = [int(f) for f in fields[:2] if re.fullmatch(r"[0-9]{1,10}", f)]
            if len(wide) != 2 or max(wide) >= 1 << 32:
                raise JobRefused(f"line {line}: a number is wrong")
            job.registers = Registers(*wide, *numbers(fields[2:], 65535))
        elif word in ("input", "output", "turns") and len(rest) == 2:
            setattr(job, word, tuple(numbers(rest, 65535)))
        elif word in ("records", "results") and len(rest) == 1:
            setattr(job, word, rest[0])
        else:
            raise JobRefused(f"line {line}: not a line of a job")
    for name in "bay registers input output turns records results".split():
        if getattr(job, name) is None:
            raise JobRefused(f"{name} is missing")
    return job


def clash(one, other):
    return one.first <= other.last and other.first <= one.last and (
        one.write or other.write)


def check_bays(jobs):
    """The refusals that opening the bays and granting would meet."""
    bays, granted = set(), []
    for job in jobs:
        if not 1 <= job.bay <= 8:
            raise JobRefused("refused 1")
        if job.bay in bays:
            raise JobRefused("refused 3")
        bays.add(job.bay)
        for count, g in enumerate(job.grants):
            if g.last < g.first:
                raise JobRefused("refused 4")
            if count == 6:
                raise JobRefused("refused 5")
            if any(clash(g, other) for other in granted):
                raise JobRefused("refused 6")
            granted.append(g)


@dataclass
class Run:
    """What one record did."""

    steps: int
    stop: Stop
    registers: Registers
    result: bytes


def run_record(book, store, job, record):
    address, halfwords = job.input
    sight = Sight(job.grants, store)
    for i in range(2 * halfwords):
        if not sight.allowed(address + i, "write"):
            raise JobRefused("refused 7")
    store[address:address + 2 * halfwords] = record
    registers, steps, stop = replace(job.registers), 0, None
    count, budget = job.turns
    for _ in range(count):
        done, stop, registers = turn(book, job.grants, store, registers, budget)
        steps += done
        if stop:
            break
    address, halfwords = job.output
    for i in range(2 * halfwords):
        if not sight.allowed(address + i, "read"):
            raise JobRefused("refused 7")
    result = bytes(store[address:address + 2 * halfwords])
    return Run(steps, stop, registers, result)


def parted(job, content):
    """The records that a file of them has, one after the other."""
    size = 2 * job.input[1]
    if size == 0 or len(content) % size:
        raise JobRefused("the records have not a whole number of records")
    return [content[at:at + size] for at in range(0, len(content), size)]


def run_jobs(book, store, jobs, contents):
    """The runs of each job over one store: the first record of every job in
    the order given, then the second of each that has one, and so on."""
    records = [parted(job, content) for job, content in zip(jobs, contents)]
    runs = [[] for _ in jobs]
    for number in range(max(len(r) for r in records)):
        for job, mine, done in zip(jobs, records, runs):
            if number < len(mine):
                done.append(run_record(book, store, job, mine[number]))
    return runs


def halted(run):
    return run.stop is not None and run.stop.cause == 3


def block(name, job, runs):
    """The lines that a report has of one job."""
    lines = []
    for number, run in enumerate(runs, 1):
        if not halted(run):
            how = (f"stopped {run.stop} after {run.steps} steps" if run.stop
                   else f"spent all its turns, {run.steps} steps")
            lines.append(f"record {number} {how}, registers {run.registers}")
    lines += [
        f"job {name} in bay {job.bay}",
        f"records {len(runs)}",
        f"steps {sum(run.steps for run in runs)}",
        f"halted {sum(halted(run) for run in runs)}",
    ]
    if runs:
        lines.append(f"last registers, A B X Y Z S L FM N ZR OF CA: {runs[-1].registers}")
    if all(halted(run) for run in runs):
        size = sum(len(run.result) for run in runs)
        lines.append(f"results {job.results}, {size} bytes")
    return lines


# ---------------------------------------------------------------- commands


def write_new(path, content):
    with open(path, "xb") as out:
        out.write(content)


def command_assemble(book_path, listing_path, image_path):
    book = read_book(open(book_path, "rb").read())
    text = open(listing_path, encoding="ascii").read()
    image, said = assemble(book, text)
    write_new(image_path, image)
    for address, word in said:
        print(f"{address} {word:04X} {reading(book, word)}")


def command_recover(book_path, image_path, *job_paths):
    book = read_book(open(book_path, "rb").read())
    store = bytearray(open(image_path, "rb").read())
    if len(store) != STORE_SIZE:
        raise JobRefused("refused 8")
    jobs = [parse_job(open(p, encoding="ascii").read()) for p in job_paths]
    for job in jobs:
        if os.path.exists(job.results):
            raise JobRefused(f"{job.results} exists")
    check_bays(jobs)
    contents = [open(job.records, "rb").read() for job in jobs]
    for name, job, runs in zip(job_paths, jobs, run_jobs(book, store, jobs, contents)):
        print("\n".join(block(name, job, runs)))
        if all(halted(run) for run in runs):
            write_new(job.results, b"".join(run.result for run in runs))


# ---------------------------------------------------------------- self-check


def example_book():
    book = new_book()
    book.a["LD"] = 17
    book.b["B"] = 1
    return book


def full_book():
    """A book in which every name has some number."""
    book = new_book()
    book.a = {name: 16 + i for i, name in enumerate(A_NAMES)}
    book.l = {name: L_NUMBERS[i] for i, name in enumerate(L_NAMES)}
    book.b = {"B": 1, "BL": 2}
    return book


def obeyed(book, words, registers, items=(), steps=1, grants=None):
    """Runs the words at the registers' s; items are (address, length, value).

    Where no grants are given, the words may be read, and all else written."""
    store = bytearray(STORE_SIZE)
    first = registers.s & 0xFFFE
    for i, word in enumerate(words):
        at = first + 2 * i
        store[at:at + 2] = word.to_bytes(2, "big")
    for address, length, value in items:
        store[address:address + length] = cut(value, 8 * length).to_bytes(length, "big")
    if grants is None:
        past = first + 2 * len(words)
        grants = [Grant(False, first, past - 1), Grant(True, past, 65535)]
        grants += [Grant(True, 0, first - 1)] * (first > 0)
    done, stop, after = turn(book, grants, store, registers, steps)
    return done, stop, after, store


def book_answer(text):
    try:
        read_book(text)
    except BookRefused as why:
        return why.number, why.line
    return None


def self_check():
    book, full = example_book(), full_book()

    # B 11 at 1000 leads to 1024
    assert reading(book, 0x040B) == Reading("B", "B", 0, 11)
    _, _, r, _ = obeyed(book, [0x040B], Registers(s=1000))
    assert r.s == 1024

    # LD A2 with M 1 and D 3 at 200 has its operand at 208
    assert reading(book, 0x4483) == Reading("LD", "A2", 1, 3)
    _, _, r, _ = obeyed(book, [0x4483], Registers(s=200), [(208, 2, 77)])
    assert r.a == 77

    # LD A4 with M 0 and D 2: the halfword at l + 4, plus x*
    assert reading(book, 0x4702) == Reading("LD", "A4", 0, 2)
    _, _, r, _ = obeyed(book, [0x4702], Registers(s=200, l=400, x=0xFFFF),
                        [(404, 2, 600), (598, 2, 5)])
    assert r.a == 5

    # the bit instructions: place bit 12
    _, _, r, _ = obeyed(book, [0x16AC], Registers(a=0x1234FFFF))
    assert r.a == 0x12340008 and r.zr == 0

    def with_x(name, x, operand, **others):
        word = put_together(full, name, "A1", 0, 50)
        _, _, after, _ = obeyed(full, [word], Registers(s=1000, x=cut(x, 16), **others),
                                [(100, 2, operand)])
        return after

    r = with_x("DX", -7, 2)
    assert signed(r.x, 16) == -3 and (r.n, r.zr, r.of) == (1, 0, 0)
    r = with_x("DX", -32768, -1, n=1, zr=1)
    assert signed(r.x, 16) == -32768 and (r.n, r.zr, r.of) == (1, 1, 1)
    r = with_x("ADX", 32767, 1)
    assert signed(r.x, 16) == -32768 and (r.n, r.zr, r.of, r.ca) == (0, 0, 1, 0)
    r = with_x("ADX", -32768, -32768)
    assert r.x == 0 and (r.n, r.zr, r.of, r.ca) == (1, 1, 1, 1)
    r = with_x("ADX", 1, 1, of=1)
    assert r.x == 2 and r.of == 1

    # ML -2147483648 by 2
    word = put_together(full, "ML", "L", 0, 2)
    _, _, r, _ = obeyed(full, [word], Registers(a=0x80000000))
    assert r.a == 0 and (r.n, r.zr, r.of) == (1, 1, 1)

    # SB of -1 from 5 borrows
    word = put_together(full, "SB", "A1", 0, 50)
    _, _, r, _ = obeyed(full, [word], Registers(s=1000, a=5), [(100, 2, -1)])
    assert r.a == 6 and (r.n, r.zr, r.of, r.ca) == (0, 0, 0, 1)

    # MBS with x -2, y 101, z 201 moves byte 200 to 100, then 201 to 101
    start = Registers(s=1000, x=0xFFFE, y=101, z=201)
    items = [(200, 1, 11), (201, 1, 22)]
    done, _, r, store = obeyed(book, [0x2700], start, items)
    assert (done, r.x, r.s, store[100], store[101]) == (1, 0xFFFF, 1000, 11, 0)
    done, _, r, store = obeyed(book, [0x2700], start, items, steps=2)
    assert (done, r.x, r.s, store[100], store[101]) == (2, 0, 1002, 11, 22)
    assert (r.n, r.zr) == (0, 1)

    # every byte of a fullword is checked, also those below the formed address
    word = put_together(full, "LDW", "A2", 2, 0)
    grants = [Grant(False, 1000, 1001), Grant(False, 2000, 2001), Grant(False, 2003, 2003)]
    _, stop, _, _ = obeyed(full, [word], Registers(s=1000, y=2003), grants=grants)
    assert stop == Stop(2, 1000, OPERAND, "read", 2002)

    # the code book's text
    formats = b"F\tA1\t10\nF\tA2\t0\nF\tA3\t1110\nF\tA4\t110\nF\tA5\t1111\n"
    assert book_answer(formats) is None
    assert book_answer(formats + b"A\tLD\t16\n") is None
    assert book_answer(formats + b"A\tLD\t63\n") is None
    assert book_answer(formats + b"A\tLD\t15\n") == (13, 6)
    assert book_answer(formats + b"A\tLD\t64\n") == (13, 6)
    assert book_answer(b"F\tA2\t0\nF\tA1\t01\n") == (14, 2)
    assert book_answer(b"F\tA1\t01\nF\tA2\t0\n") == (14, 2)
    assert book_answer(b"") == (15, 1)
    assert book_answer(formats[:-1]) == (11, 5)
    assert book_answer(b"A\tLD\t17\n") == (15, 2)

    # a word put together reads back, and no word is without a pattern
    for word in range(65536):
        read = reading(full, word)
        assert read != NO_PATTERN
        if read != UNDEFINED:
            assert put_together(full, read.name, read.format, read.m, read.d) == word

    # a turn: nothing for a budget of 0, spent before the next step would stop
    word = put_together(full, "LDL", "L", 0, 1)
    assert obeyed(full, [word, 0x1201], Registers(), steps=0)[:2] == (0, None)
    assert obeyed(full, [word, 0x1201], Registers(), steps=1)[:2] == (1, None)
    assert obeyed(full, [word, 0x1201], Registers(), steps=9)[:2] == (1, Stop(3, 2))

    assert len(ALL_NAMES) == len(set(ALL_NAMES)) == 57
    print("self-check passed")


def main(arguments):
    if not arguments:
        self_check()
    elif arguments[0] == "assemble" and len(arguments) == 4:
        command_assemble(*arguments[1:])
    elif arguments[0] == "recover" and 4 <= len(arguments) <= 11:
        command_recover(*arguments[1:])
    else:
        print(__doc__, file=sys.stderr)
        return 1
    return 0


if __name__ == "__main__":
    try:
        sys.exit(main(sys.argv[1:]))
    except (BookRefused, ListingRefused, JobRefused, OSError) as why:
        print(why, file=sys.stderr)
        sys.exit(1)
