"""The hall: up to eight programs over one store, each in a bay of its own.

    python3 hall.py                         the self-check
    python3 hall.py BOOK IMAGE < SCRIPT     answers the calls of a script, as `calls` must

Like machine.py it is written for clarity and straight from the rules, to be
compared with the proved programs: bytes are asked for one by one, and nothing
is kept that could be looked up.

A bay is free, in preparation or sealed. Every call but open names its bay by a
handle, which has a stage; if the bay is at another stage, the call is refused
with 2 before all else. A refused call alters nothing.
"""

import re
import sys
from dataclasses import dataclass, field, replace

import machine
from machine import Grant, Registers, Stop

PREPARING, SEALED = "preparing", "sealed"
BAYS = range(1, 9)
MOST_GRANTS = 6


class Refused(Exception):
    def __init__(self, number):
        super().__init__(f"refused {number}")
        self.number = number


@dataclass(frozen=True)
class Handle:
    number: int
    stage: str


@dataclass
class Bay:
    stage: str = PREPARING
    grants: list = field(default_factory=list)
    registers: Registers = field(default_factory=Registers)
    stop: Stop = None

    def may_read(self, address):
        return any(g.has(address) for g in self.grants)

    def may_write(self, address):
        return any(g.has(address) and g.write for g in self.grants)


class Hall:
    """A store, a book, and the bays that are taken, by their numbers."""

    def __init__(self, store, book):
        assert len(store) == machine.STORE_SIZE
        self.store = bytearray(store)
        self.book = book
        self.bays = {}

    def bay(self, handle, *stages):
        """The bay of a handle, which must be of one of the stages."""
        assert handle.stage in stages
        bay = self.bays.get(handle.number)
        if bay is None or bay.stage != handle.stage:
            raise Refused(2)
        return bay

    def open(self, number):
        if number not in BAYS:
            raise Refused(1)
        if number in self.bays:
            raise Refused(3)
        self.bays[number] = Bay()
        return Handle(number, PREPARING)

    def grant(self, handle, write, first, last):
        bay = self.bay(handle, PREPARING)
        if last < first:
            raise Refused(4)
        if len(bay.grants) == MOST_GRANTS:
            raise Refused(5)
        wanted = Grant(write, first, last)
        for other in self.bays.values():
            for held in other.grants:
                if machine.clash(wanted, held):
                    raise Refused(6)
        bay.grants.append(wanted)

    def load(self, handle, address, content):
        bay = self.bay(handle, PREPARING, SEALED)
        for i in range(len(content)):
            if not bay.may_write(address + i):
                raise Refused(7)
        for i, byte in enumerate(content):
            self.store[address + i] = byte

    def set(self, handle, registers):
        bay = self.bay(handle, PREPARING, SEALED)
        bay.registers = replace(registers)
        bay.stop = None

    def seal(self, handle):
        bay = self.bay(handle, PREPARING)
        bay.stage = SEALED
        return Handle(handle.number, SEALED)

    def turn(self, handle, budget):
        """Steps done, and the stop or None."""
        bay = self.bay(handle, SEALED)
        if bay.stop is not None:
            return 0, bay.stop
        steps, bay.stop, bay.registers = machine.turn(
            self.book, bay.grants, self.store, bay.registers, budget)
        return steps, bay.stop

    def look(self, handle):
        """Registers with their markers, and the stop or None."""
        bay = self.bay(handle, PREPARING, SEALED)
        return replace(bay.registers), bay.stop

    def copy(self, handle, address, length):
        bay = self.bay(handle, PREPARING, SEALED)
        for i in range(length):
            if not bay.may_read(address + i):
                raise Refused(7)
        return bytes(self.store[address + i] for i in range(length))

    def close(self, handle):
        bay = self.bay(handle, PREPARING, SEALED)
        for g in bay.grants:
            if g.write:
                for address in range(g.first, g.last + 1):
                    self.store[address] = 0
        del self.bays[handle.number]


# ---------------------------------------------------------------- scripts


class ScriptRefused(Exception):
    pass


def as_number(word, high):
    if not re.fullmatch(r"0|[1-9][0-9]*", word) or int(word) > high:
        raise ValueError(word)
    return int(word)


def as_address(word):
    return as_number(word, 65535)


def as_fullword(word):
    return as_number(word, 2 ** 32 - 1)


def as_marker(word):
    return as_number(word, 1)


def as_kind(word):
    """Whether a grant is for writing."""
    if word not in ("read", "write"):
        raise ValueError(word)
    return word == "write"


def as_bytes(word):
    if word == "-":
        return b""
    if not re.fullmatch(r"([0-9A-Fa-f]{2})+", word):
        raise ValueError(word)
    return bytes.fromhex(word)


def shown(content):
    return content.hex().upper() if content else "-"


# what follows the bay in the line of a call, and the stages of which a handle
# will do, where it is not both
WORDS = {
    "open": (), "grant": (as_kind, as_address, as_address), "load": (as_address, as_bytes),
    "set": (as_fullword,) * 2 + (as_address,) * 5 + (as_marker,) * 5, "seal": (),
    "turn": (as_address,), "look": (), "copy": (as_address, as_fullword), "close": (),
}
STAGES = {"grant": (PREPARING,), "seal": (PREPARING,), "turn": (SEALED,)}


def parsed(line):
    """The call of a line, its bay, and the rest."""
    call, *words = [word for word in line.split(" ") if word]
    if call not in WORDS or len(words) != 1 + len(WORDS[call]):
        raise ValueError(line)
    bay = as_fullword(words[0])
    return call, bay, [read(word) for read, word in zip(WORDS[call], words[1:])]


class Script:
    """Makes the calls of a script's lines, and keeps the handles."""

    def __init__(self, hall):
        self.hall = hall
        self.held = {}

    def answer(self, line):
        call, bay, rest = parsed(line)
        try:
            if call == "open":
                self.held[bay] = self.hall.open(bay)
                return "done"
            handle = self.held.get(bay)
            if handle is None or handle.stage not in STAGES.get(call, (PREPARING, SEALED)):
                return "no handle"
            return self.made(call, handle, rest)
        except Refused as why:
            return f"refused {why.number}"

    def made(self, call, handle, rest):
        if call == "set":
            self.hall.set(handle, Registers(*rest))
            return "done"
        given = getattr(self.hall, call)(handle, *rest)
        if call == "seal":
            self.held[handle.number] = given
        if call == "close":
            del self.held[handle.number]
        if call == "turn":
            steps, stop = given
            return f"spent {steps}" if stop is None else f"stopped {steps} {stop}"
        if call == "look":
            registers, stop = given
            return f"state {registers} " + ("running" if stop is None else f"stopped {stop}")
        if call == "copy":
            return f"bytes {shown(given)}"
        return "done"

    def end(self):
        for handle in list(self.held.values()):
            self.hall.close(handle)
        self.held = {}


def answers(book, image, text):
    """The answers to a script, one to a call. All lines are looked at first."""
    lines = []
    for count, line in enumerate(text.split("\n"), 1):
        if line.strip(" ") and not line.startswith("#"):
            try:
                parsed(line)
            except ValueError:
                raise ScriptRefused(f"line {count} is no call: {line}") from None
            lines.append(line)
    script = Script(Hall(image, book))
    given = [script.answer(line) for line in lines]
    script.end()
    return given


# ---------------------------------------------------------------- self-check


def refusal(call, *arguments):
    """The number that a call is refused with, or None; it must then alter nothing."""
    hall = call.__self__
    before = (bytes(hall.store), repr(hall.bays))
    try:
        call(*arguments)
    except Refused as why:
        assert (bytes(hall.store), repr(hall.bays)) == before
        return why.number
    return None


def self_check():
    book = machine.example_book()  # LD 17, B 1
    # LD A2 with M 2, then B 0 and HRK, at 300; a word that no book has at 306
    image = bytearray(bytes(range(256)) * 256)
    image[300:308] = bytes.fromhex("4500040012011203")
    image = bytes(image)

    # opening, and the stages
    hall = Hall(image, book)
    for wrong in (0, 9, 65535):
        assert refusal(hall.open, wrong) == 1
    one = hall.open(1)
    assert refusal(hall.open, 1) == 3
    assert hall.look(one) == (Registers(), None)
    sealed = hall.seal(one)
    assert refusal(hall.seal, one) == 2 and refusal(hall.grant, one, True, 9, 0) == 2
    assert refusal(hall.look, one) == 2 and refusal(hall.copy, one, 0, 0) == 2
    assert refusal(hall.load, one, 0, b"") == 2 and refusal(hall.close, one) == 2
    assert refusal(hall.set, one, Registers()) == 2
    assert refusal(hall.copy, sealed, 0, 0) is None
    hall.close(sealed)
    assert refusal(hall.turn, sealed, 0) == 2 and refusal(hall.close, sealed) == 2
    one = hall.open(1)
    assert refusal(hall.look, sealed) == 2 and refusal(hall.look, one) is None

    # grants: 4, then 5, then 6
    two = hall.open(2)
    assert refusal(hall.grant, one, True, 100, 99) == 4
    hall.grant(one, True, 100, 107)
    assert refusal(hall.grant, one, False, 107, 200) == 6
    assert refusal(hall.grant, two, False, 0, 100) == 6
    assert refusal(hall.grant, two, True, 103, 104) == 6
    hall.grant(two, False, 0, 99)
    assert refusal(hall.grant, one, True, 99, 99) == 6
    hall.grant(one, False, 50, 99)
    hall.grant(one, False, 50, 99)
    hall.grant(one, True, 108, 108)
    hall.grant(one, False, 110, 111)
    hall.grant(one, True, 65535, 65535)
    assert refusal(hall.grant, one, True, 107, 106) == 4
    assert refusal(hall.grant, one, True, 107, 107) == 5
    assert refusal(hall.grant, one, True, 5000, 5000) == 5

    # the same, of all small grants: a clash is a shared byte that one may write
    for first in range(4):
        for last in range(first, 4):
            for write in (False, True):
                small = Hall(image, book)
                small.grant(small.open(8), write, 1, 2)
                for kind in (False, True):
                    shared = {1, 2} & set(range(first, last + 1))
                    number_ = refusal(small.grant, small.open(3 + kind), kind, first, last)
                    assert number_ == (6 if shared and (write or kind) else None)
                    small.bays[3 + kind].grants.clear()

    # load and copy, byte by byte
    hall.load(one, 106, b"abc")
    assert hall.copy(one, 105, 4) == b"iabc" and hall.store[105:109] == b"iabc"
    assert refusal(hall.load, one, 106, b"defg") == 7
    assert refusal(hall.load, one, 99, b"d") == 7 and refusal(hall.load, one, 109, b"") is None
    assert hall.copy(one, 98, 11) == bytes([98, 99, 100, 101, 102, 103, 104, 105]) + b"abc"
    assert refusal(hall.copy, one, 108, 2) == 7 and refusal(hall.copy, one, 49, 2) == 7
    assert refusal(hall.load, one, 65535, b"xy") == 7 and refusal(hall.copy, one, 65535, 2) == 7
    hall.load(one, 65535, b"x")
    assert hall.copy(one, 65535, 1) == b"x" and hall.copy(one, 65535, 0) == b""

    # closing: the write grants' bytes, and no others
    hall.close(one)
    cleared = set(range(100, 109)) | {65535}
    assert all(hall.store[i] == (0 if i in cleared else image[i]) for i in range(65536))
    one = hall.open(1)
    assert hall.look(one) == (Registers(), None) and hall.bays[1].grants == []
    hall.grant(one, True, 100, 107)
    hall.grant(one, False, 300, 307)

    # turns and stops
    hall.set(one, Registers(s=300, y=20))
    sealed = hall.seal(one)
    stopped = 0, Stop(2, 300, 3, "read", 20)
    assert hall.turn(sealed, 0) == (0, None) and hall.turn(sealed, 1) == stopped
    assert hall.turn(sealed, 0) == hall.turn(sealed, 9) == stopped
    hall.load(sealed, 106, b"\x01\x02")
    assert refusal(hall.load, sealed, 108, b"z") == 7
    assert hall.look(sealed) == (Registers(s=300, y=20), Stop(2, 300, 3, "read", 20))
    hall.set(sealed, Registers(s=300, y=106, of=1))
    assert hall.look(sealed) == (Registers(s=300, y=106, of=1), None)
    assert hall.turn(sealed, 2) == (2, None)
    assert hall.turn(sealed, 0) == (0, None) and hall.turn(sealed, 2) == (0, Stop(3, 304))
    assert hall.look(sealed) == (Registers(a=0x0102, s=304, y=106, of=1), Stop(3, 304))
    assert hall.look(two) == (Registers(), None)
    assert refusal(hall.grant, two, False, 107, 107) == 6  # a stopped bay's grants count
    hall.close(sealed)
    assert hall.store[100:108] == bytes(8)
    assert refusal(hall.grant, two, False, 107, 107) is None

    # a script
    text = """
# a comment
open 9
open 1
open 1
turn 1 5
grant 1 write 200 203
grant 1 read 306 307
load 1 200 -
load 1 201 0Aff
load 1 203 0102
copy 1 200 4
copy 1 0 0
set 1 4294967295 1 2 3 4 306 6 0 1 0 1 0
look 1
seal 1
grant 1 read 0 0
turn 1 0
turn 1 5
look 1
close 1
look 1
"""
    assert answers(book, bytes(204) + image[204:], text) == [
        "refused 1", "done", "refused 3", "no handle", "done", "done", "done", "done",
        "refused 7", "bytes 000AFF00", "bytes -", "done",
        "state 4294967295 1 2 3 4 306 6 0 1 0 1 0 running", "done", "no handle", "spent 0",
        "stopped 0 1 306", "state 4294967295 1 2 3 4 306 6 0 1 0 1 0 stopped 1 306", "done",
        "no handle"]
    assert answers(book, image, "") == answers(book, image, "  \n# a comment\n") == []

    # lines that are no calls
    for line in ("opened 1", "open", "open 1 2", "open -1", "open 01", "grant 1 none 0 0",
                 "grant 1 read 0 65536", "load 1 0 0", "load 1 0 0G", "load 1 0", "turn 1 65536",
                 "set 1 0 0 0 0 0 0 0 0 0 0 0 2", "set 1 0 0 65536 0 0 0 0 0 0 0 0 0",
                 "copy 1 65536 0", "seal one"):
        try:
            parsed(line)
        except ValueError:
            continue
        raise AssertionError(line)
    print("self-check passed")


def main(arguments):
    if not arguments:
        self_check()
        return 0
    if len(arguments) != 2:
        print(__doc__, file=sys.stderr)
        return 1
    book_path, image_path = arguments
    with open(book_path, "rb") as file:
        book_text = file.read()
    with open(image_path, "rb") as file:
        image = file.read()
    try:
        book = machine.read_book(book_text)
    except machine.BookRefused as why:
        print(f"refused {why.number} {why.line}")
        return 0
    if len(image) != machine.STORE_SIZE:
        print("refused 8")
        return 0
    for line in answers(book, image, sys.stdin.read()):
        print(line)
    return 0


if __name__ == "__main__":
    try:
        sys.exit(main(sys.argv[1:]))
    except (ScriptRefused, OSError) as why:
        print(why, file=sys.stderr)
        sys.exit(1)
