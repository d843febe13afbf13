"""Answers the case lines of standard input, as the checking program must.

    python3 replay.py BOOK < CASES/stdin | cmp - CASES/stdout
"""

import sys

import machine
from machine import Grant, Registers


def run(book, words):
    label, contents, (grants, pieces, budget) = words[0], words[1:13], words[13:]
    registers = Registers(*(int(w) for w in contents))
    given = []
    for text in grants.split(",") if grants != "-" else []:
        kind, first, last = text.split(":")
        given.append(Grant(kind == "w", int(first), int(last)))
    store = bytearray(machine.STORE_SIZE)
    for text in pieces.split(",") if pieces != "-" else []:
        address, content = text.split(":")
        content = bytes.fromhex(content)
        store[int(address):int(address) + len(content)] = content
    assert len(store) == machine.STORE_SIZE
    before = bytes(store)
    steps, stop, after = machine.turn(book, given, store, registers, int(budget))
    how = f"stopped {stop}" if stop else "spent"
    changed = "-"
    if store != before:
        changed = ",".join(f"{i}:{new:02X}" for i, (old, new)
                           in enumerate(zip(before, store)) if old != new)
    return f"{label} {steps} {how} {after} {changed}"


def answer(book, line):
    kind, *words = line.split(" ")
    if kind == "run":
        return run(book, words)
    if kind == "book":
        try:
            machine.read_book(bytes.fromhex(words[0]) if words[0] != "-" else b"")
            return "book accepted"
        except machine.BookRefused as why:
            return f"book refused {why.number} {why.line}"
    if kind == "reading":
        return f"reading {machine.reading(book, int(words[0], 16))}"
    if kind == "put":
        name, fmt, m, d = words
        try:
            return f"put {machine.put_together(book, name, fmt, int(m), int(d)):04X}"
        except machine.PutRefused as why:
            return f"put refused {why.number}"
    raise ValueError(line)


def main():
    with open(sys.argv[1], "rb") as file:
        book = machine.read_book(file.read())
    for line in sys.stdin.read().split("\n"):
        if line and not line.startswith("#"):
            print(answer(book, line))


if __name__ == "__main__":
    main()
