#!/usr/bin/env python3
"""What `assemble` must print, by the oracle's own assembler: placed.py BOOK LISTING"""
import sys

import machine

book = machine.read_book(open(sys.argv[1], "rb").read())
text = open(sys.argv[2], encoding="ascii").read()
image, said = machine.assemble(book, text)
data = set()
for content in text.split("\n"):
    words = content.split("#", 1)[0].split()
    if words[1:2] == ["halfwords"]:
        data.update(int(words[0]) + 2 * k for k in range(len(words) - 2))
for address, word in said:
    line = f"{address} {word:04X}"
    print(line if address in data else f"{line} {machine.reading(book, word)}")
