"""Makes the script of `calls`: what it reads, and what it must answer.

    python3 make_scripts.py [CRATES]    CRATES is ../../crates unless given

Writes CRATES/calls/stdin, stdout and args, and CRATES/calls/data/script.img: the
sample's image, with programs beside it that nobody loads, so that bays have
what they obey under read grants. One history over one store: a part written by
hand, whose answers stand beside the calls and are compared with those of
hall.py; the sample's three jobs in rotation; histories at random, with a fixed
seed; a second part by hand that clears the whole store; a last history over
the empty store; handles that are held at the end. Prints how often each call
had each answer.
"""

import os
import random
import sys
from collections import Counter

import hall
import machine
from hall import PREPARING, SEALED

HERE = os.path.dirname(os.path.abspath(__file__))
CRATES = sys.argv[1] if len(sys.argv) > 1 else os.path.join(HERE, "..", "..", "crates")
DATA = os.path.join(CRATES, "recover", "data")
MOST_STEPS = 20_000_000
MOST_BYTES = 250_000


def read(name):
    with open(os.path.join(DATA, name), "rb") as file:
        return file.read()


class Asked:
    """The script so far, its answers, and the hall in which it was made."""

    def __init__(self, image, book):
        self.book = book
        self.image = image
        self.hall = hall.Hall(image, book)
        self.script = hall.Script(self.hall)
        self.lines = []
        self.answers = []
        self.counts = Counter()
        self.stops = Counter()
        self.steps = 0
        self.cleared = set()  # all bytes that some bay could write

    def remark(self, text=""):
        self.lines.append(f"# {text}" if text else "")

    def ask(self, line):
        call, number = line.split()[:2]
        bay = self.hall.bays.get(int(number))
        stage = bay.stage if bay else "free"
        standing = bay is not None and bay.stop is not None
        before = (bytes(self.hall.store), repr(self.hall.bays))
        answer = self.script.answer(line)
        self.lines.append(line)
        self.answers.append(answer)
        kind = answer.split()[0]
        if kind in ("refused", "no"):
            assert (bytes(self.hall.store), repr(self.hall.bays)) == before
            kind = answer
        elif kind == "state":
            kind = "running" if answer.endswith("running") else "stopped"
        elif kind in ("spent", "stopped"):
            self.steps += int(answer.split()[1])
            if kind == "stopped":
                self.note_stop(bay.stop, standing, line.split()[2])
        elif call == "grant" and line.split()[2] == "write":
            first, last = (int(word) for word in line.split()[3:])
            self.cleared |= set(range(first, last + 1))
        self.counts[call, stage, kind] += 1
        return answer

    def note_stop(self, stop, standing, budget):
        name = f"cause {stop.cause}"
        if stop.cause == 2:
            name += f" place {stop.place} {stop.access}"
        if standing:
            name = f"standing, budget {'0' if budget == '0' else 'above 0'}"
        self.stops[name] += 1


# ---------------------------------------------------------------- by hand
#
# Each call with its answer. Instructions in braces become the bytes of their
# words, and are repeated in a comment. A line `image` says what the image has
# at an address. All bays are closed before the second part: the store is the
# image again, but zero where some bay could write.

FIRST_PART = """
# opening: only 1 to 8, and only a free one
open 0 => refused 1
open 9 => refused 1
open 255 => refused 1
open 257 => refused 1
open 65535 => refused 1
look 1 => no handle
open 1 => done
open 1 => refused 3
look 1 => state 0 0 0 0 0 0 0 0 0 0 0 0 running
open 8 => done
open 8 => refused 3

# no handle: a bay that was never opened, and numbers of no bay
grant 2 read 0 0 => no handle
load 2 0 00 => no handle
load 2 0 - => no handle
set 2 0 0 0 0 0 0 0 0 0 0 0 0 => no handle
seal 2 => no handle
turn 2 0 => no handle
turn 2 1 => no handle
look 2 => no handle
copy 2 0 0 => no handle
close 2 => no handle
look 0 => no handle
close 9 => no handle
grant 9 write 1 0 => no handle

# no handle: another stage
turn 8 0 => no handle
turn 8 5 => no handle
seal 8 => done
seal 8 => no handle
grant 8 read 0 0 => no handle
grant 8 write 1 0 => no handle
open 8 => refused 3

# no handle: closed
close 8 => done
close 8 => no handle
seal 8 => no handle
look 8 => no handle
turn 8 1 => no handle
load 8 0 - => no handle
copy 8 0 0 => no handle
set 8 0 0 0 0 0 0 0 0 0 0 0 0 => no handle
grant 8 read 0 0 => no handle
open 8 => done

# a reversed range, then the smallest ones
grant 1 read 10 9 => refused 4
grant 1 write 65535 0 => refused 4
grant 1 read 4000 4000 => done

# its own grants count: a write clashes with a read, reads go together and may be equal
grant 1 write 4000 4000 => refused 6
grant 1 read 4000 4000 => done
grant 1 read 3990 4005 => done
grant 1 write 4005 4006 => refused 6
grant 1 write 3980 3990 => refused 6

# so do those of other bays: reads go together, all else clashes, at one byte too
grant 8 read 4000 4010 => done
grant 8 write 4011 4020 => done
grant 1 write 4010 4010 => refused 6
grant 1 write 4011 4011 => refused 6
grant 1 write 4000 4100 => refused 6
grant 1 read 4020 4030 => refused 6
grant 1 read 4006 4011 => refused 6
grant 1 read 4013 4014 => refused 6
grant 1 read 0 65535 => refused 6
grant 8 write 3995 3995 => refused 6
grant 1 read 4021 4030 => done

# neighbours clash with nothing
grant 1 write 5000 5003 => done
grant 1 write 5004 5004 => done

# six are the most: a reversed range is told first, a clash last
grant 1 read 6000 6000 => refused 5
grant 1 read 6000 5999 => refused 4
grant 1 write 4015 4014 => refused 4
grant 1 write 4015 4015 => refused 5
grant 1 write 5000 5000 => refused 5
grant 1 read 4000 4000 => refused 5
grant 8 read 5004 5004 => refused 6
grant 8 write 6000 6000 => done

# load: all of its bytes in write grants, be it several, or nothing is written
load 1 5000 0102030405 => done
load 1 5000 A1A2A3A4A5A6 => refused 7
load 1 4999 B1B2 => refused 7
load 1 4999 B1 => refused 7
load 1 5005 B1 => refused 7
copy 1 5000 5 => bytes 0102030405
load 1 5003 C4C5 => done
copy 1 5000 5 => bytes 010203C4C5
load 1 5004 D5 => done

# a read grant is not enough, nor is the grant of another bay
load 1 4000 AA => refused 7
load 1 4011 AA => refused 7
load 8 5000 AA => refused 7
load 8 4010 AA => refused 7
load 8 4010 AABB => refused 7
load 8 4020 AABB => refused 7
load 8 4011 DEAD => done
load 8 4019 BEEF => done

# no byte: done at any address
load 1 7777 - => done
load 1 65535 - => done
load 1 4000 - => done
copy 1 7777 0 => bytes -
copy 1 65535 0 => bytes -

# copy: grants of either kind, neighbours and overlaps too
copy 1 5000 6 => refused 7
copy 1 4999 2 => refused 7
copy 1 5004 1 => bytes D5
copy 1 3990 16 => bytes 00000000000000000000000000000000
copy 1 3990 17 => refused 7
copy 1 4005 17 => refused 7
copy 1 3989 1 => refused 7
copy 1 4011 1 => refused 7
copy 8 4009 5 => bytes 0000DEAD00
copy 8 4000 21 => bytes 0000000000000000000000DEAD000000000000BEEF
copy 8 4000 22 => refused 7
copy 8 6000 1 => bytes 00
copy 8 6000 65536 => refused 7
copy 8 6000 65537 => refused 7
copy 8 6000 4294967295 => refused 7

# set and look in preparation, then sealed
set 1 4294967295 2147483648 32768 65535 1 40000 65534 1 0 1 0 1 => done
look 1 => state 4294967295 2147483648 32768 65535 1 40000 65534 1 0 1 0 1 running
look 8 => state 0 0 0 0 0 0 0 0 0 0 0 0 running
seal 1 => done
look 1 => state 4294967295 2147483648 32768 65535 1 40000 65534 1 0 1 0 1 running
set 1 1 2 3 4 5 6 7 0 1 0 1 0 => done
open 1 => refused 3
look 1 => state 1 2 3 4 5 6 7 0 1 0 1 0 running
load 1 5001 77 => done
load 1 4000 77 => refused 7
load 1 60000 - => done
copy 1 5000 5 => bytes 017703C4D5
copy 1 5000 0 => bytes -
copy 1 5005 1 => refused 7
grant 1 read 7000 7000 => no handle

# the grants of a sealed bay count
grant 8 read 5000 5000 => refused 6
grant 8 write 4005 4005 => refused 6
grant 8 write 4031 4031 => done

# closed in preparation: its write grants' bytes are zero, the read grants' stay
open 2 => done
grant 2 read 256 271 => done
copy 2 256 16 => bytes 0800000D0008000103FF0400000303FD
grant 2 write 255 255 => done
grant 2 write 272 272 => done
load 2 255 11 => done
load 2 272 22 => done
copy 2 255 18 => bytes 110800000D0008000103FF0400000303FD22
close 2 => done
close 8 => done
open 8 => done
look 8 => state 0 0 0 0 0 0 0 0 0 0 0 0 running
copy 8 4011 1 => refused 7
grant 8 read 4000 4020 => done
copy 8 4009 12 => bytes 000000000000000000000000
grant 8 read 255 272 => done
copy 8 255 18 => bytes 000800000D0008000103FF0400000303FD00
copy 1 5000 5 => bytes 017703C4D5

# closed when sealed: the same, and its grants are gone
grant 8 write 5000 5004 => refused 6
close 1 => done
grant 8 write 5000 5004 => done
copy 8 5000 5 => bytes 0000000000
open 1 => done
look 1 => state 0 0 0 0 0 0 0 0 0 0 0 0 running
copy 1 4000 1 => refused 7
close 1 => done
close 8 => done

# a bay without a grant
open 5 => done
seal 5 => done
turn 5 0 => spent 0
load 5 0 - => done
load 5 0 00 => refused 7
copy 5 0 1 => refused 7
copy 5 65535 0 => bytes -
turn 5 1 => stopped 0 2 0 1 read 0
close 5 => done
look 5 => no handle

# ---- stops. Bay 3 has code, to be read, and data; bay 4 is the next after its data
image 8192 {LDL L 0 7; HRK L 0 0; BITL L 0 16; SFM L 0 0; LD A2 0 0}
image 8202 1203
image 8204 {LD A4 0 2; LDW A2 2 0; LDW A2 3 0; LDL L 0 255; ST A2 2 0; MHS L 0 0}
image 8216 {SBL L 0 1; B B 0 -2; ADL L 0 1; B B 0 -2}
image 8254 {LDL L 0 3}
open 3 => done
grant 3 read 8192 8255 => done
grant 3 write 8320 8351 => done
grant 3 read 256 511 => done
open 4 => done
grant 4 read 256 511 => done
grant 4 write 8352 8383 => done
load 4 8352 99887766 => done
set 3 0 0 0 0 0 8202 0 0 0 0 0 0 => done
turn 3 1 => no handle
seal 3 => done

# cause 1, and a stop that stands, whatever the budget
turn 3 5 => stopped 0 1 8202
look 3 => state 0 0 0 0 0 8202 0 0 0 0 0 0 stopped 1 8202
turn 3 0 => stopped 0 1 8202
turn 3 1 => stopped 0 1 8202
turn 3 65535 => stopped 0 1 8202

# a load under it is done, or refused, and lifts nothing
load 3 8320 0102 => done
turn 3 1 => stopped 0 1 8202
load 3 8256 00 => refused 7
load 3 8202 2007 => refused 7
load 3 8192 - => done
copy 3 8192 4 => bytes 20071201
copy 3 8256 1 => refused 7
turn 3 0 => stopped 0 1 8202
look 3 => state 0 0 0 0 0 8202 0 0 0 0 0 0 stopped 1 8202

# set lifts it
set 3 0 0 0 0 0 8192 0 0 0 0 0 0 => done
look 3 => state 0 0 0 0 0 8192 0 0 0 0 0 0 running
turn 3 0 => spent 0
turn 3 1 => spent 1
turn 3 0 => spent 0
look 3 => state 7 0 0 0 0 8194 0 0 0 0 0 0 running

# cause 3; the step that stops is not counted
turn 3 1 => stopped 0 3 8194
look 3 => state 7 0 0 0 0 8194 0 0 0 0 0 0 stopped 3 8194
turn 3 0 => stopped 0 3 8194
set 3 0 0 0 0 0 8192 0 0 1 1 1 1 => done
turn 3 9 => stopped 1 3 8194
look 3 => state 7 0 0 0 0 8194 0 0 0 0 1 1 stopped 3 8194

# cause 1 of a control byte
set 3 0 0 0 0 0 8196 0 0 0 0 0 0 => done
turn 3 1 => stopped 0 1 8196

# cause 4
set 3 0 0 0 0 0 8198 8320 0 0 0 0 0 => done
turn 3 9 => stopped 1 4 8200
look 3 => state 0 0 0 0 0 8200 8320 1 0 0 0 0 stopped 4 8200
set 3 0 0 0 0 0 8200 0 1 0 0 0 0 => done
turn 3 9 => stopped 0 4 8200

# cause 2 at the fetch: elsewhere, of an odd address, past the end of a grant
set 3 0 0 0 0 0 100 0 0 0 0 0 0 => done
turn 3 2 => stopped 0 2 100 1 read 100
turn 3 2 => stopped 0 2 100 1 read 100
look 3 => state 0 0 0 0 0 100 0 0 0 0 0 0 stopped 2 100 1 read 100
set 3 1 2 3 4 5 100 7 1 1 1 1 1 => done
turn 3 2 => stopped 0 2 100 1 read 100
look 3 => state 1 2 3 4 5 100 7 1 1 1 1 1 stopped 2 100 1 read 100
set 3 0 0 0 0 0 65535 0 0 0 0 0 0 => done
turn 3 2 => stopped 0 2 65535 1 read 65534
set 3 0 0 0 0 0 8255 0 0 0 0 0 0 => done
turn 3 2 => stopped 1 2 8257 1 read 8256
look 3 => state 3 0 0 0 0 8257 0 0 0 0 0 0 stopped 2 8257 1 read 8256
set 3 0 0 0 0 0 8352 0 0 0 0 0 0 => done
turn 3 2 => stopped 0 2 8352 1 read 8352

# cause 2 at the pointer, then at the operand that it leads to
set 3 0 0 0 0 0 8204 8348 0 0 0 0 0 => done
turn 3 2 => stopped 0 2 8204 2 read 8352
look 3 => state 0 0 0 0 0 8204 8348 0 0 0 0 0 stopped 2 8204 2 read 8352
set 3 0 0 5 0 0 8204 8346 0 0 0 0 0 => done
turn 3 2 => stopped 0 2 8204 3 read 10

# cause 2 at the operand, read
set 3 0 0 0 8350 8355 8206 0 0 0 0 0 0 => done
turn 3 2 => stopped 1 2 8208 3 read 8352
look 3 => state 0 0 0 8350 8355 8208 0 0 0 1 0 0 stopped 2 8208 3 read 8352

# cause 2 at the operand, write: under a read grant, its own code too, and over another bay's bytes
set 3 0 0 0 256 0 8210 0 0 0 0 0 0 => done
turn 3 2 => stopped 1 2 8212 3 write 256
copy 3 256 4 => bytes 0800000D
set 3 0 0 0 8212 0 8210 0 0 0 0 0 0 => done
turn 3 2 => stopped 1 2 8212 3 write 8212
set 3 0 0 0 8352 0 8210 0 0 0 0 0 0 => done
turn 3 2 => stopped 1 2 8212 3 write 8352
copy 4 8352 4 => bytes 99887766
set 3 0 0 0 8351 0 8210 0 0 0 0 0 0 => done
turn 3 2 => spent 2
copy 3 8350 2 => bytes 00FF

# inside a string: what was moved stays moved
set 3 0 0 65532 8354 264 8214 0 0 0 0 0 0 => done
turn 3 9 => stopped 2 2 8214 3 write 8352
look 3 => state 0 0 65534 8354 264 8214 0 0 0 0 0 0 stopped 2 8214 3 write 8352
copy 3 8348 4 => bytes 000D0008
copy 4 8352 4 => bytes 99887766

# a stopped bay's grants count
grant 4 read 8351 8351 => refused 6
grant 4 write 8255 8255 => refused 6
grant 4 write 511 511 => refused 6

# ---- two programs by turns, which share their code: one counts down, one up
grant 4 read 8192 8255 => done
set 3 0 0 1 1 1 8216 1 0 0 0 0 0 => done
set 4 0 0 2 2 2 8220 2 0 0 0 0 0 => done
seal 4 => done
turn 3 3 => spent 3
turn 4 4 => spent 4
look 3 => state 4294967294 0 1 1 1 8218 1 0 1 0 0 0 running
look 4 => state 2 0 2 2 2 8220 2 0 0 0 0 0 running
turn 4 65535 => spent 65535
turn 3 1 => spent 1
look 3 => state 4294967294 0 1 1 1 8216 1 0 1 0 0 0 running
look 4 => state 32770 0 2 2 2 8222 2 0 0 0 0 0 running

# one stops, the other goes on
set 4 32770 0 2 2 2 8192 2 0 0 0 0 0 => done
turn 4 5 => stopped 1 3 8194
turn 3 2 => spent 2
turn 4 5 => stopped 0 3 8194
look 4 => state 7 0 2 2 2 8194 2 0 0 0 0 0 stopped 3 8194

# a stopped bay closed and opened again: nothing of it is left
close 4 => done
open 4 => done
look 4 => state 0 0 0 0 0 0 0 0 0 0 0 0 running
grant 4 write 8352 8353 => done
grant 4 read 8202 8203 => done
copy 4 8352 2 => bytes 0000
set 4 9 8 7 6 5 8202 3 1 1 1 1 1 => done
seal 4 => done
turn 4 1 => stopped 0 1 8202
close 4 => done
open 4 => done
look 4 => state 0 0 0 0 0 0 0 0 0 0 0 0 running
seal 4 => done
turn 4 0 => spent 0
turn 4 1 => stopped 0 2 0 1 read 0
close 4 => done
close 3 => done

# ---- words that a bay loads for itself, so under a write grant: a stop stands, though a load takes its cause away
open 4 => done
grant 4 write 8384 8391 => done
load 4 8384 1203 => done
set 4 0 0 0 0 0 8384 0 0 0 0 0 0 => done
seal 4 => done
turn 4 5 => stopped 0 1 8384
load 4 8384 {LDL L 0 7; HRK L 0 0} => done
turn 4 5 => stopped 0 1 8384
look 4 => state 0 0 0 0 0 8384 0 0 0 0 0 0 stopped 1 8384
set 4 0 0 0 0 0 8384 0 0 0 0 0 0 => done
turn 4 5 => stopped 1 3 8386

# a program that alters its own words
load 4 8384 {LDL L 0 18; STB A2 1 0; LDL L 0 1} => done
set 4 0 0 0 0 0 8384 0 0 0 0 0 0 => done
turn 4 5 => stopped 2 3 8388
copy 4 8384 6 => bytes 20125C801201
close 4 => done

# ---- the end of the store and its beginning: a program goes round, a load and a copy do not
image 65532 {LDL L 0 1; ADL L 0 2}
image 0 {ADL L 0 4; HRK L 0 0}
open 6 => done
grant 6 read 65532 65535 => done
grant 6 read 0 3 => done
grant 6 write 65528 65531 => done
grant 6 write 4 7 => done
load 6 65530 AABBCC => refused 7
load 6 65535 AA => refused 7
load 6 65535 AABB => refused 7
load 6 65530 AABB => done
copy 6 65530 6 => bytes AABB20012102
copy 6 65535 1 => bytes 02
copy 6 65535 2 => refused 7
copy 6 65534 3 => refused 7
copy 6 0 5 => bytes 2104120100
set 6 0 0 0 0 0 65532 0 0 0 0 0 0 => done
seal 6 => done
turn 6 9 => stopped 3 3 2
look 6 => state 7 0 0 0 0 2 0 0 0 0 0 0 stopped 3 2
close 6 => done

# the same of bytes that it may write
open 6 => done
grant 6 write 65528 65531 => done
grant 6 write 4 7 => done
load 6 65531 AABB => refused 7
load 6 65528 01020304 => done
copy 6 65528 4 => bytes 01020304
copy 6 65529 4 => refused 7
close 6 => done

# ---- a fullword over three grants, one of them for reading alone
image 9004 {LDW A2 2 0; STW A2 2 0; HRK L 0 0; LDL L 0 90; STB A2 3 0; HRK L 0 0}
open 7 => done
grant 7 write 9000 9001 => done
grant 7 read 9002 9002 => done
grant 7 write 9003 9003 => done
grant 7 read 9004 9020 => done
grant 7 read 9022 9022 => done
grant 7 write 9024 9025 => done
load 7 9000 0102 => done
load 7 9003 04 => done
load 7 9001 AABB => refused 7
load 7 9001 AABBCC => refused 7
load 7 9002 AA => refused 7
load 7 9003 AABB => refused 7
copy 7 9000 4 => bytes 01020004
set 7 0 0 0 9003 0 9004 0 0 0 0 0 0 => done
seal 7 => done
turn 7 9 => stopped 1 2 9006 3 write 9002
look 7 => state 16908292 0 0 9003 0 9006 0 0 0 0 0 0 stopped 2 9006 3 write 9002
copy 7 9000 4 => bytes 01020004

# a sixth grant is as good as the first
set 7 0 0 0 0 9025 9010 0 0 0 0 0 0 => done
turn 7 9 => stopped 2 3 9014
copy 7 9024 2 => bytes 005A
copy 7 9020 3 => refused 7
close 7 => done

# ---- words across two grants, words of which one byte has none, and words half under a write grant
image 9100 {LDL L 0 5; LDL L 0 6; LDL L 0 7; LDL L 0 8; LDL L 0 10}
open 5 => done
grant 5 read 9100 9100 => done
grant 5 read 9101 9102 => done
grant 5 read 9105 9106 => done
grant 5 write 9107 9108 => done
grant 5 read 9109 9109 => done
load 5 9107 0920 => done
set 5 0 0 0 0 0 9100 0 0 0 0 0 0 => done
seal 5 => done
turn 5 9 => stopped 1 2 9102 1 read 9103
set 5 0 0 0 0 0 9104 0 0 0 0 0 0 => done
turn 5 9 => stopped 0 2 9104 1 read 9104
set 5 0 0 0 0 0 9106 0 0 0 0 0 0 => done
turn 5 1 => spent 1
look 5 => state 9 0 0 0 0 9108 0 0 0 0 0 0 running
turn 5 9 => stopped 1 2 9110 1 read 9110
look 5 => state 10 0 0 0 0 9110 0 0 0 0 0 0 stopped 2 9110 1 read 9110
close 5 => done

# ---- all eight at once, and all closed again
open 1 => done
open 2 => done
open 3 => done
open 4 => done
open 5 => done
open 6 => done
open 7 => done
open 8 => done
open 8 => refused 3
open 9 => refused 1
close 1 => done
close 2 => done
close 3 => done
close 4 => done
close 5 => done
close 6 => done
close 7 => done
close 8 => done
"""

SECOND_PART = """
# ---- the whole store: two bays may read it, none may write meanwhile
open 1 => done
grant 1 read 0 65535 => done
open 2 => done
grant 2 read 0 65535 => done
grant 2 write 65535 65535 => refused 6
grant 2 write 0 0 => refused 6
copy 2 1 65536 => refused 7
copy 2 65535 65536 => refused 7
copy 2 0 65536 => bytes of the image
close 2 => done
copy 1 256 16 => bytes 0800000D0008000103FF0400000303FD
set 1 0 0 0 0 0 1048 0 0 0 0 0 0 => done
seal 1 => done
turn 1 9 => stopped 0 3 1048
close 1 => done

# one bay may write it all: its last byte has no next one
open 1 => done
grant 1 write 0 65535 => done
open 2 => done
grant 2 read 30000 30000 => refused 6
copy 1 256 16 => bytes 0800000D0008000103FF0400000303FD
load 1 65535 0102 => refused 7
copy 1 65535 1 => bytes 00
copy 1 0 1 => bytes 00
load 1 65535 AB => done
copy 1 65535 1 => bytes AB
copy 1 65535 2 => refused 7
copy 1 65534 2 => bytes 00AB
copy 1 0 2 => bytes 0000
seal 1 => done
load 1 0 0102 => done
close 1 => done

# closed, it is all zero
grant 2 read 0 65535 => done
copy 2 65535 1 => bytes 00
copy 2 0 512 => zero bytes
copy 2 1024 1600 => zero bytes
close 2 => done
"""

LAST_PART = """
# ---- handles that are held at the end: in preparation, sealed, stopped
open 1 => done
grant 1 write 100 103 => done
load 1 100 01020304 => done
open 2 => done
grant 2 write 104 107 => done
seal 2 => done
open 8 => done
grant 8 read 0 99 => done
seal 8 => done
set 8 0 0 0 0 0 100 0 0 0 0 0 0 => done
turn 8 1 => stopped 0 2 100 1 read 100
"""


def in_words(book, line):
    """The line with the words of its instructions, and the instructions."""
    if "{" not in line:
        return line, ""
    before, listed = line.rstrip("}").split("{")
    instructions = [text.split() for text in listed.split("; ")]
    content = b"".join(machine.put_together(book, name, fmt, int(m), int(d)).to_bytes(2, "big")
                       for name, fmt, m, d in instructions)
    return before + content.hex().upper(), ", ".join(" ".join(words) for words in instructions)


def by_hand_in_image(book, image, text):
    """Puts what the lines `image` say into the image."""
    for line in text.strip().split("\n"):
        if line.startswith("image "):
            _, address, content = in_words(book, line)[0].split()
            content = bytes.fromhex(content)
            assert not any(image[int(address):int(address) + len(content)]), line
            image[int(address):int(address) + len(content)] = content


def by_hand(asked, text):
    for line in text.strip().split("\n"):
        if not line or line.startswith("#"):
            asked.lines.append(line)
            continue
        if line.startswith("image "):
            said, instructions = in_words(asked.book, line)
            asked.remark(f"at {said.split()[1]} the image has " + (instructions or said.split()[2]))
            continue
        call, expected = line.split(" => ")
        call, instructions = in_words(asked.book, call)
        if instructions:
            asked.remark(instructions)
        address, length = (call.split() + ["0", "0"])[2:4]
        if expected == "bytes of the image":
            content = bytearray(asked.image[int(address):int(address) + int(length)])
            for byte in asked.cleared:
                content[byte - int(address)] = 0
            expected = f"bytes {hall.shown(bytes(content))}"
        elif expected == "zero bytes":
            expected = f"bytes {hall.shown(bytes(int(length)))}"
        answer = asked.ask(call)
        assert answer == expected, (call, answer, expected)


# ---------------------------------------------------------------- the three jobs


def three_jobs(asked):
    """The sample's jobs over their first records, by turns of one budget."""
    asked.remark()
    asked.remark("---- the sample's three jobs, their first records, turn by turn")
    jobs = [machine.parse_job(read(name).decode("ascii"))
            for name in ("calibrate.job", "undo.job", "smooth.job")]
    for job in jobs:
        assert asked.ask(f"open {job.bay}") == "done"
        for g in job.grants:
            kind = "write" if g.write else "read"
            assert asked.ask(f"grant {job.bay} {kind} {g.first} {g.last}") == "done"
    for job in jobs:
        record = machine.parted(job, read(job.records))[0]
        assert asked.ask(f"load {job.bay} {job.input[0]} {record.hex().upper()}") == "done"
        assert asked.ask(f"set {job.bay} {job.registers}") == "done"
        assert asked.ask(f"seal {job.bay}") == "done"
    halted = set()
    while len(halted) < len(jobs):
        for job in jobs:
            if asked.ask(f"turn {job.bay} {job.turns[1]}").startswith("stopped"):
                halted.add(job.bay)
    for job in jobs:
        address, size = job.output[0], 2 * job.output[1]
        expected = read(job.results.replace(".out", ".rec"))[:size]
        assert asked.ask(f"copy {job.bay} {address} {size}") == f"bytes {expected.hex().upper()}"
        assert asked.ask(f"look {job.bay}").split()[-3:-1] == ["stopped", "3"]
    for job in jobs:
        assert asked.ask(f"close {job.bay}") == "done"


# ---------------------------------------------------------------- at random

EDGES16 = [0, 1, 2, 3, 5, 32767, 32768, 65533, 65534, 65535]
EDGES32 = [0, 1, 2, 255, 32767, 32768, 65535, 2 ** 31 - 1, 2 ** 31, 2 ** 32 - 32768, 2 ** 32 - 2,
           2 ** 32 - 1]
SHORE = [(256, 511), (1024, 2047), (1536, 2559), (2560, 3071)]
SHORE_STARTS = [1024, 1536, 2048, 2560]
# where the image has programs made at random, each with an undefined word at its end
LIBRARIES = [(4500, 4599), (6100, 7999), (14000, 14199), (18100, 19999), (32600, 34599),
             (40000, 41999), (51000, 52999), (62600, 64299)]
UNDEFINED = b"\x12\x03"  # in every book
OPERATIONS = [0, 9, 10, 11, 14]


class Choices:
    """What is chosen at random, programs among it."""

    def __init__(self, book, seed):
        self.book = book
        self.rng = random.Random(seed)

    def chance(self, percent):
        return self.rng.randrange(100) < percent

    def some(self, *weighted):
        """One of the choices, each with its weight."""
        at = self.rng.randrange(sum(weight for weight, _ in weighted))
        for weight, choice in weighted:
            if at < weight:
                return choice
            at -= weight
        raise AssertionError

    def bytes(self, count):
        return bytes(self.rng.randrange(256) for _ in range(count))

    def word(self, name, fmt="L", m=0, d=0):
        return machine.put_together(self.book, name, fmt, m, d).to_bytes(2, "big")

    def instruction(self, low):
        """One instruction that a program might well have, as its word; low says
        whether the program may touch the sample's constants."""
        rng, word = self.rng, self.word
        how = self.some((48, "A"), (22, "L"), (8, "bit"), (9, "branch"), (3, "B"), (6, "string"),
                        (3, "mode"), (1, "any"))
        if how == "A":
            name = rng.choice(machine.A_NAMES)
            if name in ("BI", "BLI") and self.chance(60):
                name = "LDX"
            fmt = self.some((16 if low else 1, "A1"), (45, "A2"), (1, "A3"), (14, "A4"), (30, "A5"))
            m = rng.choice([0, 0, 0, 1, 2, 2, 3, 3]) if fmt in machine.HAS_M else 0
            if fmt == "A5" and m == 1:
                m = 2
            d = rng.randrange(6)
            if fmt == "A1":
                d = 256 // machine.item_length(name) % 256 + rng.randrange(4)
            return word(name, fmt, m, d)
        if how == "L":
            return word(rng.choice(["LDL", "ADL", "SBL", "CPL", "NL", "ML"]), "L", 0,
                        rng.choice([0, 1, 2, 3, 7, 127, 128, 255]))
        if how == "bit":
            control = rng.choice(OPERATIONS) * 16 + rng.randrange(16)
            if self.chance(10):
                control = rng.randrange(256)
            return word("BITL" if self.chance(80) else "BITX", "L", 0, control)
        if how == "branch":
            return word(rng.choice(machine.CONDITIONAL), "L", 0, rng.randrange(-5, 4))
        if how == "B":
            return word(rng.choice(["B", "B", "BL"]), "B", 0, rng.randrange(-4, 3))
        if how == "string":
            return word(rng.choice(["MBS", "MHS", "CPBS", "TRBS", "SCBS"]))
        if how == "mode":
            return word(self.some((30, "SIM"), (15, "SFM"), (20, "RK"), (20, "SFN"), (15, "HRK")))
        return self.bytes(2)

    def program(self, low, most):
        """The bytes of a program of at most so many words."""
        rng, word = self.rng, self.word
        how = self.some((72, "sensible"), (13, "loop"), (11, "string"), (4, "any"))
        most = max(1, min(most, 12))
        if how == "any":
            return self.bytes(2 * rng.randrange(1, min(most, 6) + 1))
        if how == "loop" and most >= 3:
            # a, x or y move on and on, until a budget or an overflow ends it
            body = rng.randrange(1, min(most, 5) - 1)
            words = [rng.choice([word("ADL", "L", 0, rng.choice([1, 255])), word("SBL", "L", 0, 3),
                                 word("ADX", "A2", 1, 0), word("LDX", "A2", 0, 0),
                                 word("STX", "A2", 0, 1), word("ML", "L", 0, 3),
                                 word("ST", "A2", 0, 0), word("NX", "A2", 1, 1)])
                     for _ in range(body)]
            back = rng.choice([("B", "B"), ("BNZ", "L"), ("BNN", "L"), ("B", "B")])
            words.append(word(*back, 0, -body - 1))
            return b"".join(words) + word("HRK")
        if how == "string":
            return word(rng.choice(["MBS", "MHS", "CPBS", "TRBS", "SCBS"])) + word("HRK")
        words = [self.instruction(low) for _ in range(rng.randrange(1, most + 1))]
        end = self.some((45, "halt"), (35, "again"), (20, "on"))
        if end == "halt":
            words.append(word("HRK"))
        elif end == "again":
            words.append(word("B", "B", 0, -len(words) - 1))
        return b"".join(words[:most])

    def programs(self, first, last):
        """Programs one after the other, and where each begins."""
        content, starts = b"", []
        while (room := (last - 1 - first - len(content)) // 2) > 0:
            starts.append(first + len(content))
            content += self.program(self.chance(4), room)
        return content[:last - 1 - first] + UNDEFINED, starts


class Histories(Choices):
    """Bays that live side by side. A life is a generator of calls, which gets
    the answer to each; the next call is that of any bay, or one of no plan.
    starts has the addresses of the programs that the image has."""

    def __init__(self, asked, seed, starts):
        super().__init__(asked.book, seed)
        self.asked = asked
        self.bays = asked.hall.bays
        self.starts = starts
        self.zone = (0, 65536)
        self.lives = {}

    # -- addresses and bytes

    def clip(self, address):
        return min(max(address, 0), 65535)

    def all_grants(self):
        return [g for bay in self.bays.values() for g in bay.grants]

    def own(self, n, write=False, size=1):
        if n not in self.bays:
            return []
        return [g for g in self.bays[n].grants
                if (g.write or not write) and g.last - g.first + 1 >= size]

    def in_zone(self):
        return self.clip(self.rng.randrange(*self.zone))

    def near(self, g):
        """An address at an end of a grant, or anywhere within."""
        rng = self.rng
        return self.clip(rng.choice([
            g.first, g.last, g.first - 1, g.last + 1, g.first + rng.randrange(4),
            g.last - rng.randrange(4), rng.randrange(g.first, g.last + 1),
            rng.randrange(g.first, g.last + 1)]))

    # -- grants

    def range(self):
        """First and last of a range to be granted."""
        rng, held = self.rng, self.all_grants()
        how = self.some((40, "fresh"), (22, "beside"), (8, "equal"), (8, "over"), (6, "reversed"),
                        (6, "edge"), (10, "shore"))
        if how == "fresh" or (not held and how in ("beside", "equal", "over")):
            first = self.in_zone()
            return first, self.clip(first + rng.choice([0, 0, 1, 2, 3, 7, 31, 90, 200]))
        if how == "beside":
            g, length = rng.choice(held), rng.choice([1, 1, 2, 3, 4, 8, 40])
            if self.chance(50):
                first = self.clip(g.last + rng.choice([0, 1, 1, 1, 2]))
                return first, self.clip(first + length - 1)
            last = self.clip(g.first - rng.choice([0, 1, 1, 1, 2]))
            return self.clip(last - length + 1), last
        if how == "equal":
            g = rng.choice(held)
            return g.first, g.last
        if how == "over":
            g = rng.choice(held)
            return self.clip(g.first - rng.randrange(3)), self.clip(g.last + rng.randrange(3))
        if how == "reversed":
            last = self.in_zone() % 65535
            return self.clip(last + rng.choice([1, 1, 2, 300])), last
        if how == "edge":
            return rng.choice([(0, 0), (0, 3), (65535, 65535), (65532, 65535), (0, 65535),
                               (1, 65534), (65535, 0), (1, 0), (65535, 65534)])
        return rng.choice(SHORE)

    def grant(self, n, kind=None, first=None, last=None):
        if first is None:
            first, last = self.range()
        # the image's programs stay: closing would make them zero
        if kind is None and self.has_code(first, last):
            kind = "read"
        if kind is None:
            kind = self.some((55, "write"), (45, "read"))
        return f"grant {n} {kind} {first} {last}"

    def has_code(self, first, last):
        return any(first <= end and last >= begin for begin, end in [(256, 3071)] + LIBRARIES)

    def data(self, most):
        """First and last of a range of some size in the zone without programs."""
        for _ in range(20):
            first = self.in_zone()
            last = self.clip(first + self.rng.randrange(24, most))
            if not self.has_code(first, last):
                break
        return first, last

    def library(self):
        """A library of the zone, or one of them all, or part of it."""
        rng = self.rng
        near = [(first, last) for first, last in LIBRARIES
                if self.zone[0] - 2500 < first < self.zone[1] + 2500]
        first, last = rng.choice(near or LIBRARIES)
        how = self.some((80, "whole"), (10, "beginning"), (10, "end"))
        if how == "beginning":
            return first, rng.randrange(first + 1, last)
        if how == "end":
            return rng.randrange(first + 1, last), last
        return first, last

    def readable(self, n):
        """The programs of the image that the bay may read, or begin with."""
        return [s for s in SHORE_STARTS + self.starts
                if any(g.has(s) and not g.write for g in self.own(n))]

    # -- registers

    def aim(self, n, well=False):
        """An address for y, z or l, well aimed or not."""
        rng, own, held = self.rng, self.own(n), self.all_grants()
        wide = self.own(n, write=True, size=40)
        if well and wide:
            g = rng.choice(wide)
            return rng.randrange(g.first + 12, g.last - 16)
        how = self.some((60, "within"), (22, "near"), (6, "other"), (12, "edge"))
        if how == "within" and own:
            g = rng.choice(self.own(n, write=self.chance(75)) or own)
            return rng.randrange(g.first, g.last + 1)
        if how == "near" and own:
            return self.near(rng.choice(own))
        if how == "other" and held:
            return self.near(rng.choice(held))
        return rng.choice(EDGES16)

    def set(self, n, s, y=None, z=None, l=None):
        """All registers and markers; the addresses not given are aimed."""
        rng, well = self.rng, self.chance(72)
        a = rng.choice(EDGES32) if self.chance(70) else rng.randrange(2 ** 32)
        b = rng.choice([0, 0, 1, 2 ** 32 - 1])
        x = rng.choice([0, 1, 2, 3, 4, 5, 65535, 65534, 65533, 65532])
        if not well:
            x = rng.choice(EDGES16) if self.chance(70) else rng.randrange(65536)
            if self.chance(20):
                s = self.aim(n)
            elif self.chance(12):
                s |= 1
        y, z, l = (self.aim(n, well) if given is None else given for given in (y, z, l))
        markers = [int(self.chance(4))] + [rng.randrange(2) for _ in range(4)]
        return f"set {n} " + " ".join(str(v) for v in (a, b, x, y, z, s, l, *markers))

    # -- loads, copies, turns

    def load(self, n):
        rng, held = self.rng, self.own(n, write=True) or self.own(n) or self.all_grants()
        address = self.near(rng.choice(held)) if held and self.chance(92) else self.in_zone()
        count = rng.choice([0, 1, 1, 2, 2, 3, 4, 5, 8, 11])
        return f"load {n} {address} {hall.shown(self.bytes(count))}"

    def copy(self, n):
        rng, held = self.rng, self.own(n) or self.all_grants()
        address = self.near(rng.choice(held)) if held and self.chance(92) else self.in_zone()
        return f"copy {n} {address} {rng.choice([0, 1, 1, 2, 3, 4, 6, 10, 16, 24])}"

    def turn(self, n):
        rng = self.rng
        budget = self.some(
            (7, 0), (16, 1), (30, rng.randrange(2, 10)), (28, rng.randrange(10, 100)),
            (13, rng.randrange(100, 3000)), (6, rng.randrange(3000, 65536)))
        return f"turn {n} {budget}"

    def stray(self):
        """A call that belongs to no plan."""
        n = self.rng.randrange(1, 9)
        if self.chance(4):
            n = self.rng.choice([0, 9, 10, 265])
        call = self.some((14, "open"), (20, "grant"), (16, "load"), (3, "set"), (4, "seal"),
                         (10, "turn"), (12, "look"), (14, "copy"), (3, "close"))
        if call in ("open", "seal", "look", "close"):
            return f"{call} {n}"
        if call == "set":
            return self.set(n, self.aim(n))
        return {"grant": self.grant, "load": self.load, "turn": self.turn,
                "copy": self.copy}[call](n)

    # -- lives

    def is_at(self, n, stage):
        """Stray calls seal and close, so that a plan may be overtaken."""
        return n in self.bays and self.bays[n].stage == stage

    def life(self, n):
        rng = self.rng
        if n in self.bays and self.chance(80):
            yield f"close {n}"
        if (yield f"open {n}") != "done":
            return
        if self.chance(8):
            yield from self.institute(n)
            return
        plan = self.some((52, self.mixed), (16, self.chain), (8, self.round), (12, self.shore),
                         (6, self.bare), (6, self.crowded))
        code = None
        for call in plan(n):
            yield call
        if self.is_at(n, PREPARING) and self.chance(94):
            code = yield from self.furnish(n)
            if self.chance(30):
                yield rng.choice([f"look {n}", self.copy(n), self.load(n)])
        if self.chance(8):
            yield f"close {n}"
            return
        if self.is_at(n, PREPARING):
            yield f"seal {n}"
        rounds = rng.randrange(3, 11) if self.own(n, write=True, size=16) else 1
        for _ in range(rounds):
            if not self.is_at(n, SEALED):
                break
            code = yield from self.round_of_turns(n, code)
        yield f"close {n}"
        if self.chance(50):
            # what is left where the bay was
            yield from self.afterwards(n)

    def mixed(self, n):
        """Programs to be read, a write grant of some size, and others of all kinds."""
        if self.chance(97):
            yield self.grant(n, "read", *self.library())
        for _ in range(4):
            yield self.grant(n, "write", *self.data(300))
            if self.own(n, write=True, size=16):
                break
        for _ in range(self.rng.randrange(0, 4)):
            yield self.grant(n)

    def chain(self, n):
        """Small grants side by side, of a program or of data."""
        if self.chance(50):
            at = self.rng.choice(self.starts)
            for length in self.rng.choices([1, 2, 2, 3, 4, 5, 24], k=self.rng.randrange(2, 5)):
                yield self.grant(n, "read", at, at + length - 1)
                at += length + self.chance(8)
        else:
            yield self.grant(n, "read", *self.library())
        at = self.data(60)[0] % 65000
        for i in range(self.rng.randrange(3, 7)):
            length = self.rng.choice([1, 1, 2, 3, 4, 5, 24])
            kind = "write" if i == 0 or self.chance(65) else "read"
            if at + length <= 65536 and not self.has_code(at, at + length - 1):
                yield self.grant(n, kind, at, at + length - 1)
            at += length + self.chance(8)

    def round(self, n):
        """The two ends of the store."""
        low = self.rng.choice([3, 7, 40, 255])
        high = self.rng.choice([65535, 65534, 65532, 65500, 65400])
        calls = [self.grant(n, "write", high, 65535), self.grant(n, "write", 0, low), self.grant(n),
                 self.grant(n, "read", *self.library())]
        self.rng.shuffle(calls)
        yield from calls

    def shore(self, n):
        """The sample's code, to be read, and areas to be written."""
        for first, last in SHORE:
            if self.chance(85):
                yield self.grant(n, "read", first, last)
        for _ in range(2):
            yield self.grant(n, "write", *self.data(64))

    def bare(self, n):
        """Nothing to write, or nothing at all."""
        if self.chance(30):
            yield self.grant(n, "read", *self.library())
        for _ in range(self.rng.choice([0, 0, 1, 3])):
            first, last = self.range()
            yield self.grant(n, "read", first, last)

    def crowded(self, n):
        """More than it may have."""
        yield self.grant(n, "read", *self.library())
        for _ in range(self.rng.randrange(7, 11)):
            first, last = self.fresh_or_any()
            yield self.grant(n, self.rng.choice(["read", "read", "write"]), first, last)

    def institute(self, n):
        """One of the sample's programs over areas of its own, to its end or nearly."""
        rng = self.rng
        start = rng.choice([1024, 2048, 2560])
        for first, last in ((256, 511), (1024, 2559), (2560, 3071)):
            yield self.grant(n, "read", first, last)
        y = 4096
        while self.has_code(y, y + 4105):
            y = rng.randrange(3100, 60000) // 2 * 2
        z, l = y + 2048, y + 4096
        whole = [(y, y + 2047), (z, z + 2047), (l, l + 9)]
        if self.chance(50):
            whole = [(y, l + 9)]
        for first, last in whole:
            yield self.grant(n, "write", first, last)
        if len(self.own(n, write=True)) < len(whole):
            yield f"close {n}"
            return
        for _ in range(rng.randrange(1, 4)):
            values = [rng.randrange(-3328, 3327) for _ in range(rng.randrange(1, 24))]
            if start == 1024:
                values = [v % 4096 for v in values]
            content = b"".join((v % 65536).to_bytes(2, "big") for v in values)
            yield f"load {n} {y + 2 * rng.randrange(1000)} {content.hex().upper()}"
        registers = machine.Registers(y=y, z=z, s=start, l=l)
        yield f"set {n} {registers}"
        yield f"seal {n}"
        for _ in range(rng.randrange(3, 14)):
            answer = yield f"turn {n} {rng.randrange(500, 9000)}"
            if self.chance(30):
                yield f"look {n}"
            if not answer.startswith("spent"):
                break
        yield f"look {n}"
        for _ in range(3):
            yield f"copy {n} {z + rng.randrange(2000)} {rng.randrange(1, 48)}"
        yield f"close {n}"

    def fresh_or_any(self):
        first, last = self.range()
        if self.chance(60):
            first = self.in_zone()
            last = self.clip(first + self.rng.randrange(3))
        return (4898, 4899) if self.has_code(first, last) else (first, last)

    def furnish(self, n):
        """A program, data and registers; the program's address comes back.

        The program is one of the image's, or seldom one that the bay loads."""
        rng, code = self.rng, None
        work = self.own(n, write=True, size=4)
        starts = self.readable(n)
        if starts and self.chance(97):
            code = rng.choice(starts)
        elif work and self.chance(70):
            g = max(work, key=lambda g: g.last - g.first) if self.chance(85) else rng.choice(work)
            even = g.first + g.first % 2
            room = (g.last + 1 - even) // 2
            code = even + 2 * (rng.randrange(room) if self.chance(25) else 0)
            low = any(g.first <= 256 and g.last >= 271 for g in self.own(n))
            content = self.program(low, (g.last + 1 - code) // 2)
            yield f"load {n} {code} {hall.shown(content)}"
        l = None
        if self.own(n, write=True, size=40) and self.chance(45):
            # pointers at l, for formats A4
            l = self.aim(n, well=True) // 2 * 2
            pointers = b"".join(self.aim(n, well=True).to_bytes(2, "big") for _ in range(4))
            if code is None or not code <= l <= code + 24:
                yield f"load {n} {l} {hall.shown(pointers)}"
        for _ in range(rng.choice([0, 0, 1, 1, 2])):
            yield self.load(n)
        if code is None or self.chance(6):
            code = rng.choice(starts) if starts and self.chance(80) else self.aim(n)
        yield self.set(n, code, l=l)
        return code

    def round_of_turns(self, n, code):
        rng = self.rng
        for _ in range(rng.choice([1, 2, 2, 3, 4])):
            answer = yield self.turn(n)
            if self.chance(40):
                yield f"look {n}"
            if self.chance(25):
                yield self.copy(n)
            if answer.startswith("stopped"):
                if self.chance(25):
                    yield f"turn {n} {rng.choice([0, 0, 1, 1, 7, 65535])}"
                if self.chance(20):
                    yield self.load(n)
                if self.chance(15):
                    yield self.turn(n)
                break
        if not self.is_at(n, SEALED):
            return code
        if self.chance(55):
            code = yield from self.furnish(n)
        elif self.chance(75):
            starts = self.readable(n)
            if starts and self.chance(60):
                code = rng.choice(starts)
            yield self.set(n, code if code is not None else self.aim(n))
        else:
            yield self.load(n)
        return code

    def afterwards(self, n):
        """Some of the same bytes, granted again."""
        if (yield f"open {n}") != "done":
            return
        first = self.in_zone()
        yield self.grant(n, "read", first, self.clip(first + self.rng.randrange(400)))
        yield self.grant(n, "read", *self.rng.choice(SHORE))
        yield f"look {n}"
        for _ in range(2):
            yield self.copy(n)
        yield f"close {n}"

    # -- a history

    def history(self, calls, start, span):
        """So many calls over a zone of the store, then all bays are closed."""
        asked, rng = self.asked, self.rng
        asked.remark()
        asked.remark(f"---- at random, mostly from {start} to {start + span - 1}")
        self.zone = (start, start + span)
        self.lives = {}
        answers = {}
        end = len(asked.answers) + calls
        while len(asked.answers) < end:
            if self.chance(12):
                asked.ask(self.stray())
                continue
            n = rng.randrange(1, 9)
            if n not in self.lives:
                self.lives[n] = self.life(n)
                answers[n] = None
            try:
                answers[n] = asked.ask(self.lives[n].send(answers[n]))
            except StopIteration:
                del self.lives[n]
        for n in range(1, 9):
            asked.ask(f"look {n}")
            asked.ask(f"close {n}")
        assert not self.bays


# ---------------------------------------------------------------- the table


def table(asked):
    calls = list(hall.WORDS)
    kinds = sorted({kind for _, _, kind in asked.counts})
    print(f"{len(asked.answers)} calls, {asked.steps} steps")
    for call in calls:
        for stage in ("free", PREPARING, SEALED):
            found = {k: asked.counts[call, stage, k] for k in kinds if asked.counts[call, stage, k]}
            if found:
                listed = ", ".join(f"{k} {count}" for k, count in found.items())
                print(f"  {call:6}{stage:10} {sum(found.values()):5}: {listed}")
    for name, count in sorted(asked.stops.items()):
        print(f"  stop, {name}: {count}")

    # everything that can occur does, and nothing else
    both = (PREPARING, SEALED)
    possible = {("open", "free", "done"), ("open", "free", "refused 1")}
    possible |= {("open", s, "refused 3") for s in both}
    possible |= {(c, "free", "no handle") for c in calls if c != "open"}
    possible |= {("grant", PREPARING, k) for k in ("done", "refused 4", "refused 5", "refused 6")}
    possible |= {("grant", SEALED, "no handle"), ("seal", SEALED, "no handle"),
                 ("turn", PREPARING, "no handle"), ("seal", PREPARING, "done"),
                 ("turn", SEALED, "spent"), ("turn", SEALED, "stopped"),
                 ("look", PREPARING, "running"), ("look", SEALED, "running"),
                 ("look", SEALED, "stopped")}
    for stage in both:
        possible |= {("load", stage, "done"), ("load", stage, "refused 7"),
                     ("copy", stage, "bytes"), ("copy", stage, "refused 7"),
                     ("set", stage, "done"), ("close", stage, "done")}
    assert set(asked.counts) == possible, set(asked.counts) ^ possible
    assert set(asked.stops) == {
        "cause 1", "cause 2 place 1 read", "cause 2 place 2 read", "cause 2 place 3 read",
        "cause 2 place 3 write", "cause 3", "cause 4",
        "standing, budget 0", "standing, budget above 0"}


def made_image(book):
    """The sample's image with the programs of the script beside it, and where those
    that are made at random begin."""
    image, starts = bytearray(read("shore.img")), []
    by_hand_in_image(book, image, FIRST_PART)
    choices = Choices(book, 4081)
    for first, last in LIBRARIES:
        content, begins = choices.programs(first, last)
        assert len(content) <= last + 1 - first and not any(image[first:last + 1])
        image[first:first + len(content)] = content
        starts += begins
    return bytes(image), starts


def main():
    book = machine.read_book(read("shore.book"))
    image, starts = made_image(book)
    asked = Asked(image, book)
    asked.remark("made by tools/oracle/make_scripts.py, not by hand")
    asked.remark()
    by_hand(asked, FIRST_PART)
    three_jobs(asked)
    histories = Histories(asked, 4082, starts)
    for calls, start, span in ((1500, 3800, 1200), (1500, 30000, 2500), (1400, 0, 65536),
                               (1200, 50001, 800), (1000, 64400, 1136), (1200, 12000, 6000)):
        histories.history(calls, start, span)
    asked.remark()
    by_hand(asked, SECOND_PART)
    histories.history(157, 0, 3000)
    asked.remark()
    by_hand(asked, LAST_PART)

    text = "".join(line + "\n" for line in asked.lines)
    assert hall.answers(book, image, text) == asked.answers
    assert len(text) <= MOST_BYTES and asked.steps <= MOST_STEPS
    place = os.path.join(CRATES, "calls")
    os.makedirs(os.path.join(place, "data"), exist_ok=True)
    given = "".join(answer + "\n" for answer in asked.answers)
    for name, content in (("stdin", text), ("stdout", given), ("args", "shore.book\nscript.img\n")):
        with open(os.path.join(place, name), "w", newline="") as file:
            file.write(content)
    with open(os.path.join(place, "data", "script.img"), "wb") as file:
        file.write(image)
    table(asked)
    print(f"stdin {len(text)} bytes, stdout {len(given)} bytes")


if __name__ == "__main__":
    main()
