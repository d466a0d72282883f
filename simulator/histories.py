#!/usr/bin/env python3
"""Histories that seek the corners, made from numbers.

    python3 simulator/histories.py                       simulate and audit the set, report what it covers
    python3 simulator/histories.py --count N --first S    the same for the numbers S to S + N - 1
    python3 simulator/histories.py --print SEED          write one history to standard output

A number always gives the same history. The set is the numbers 1 to 600. The run
ends with status 1 if an audit fails, or if a refusal or fault number is
printed by no history of the set.

Refusals 52 and 53 cannot arise from a history in the text format: it has one
link, and `filed` and `back` spend the slip that this link just handed out.
Refusals 72 and 81 to 86 belong to parts of a link; no line of a history
prints them. test_simulator.py tries 52 and 53 directly.
"""

import argparse
import os
import sys
import time

sys.path.insert(0, os.path.dirname(os.path.abspath(__file__)))

import simulate
from audit import Audit, AuditFailure

FIRST_SEED = 1
COUNT = 600

REFUSALS = ("11", "12", "13", "14", "21", "22", "23", "31", "32", "33", "34 71", "35", "41", "42")
FAULTS = ("60", "61", "62", "63", "64")
WORDS = ("link", "sess", "open", "arr", "at", "figs", "tots", "take", "filed", "back")
LAST_TICK = 17_592_186_044_416
BIG_NUMBERS = (2 ** 32 - 1, 2 ** 32, 2 ** 63 - 1, 2 ** 63, 2 ** 64 - 1)


class Dice:
    """A small generator of its own, so that seeds give the same anywhere."""

    def __init__(self, seed):
        self.state = seed

    def below(self, limit):
        self.state = (self.state + 0x9E3779B97F4A7C15) % 2 ** 64
        z = self.state
        z = (z ^ (z >> 30)) * 0xBF58476D1CE4E5B9 % 2 ** 64
        z = (z ^ (z >> 27)) * 0x94D049BB133111EB % 2 ** 64
        return (z ^ (z >> 31)) % limit

    def among(self, low, high):
        """From low to high, both included."""
        return low + self.below(high - low + 1)

    def one_of(self, things):
        return things[self.below(len(things))]

    def chance(self, percent):
        return self.below(100) < percent


class Writer:
    """Writes the lines of a history and remembers its clock."""

    def __init__(self, dice):
        self.dice = dice
        self.lines = []
        self.clock = 0
        self.next_tag = 100

    def line(self, *fields):
        self.lines.append(" ".join(str(field) for field in fields))

    def open(self, M, capacity, weights):
        self.M = M
        self.sessions = len(weights)
        self.line("link", self.dice.one_of((0, 1, 7, 65_535)), M, capacity, weights[0])
        for weight in weights[1:]:
            self.line("sess", weight)
        self.line("open")

    def arr(self, session, length):
        tag = self.next_tag
        self.next_tag += 1
        if self.dice.chance(2):
            tag = self.dice.one_of(BIG_NUMBERS)
        self.line("arr", session, length, tag)

    def any_arr(self, most=None):
        most = min(self.M, most or self.M)
        length = self.dice.one_of((1, most, self.dice.among(1, most), self.dice.among(1, most)))
        self.arr(self.dice.below(self.sessions), length)

    def move(self, ticks):
        self.clock = min(self.clock + ticks, LAST_TICK)
        self.line("at", self.clock)

    def settle(self, count=1):
        for _ in range(count):
            self.line("take")
            self.line(self.dice.one_of(("filed", "filed", "back")))

    def look(self):
        if self.dice.chance(30):
            self.line("tots")
        else:
            self.line("figs", self.dice.below(self.sessions))

    def look_everywhere(self):
        for session in range(self.sessions):
            self.line("figs", session)
        self.line("tots")

    def refused_call(self):
        """A call that will be refused, or is just inside the border."""
        d = self.dice
        kind = d.below(7)
        if kind == 0:
            self.line("arr", d.one_of((self.sessions, self.sessions + 1, 64, 2 ** 64 - 1)), 0, 0)
        elif kind == 1:
            self.line("arr", d.below(self.sessions), 0, 5)
        elif kind == 2:
            self.line("arr", d.below(self.sessions), d.one_of((self.M + 1, 65_536, 2 ** 32, 2 ** 64 - 1)), 5)
        elif kind == 3:
            self.line("figs", d.one_of((self.sessions, 64, 2 ** 64 - 1)))
        elif kind == 4:
            self.line("at", max(self.clock - d.among(0, 2), 0))
        elif kind == 5:
            self.line("at", d.one_of((LAST_TICK + 1, 2 ** 63, 2 ** 64 - 1)))
        else:
            self.line(d.one_of(("take", "filed", "back")))

    def any_call(self, longest_move):
        d = self.dice
        roll = d.below(100)
        if roll < 45:
            self.any_arr()
        elif roll < 65:
            self.move(d.among(0, longest_move))
        elif roll < 78:
            self.look()
        elif roll < 90:
            self.settle()
        elif roll < 95:
            self.line(d.one_of(("take", "filed", "back")))
        else:
            self.refused_call()

    def text(self):
        return "".join(line + "\n" for line in self.lines).encode()


def some_weights(d, sessions, heaviest):
    return [d.among(1, heaviest) for _ in range(sessions)]


# The kinds of histories. Each gets a Dice and answers the bytes of a history.


def small(d):
    """A small link, any calls."""
    w = Writer(d)
    w.open(d.among(1, 20), d.among(1, 8), some_weights(d, d.among(1, 5), d.one_of((1, 2, 5))))
    for _ in range(d.among(10, 150)):
        w.any_call(longest_move=w.M)
    return w.text()


def tiny(d):
    """Lengths of 1 to 3, so that ties and ends of packets fall together."""
    w = Writer(d)
    w.open(d.among(1, 3), d.among(1, 3), some_weights(d, d.among(1, 3), 2))
    for _ in range(d.among(20, 150)):
        w.any_call(longest_move=2)
    return w.text()


def rush(d):
    """Many packets of many sessions at one clock, then all of them leave."""
    w = Writer(d)
    w.open(d.among(1, 12), d.among(20, 200), some_weights(d, d.among(2, 64), d.one_of((1, 3, 60))))
    for _ in range(d.among(1, 3)):
        for _ in range(d.among(20, 60)):
            w.any_arr()
        w.move(d.among(0, 400))
        w.look()
    w.move(2_000)
    w.settle(d.among(5, 40))
    w.look_everywhere()
    return w.text()


def all_sessions(d):
    """64 sessions, each with packets; some of them silent for a while."""
    w = Writer(d)
    w.open(d.among(2, 9), d.one_of((1, 64, 1_024)), some_weights(d, 64, d.one_of((1, 3, 3, 64))))
    w.refused_call()
    for _ in range(d.among(2, 5)):
        for session in range(64):
            if d.chance(40):
                w.arr(session, d.among(1, w.M))
        w.move(d.among(0, 150))
    w.look_everywhere()
    return w.text()


def heavy_weights(d):
    """Weights that add up to 4,096 or nearly; a light session alone strides far."""
    w = Writer(d)
    halves = d.among(1, 4_095)
    weights = d.one_of((
        [4_096], [4_095], [4_095, 1], [1, 4_095], [64] * 64, [halves, 4_096 - halves],
        [1] * 63 + [4_033], [4_033] + [1] * 63, [1, 4_094, 1], [2_048, 1, 2_047]))
    w.open(d.among(1, 30), d.among(1, 10), weights)
    for _ in range(d.among(5, 30)):
        roll = d.below(10)
        if roll < 5:
            w.any_arr()
        elif roll < 8:
            w.move(d.among(0, 12))
        else:
            w.look()
    w.move(60)
    w.look_everywhere()
    w.settle(3)
    return w.text()


def silence(d):
    """Some sessions busy while the others are silent, and then return."""
    w = Writer(d)
    w.open(d.among(3, 20), d.among(4, 30), some_weights(d, d.among(2, 5), d.one_of((1, 4, 9))))
    for _ in range(d.among(3, 7)):
        busy = d.below(w.sessions)
        for _ in range(d.among(1, 10)):
            w.arr(busy, d.among(1, w.M))
            if d.chance(40):
                w.move(d.among(1, w.M))
        returning = d.below(w.sessions)
        w.arr(returning, d.among(1, w.M))
        if d.chance(40):
            w.move(d.one_of((100, 1_000, 10 ** 6, 10 ** 9, 10 ** 12)) + d.below(50))
            w.arr(d.below(w.sessions), d.among(1, w.M))
        w.look()
    w.move(300)
    w.look_everywhere()
    w.settle(3)
    return w.text()


def last_tick(d):
    """To the last tick and past it, with packets on the way and at the end."""
    w = Writer(d)
    w.open(d.among(1, 20), d.among(1, 8), some_weights(d, d.among(1, 4), 3))
    for _ in range(d.below(4)):
        w.any_arr()
    w.move(LAST_TICK - d.among(0, 40))
    for _ in range(d.among(5, 30)):
        w.any_call(longest_move=8)
    w.line("at", d.one_of((LAST_TICK - 1, LAST_TICK, LAST_TICK + 1, 2 ** 64 - 1)))
    w.line("at", LAST_TICK)
    w.line("at", LAST_TICK)
    w.line("at", LAST_TICK + 1)
    w.line("at", LAST_TICK - 1)
    w.any_arr()
    w.look_everywhere()
    w.settle(2)
    return w.text()


def tight(d):
    """A long packet just started when short ones arrive: the bounds are attained."""
    w = Writer(d)
    weights = d.one_of(([1, 1], [1, 9], [3, 1, 7], [1, 1, 1, 1], [20, 1]))
    w.open(d.among(5, 60), d.among(2, 20), weights)
    for _ in range(d.among(2, 5)):
        w.arr(d.below(w.sessions), w.M)
        w.move(1)
        for _ in range(d.among(1, 4)):
            w.arr(d.below(w.sessions), d.one_of((1, 1, w.M, d.among(1, w.M))))
        w.look_everywhere()
        w.move(w.M - d.among(0, 2))
        w.look_everywhere()
        w.move(d.one_of((0, 1, w.M, 400)))
    w.settle(d.below(6))
    return w.text()


def steady(d):
    """Arrivals at about the speed of the line, for a long time."""
    w = Writer(d)
    w.open(d.among(10, 60), d.among(3, 40), some_weights(d, d.among(3, 12), d.one_of((1, 4, 30))))
    for _ in range(d.among(40, 150)):
        w.any_arr(most=30)
        w.move(d.among(0, 28))
        if d.chance(15):
            w.look()
        if d.chance(60):
            w.settle()
        if d.chance(5):
            w.refused_call()
    w.look_everywhere()
    return w.text()


def backlog(d):
    """One session with a deep queue, others that come and go; little room."""
    w = Writer(d)
    w.open(d.among(3, 12), d.among(1, 4), some_weights(d, d.among(2, 4), 6))
    deep = d.below(w.sessions)
    for _ in range(d.among(20, 50)):
        w.arr(deep, w.M)
        if d.chance(30):
            w.any_arr()
        if d.chance(60):
            w.move(d.among(1, w.M))
        if d.chance(20):
            w.look()
    w.move(d.among(0, 100))
    w.settle(d.among(0, 8))
    w.look_everywhere()
    return w.text()


def fill_the_waiting_line(d):
    """As many packets waiting as the capacity, up to 1,024."""
    w = Writer(d)
    capacity = d.one_of((1, 2, 63, 255, 1_023, 1_024))
    w.open(d.among(1, 2), capacity, some_weights(d, d.among(1, 6), 3))
    for _ in range(capacity):
        w.any_arr()
    w.any_arr()
    w.line("tots")
    w.move(1)
    w.any_arr()
    w.any_arr()
    w.settle()
    w.any_arr()
    w.move(d.among(1, 60))
    w.any_arr()
    w.look_everywhere()
    return w.text()


def unsettled(d):
    """1,024 packets unsettled: waiting, sending, left and out together."""
    w = Writer(d)
    capacity = d.one_of((8, 50, 128, 1_000))
    w.open(3, capacity, some_weights(d, d.among(1, 4), 3))
    accepted = 0
    while accepted < 1_024:
        count = min(capacity, 1_024 - accepted)
        accepted += count
        last = accepted == 1_024
        for _ in range(count):
            w.arr(d.below(w.sessions), 3 if last else 1)
        # All of them leave; but of the last ones, one is on the line.
        w.move(d.one_of((1, 2, 4, 5)) if last else count)
    w.any_arr()
    w.line("arr", 0, 4, 0)
    w.line("tots")
    w.line("take")
    w.any_arr()
    w.line(d.one_of(("filed", "back")))
    w.any_arr()
    w.any_arr()
    w.settle(3)
    w.move(5)
    for _ in range(4):
        w.any_arr()
    w.look_everywhere()
    return w.text()


def bulk(d):
    """Packets of hundreds of bytes, few but long moves in which sessions run dry."""
    w = Writer(d)
    w.open(d.among(100, 1_500), d.among(5, 60), some_weights(d, d.among(2, 20), d.one_of((1, 10, 200))))
    for _ in range(d.among(10, 30)):
        for _ in range(d.below(5)):
            w.any_arr(most=d.one_of((20, 300, 1_500)))
        w.move(d.one_of((d.below(50), d.below(400), d.below(2_000))))
        w.look()
        if d.chance(40):
            w.settle(d.below(4))
    w.look_everywhere()
    return w.text()


def large(d):
    """Packets of tens of thousands of bytes."""
    w = Writer(d)
    M = d.one_of((65_535, 65_535, 30_000))
    weights = d.one_of(([1], [1, 1], [5, 1, 1], [1, 4_095]))
    w.open(M, 4, weights)
    w.arr(0, d.one_of((M, M - 1)))
    w.move(d.among(0, 40 if max(weights) > 5 else 3_000))
    w.arr(w.sessions - 1, d.among(1, 2_000))
    w.arr(w.sessions - 1, M + 1)
    w.look_everywhere()
    if max(weights) <= 5 and d.chance(50):
        w.move(M)
        w.look_everywhere()
        w.settle()
    return w.text()


def drafts(d):
    """Links refused before one is accepted, sessions refused, sums at the limit."""
    w = Writer(d)
    for _ in range(d.among(0, 6)):
        w.line("link", d.one_of((0, 65_535, 65_536, 2 ** 64 - 1)), d.one_of((0, 1, 65_535, 65_536)),
               d.one_of((0, 1, 1_024, 1_025)), d.one_of((0, 1, 4_096, 4_097)))
        if d.chance(30):
            w.line(d.one_of(WORDS[1:]))
    refused = ("link 65536 9 9 9", "link 1 0 9 9", "link 1 65536 9 9", "link 1 9 0 9",
               "link 1 9 1025 9", "link 1 9 9 0", "link 1 9 9 4097", "link 65536 0 0 0",
               "link 1 0 0 0", "link 1 9 0 0")
    for _ in range(d.among(1, 4)):
        w.line(d.one_of(refused))
    w.line("link", 3, d.among(1, 9), d.among(1, 9), d.one_of((1, 1, 64, 4_000, 4_095, 4_096)))
    heaviest = d.one_of((1, 63, 64, 65, 500, 4_000))
    for _ in range(d.one_of((0, 3, 10, 64, 66))):
        w.line("sess", d.one_of((heaviest, d.among(1, heaviest), 1)))
        if d.chance(8):
            w.line("sess", d.one_of((0, 4_096, 4_097, 2 ** 64 - 1)))
        if d.chance(4):
            w.line("link", 3, 1, 1, 1)
    w.line("sess", 0)
    w.line("sess", 4_096)
    w.line("sess", 1)
    if d.chance(80):
        w.line("open")
        w.line("arr 0 1 0")
        w.line("arr 1 1 0")
        w.line("at 3")
        w.line("take")
    return w.text()


ODD_NUMBERS = (
    "18446744073709551615", "18446744073709551616", "18446744073709551617",
    "18446744073709551625", "18446744073709551599", "99999999999999999999",
    "28446744073709551615", "100000000000000000000", "36893488147419103232",
    "184467440737095516150", "9" * 60, "1" + "0" * 400, "0", "00", "01", "007",
    "000000000000000000000000001", "+1", "-1", "-0", "+", "-", "1.", "1.0", ".5", "1e3", "0x10",
    "1_000", "1,000", "a", "1a", "a1", "/", ":", "1/", "1:", "", "\t1", "1\t", "1\r", "\r",
    "\0", "1\0", "\u0663", "\u00b9", "\uff11", "none", "link", "4294967296", "2147483648")


def numbers(d):
    """Fields that are numbers, nearly numbers and none."""
    w = Writer(d)

    def odd_line():
        word = d.one_of(("link", "sess", "arr", "at", "figs", "arr", "at"))
        fields = [str(d.below(3)) for _ in range({"link": 4, "arr": 3}.get(word, 1))]
        for _ in range(d.among(1, 2)):
            fields[d.below(len(fields))] = d.one_of(ODD_NUMBERS)
        w.line(word, *fields)

    for _ in range(d.among(3, 12)):
        odd_line()
    w.open(5, 5, [1, 2])
    for _ in range(d.among(10, 40)):
        odd_line()
        if d.chance(20):
            w.any_arr()
    w.look_everywhere()
    return w.text()


def spaces(d):
    """A fair history with bytes put in, taken out and changed."""
    text = bytearray(small(d))
    strange = (b" ", b"  ", b"\n", b"\r", b"\r\n", b"\t", b"\0", b"\x0b", b"\x7f", b"\x80",
               b"\xff", b"\xc3\xa9", b"\xe2\x80\xa8", b"0", b"-", b"a", b" 1", b"\n ", b" \n")
    for _ in range(d.among(1, 12)):
        # Mostly after the first three lines, or there would never be a link.
        at = d.below(len(text) + 1) if d.chance(15) else d.among(min(30, len(text)), len(text))
        roll = d.below(3)
        if roll == 0:
            text[at:at] = d.one_of(strange)
        elif roll == 1:
            del text[at:at + 1]
        else:
            text[at:at + 1] = d.one_of(strange)
    return bytes(text)


def line_ends(d):
    """Carriage returns, empty lines, spaces at both ends, no last line end."""
    out = bytearray()
    lines = small(d).split(b"\n")[:-1]
    for number, line in enumerate(lines):
        if number >= 3 or d.chance(10):
            if d.chance(8):
                line = b" " + line
            if d.chance(8):
                line = line + b" "
            if d.chance(8):
                line = line.replace(b" ", b"  ", 1)
            if d.chance(8):
                line = line + b"\r"
            if d.chance(4):
                line = line.upper()
            if d.chance(8):
                out += d.one_of((b"\n", b"\n\n", b" \n", b"\r\n", b"\t\n"))
        out += line + b"\n"
    if d.chance(60):
        out = out[:-1]
    return bytes(out)


def turns(d):
    """Words in any order, most of them with the fields they want."""
    w = Writer(d)
    fields = {"link": 4, "sess": 1, "arr": 3, "at": 1, "figs": 1}
    ready = d.chance(70)
    for step in range(d.among(20, 70)):
        if ready and step == 8:
            w.open(3, 3, [1, 2])
        word = d.one_of(WORDS)
        if d.chance(3):
            word = d.one_of(("Link", "tot", "totss", "took", "text", "refused", "filled", "arr0", "", "1"))
        count = fields.get(word, 0)
        if d.chance(8):
            count = d.below(6)
        if word == "at" and count == 1:
            w.clock += d.below(3)
            w.line(word, w.clock)
        else:
            w.line(word, *(d.among(0 if d.chance(20) else 1, 2) for _ in range(count)))
    return w.text()


def slip_at_the_end(d):
    """The input ends with a slip in hand."""
    w = Writer(d)
    w.open(d.among(1, 6), d.among(1, 6), some_weights(d, d.among(1, 3), 2))
    for _ in range(d.among(1, 6)):
        w.any_arr()
    w.move(d.among(1, 30))
    w.settle(d.below(3))
    w.line("take")
    for _ in range(d.below(6)):
        w.line(*d.one_of((("take",), ("tots",), ("figs", 0), ("at", w.clock + 2), ("arr", 0, 1, 3), ("link", 1, 1, 1, 1))))
    text = w.text()
    return text[:-1] if d.chance(50) else text


def long_input(d):
    """About 65,536 bytes."""
    size = d.one_of((65_535, 65_536, 65_537, 65_537, 65_600, 131_072))
    start = tiny(d)
    filler = d.one_of((b"\n", b"\n", b"x", b" ", b"0", b"tots\n", b"at 999\n", b"\nlink 1 1 1 1"))
    text = start + filler * (size // len(filler))
    return text[:size]


def nearly_nothing(d):
    """Inputs of a few bytes."""
    return d.one_of((
        b"", b"\n", b"\n\n\n", b" ", b" \n", b"\r\n", b"\0", b"l", b"link", b"link ", b"link\n",
        b"link 1 1 1 1", b"link 1 1 1 1\nopen", b"link 1 1 1 1\nopen ", b"link 1 1 1 1\nopen\nat ",
        b"link 1 1 1 \n", b"open\n", b"\nopen\n", b"\xef\xbb\xbflink 1 1 1 1\n", b"link 1 1 1 1\n\n\nopen\n\ntots",
        b"link 1 1 1 1\nopen\ntake\ntake\nback", b"link 1 1 1 1\nopen\ntots \ntake 1\nfigs\nfigs 0 0\narr 0 1\n",
        b"link 1 1 1 1\nopen\narr  1 1\narr 0  1\narr 0 1 \narr   \narr    \nat  \n"))


def noise(d):
    """Words, digits and any bytes, thrown together."""
    pieces = [word.encode() for word in WORDS] + [b" ", b" ", b" ", b"\n", b"\n", b"0", b"1", b"2", b"17", b"\r"]
    text = b"link 1 9 9 1\nopen\n" if d.chance(50) else b""
    for _ in range(d.among(10, 150)):
        text += bytes([d.below(256)]) if d.chance(5) else d.one_of(pieces)
    return text


# How many of each 60 numbers in a row give which kind.
SHARES = (
    (small, 6), (tiny, 4), (rush, 3), (all_sessions, 2), (heavy_weights, 4), (silence, 5),
    (last_tick, 4), (tight, 4), (steady, 3), (backlog, 2), (bulk, 3), (fill_the_waiting_line, 1),
    (unsettled, 1), (large, 1), (drafts, 3), (numbers, 3), (spaces, 3), (line_ends, 2),
    (turns, 2), (slip_at_the_end, 1), (long_input, 1), (nearly_nothing, 1), (noise, 1),
)
KINDS = [kind for kind, share in SHARES for _ in range(share)]


def kind_of(seed):
    return KINDS[seed % len(KINDS)]


def history(seed):
    """The history of a number, in bytes."""
    return kind_of(seed)(Dice(seed))


def numbers_printed(printed):
    """The refusals and faults in what was printed, each as in REFUSALS and FAULTS."""
    found = set()
    for line in printed.decode().splitlines():
        word, _, rest = line.partition(" ")
        if word == "refused":
            found.add(rest)
        elif word == "text":
            found.add(rest.split(" ")[0])
    return found


class Coverage:
    """In how many histories each number was printed."""

    def __init__(self):
        self.histories = {number: 0 for number in REFUSALS + FAULTS}

    def add(self, printed):
        for number in numbers_printed(printed):
            self.histories[number] += 1  # a number not foreseen ends the run here

    def missing(self):
        return [number for number, count in self.histories.items() if count == 0]

    def report(self):
        for name, numbers in (("refusals", REFUSALS), ("faults", FAULTS)):
            print(f"{name} (in so many histories): "
                  + ", ".join(f"{number} ({self.histories[number]})" for number in numbers))
        print("missing: " + (", ".join(self.missing()) or "none"))


def arguments_for_a_set(parser):
    parser.add_argument("--count", type=int, default=COUNT, help=f"how many histories ({COUNT})")
    parser.add_argument("--first", type=int, default=FIRST_SEED, help=f"the first number ({FIRST_SEED})")


def main():
    parser = argparse.ArgumentParser(description="Simulate and audit a set of histories.")
    arguments_for_a_set(parser)
    parser.add_argument("--print", type=int, metavar="SEED", help="only write this history")
    parser.add_argument("--times", action="store_true", help="seconds for each kind")
    options = parser.parse_args()
    if options.print is not None:
        sys.stdout.buffer.write(history(options.print))
        return 0

    begun = time.time()
    coverage = Coverage()
    attained = {"prompt": 0, "level": 0, "timely": 0, "latest tick": 0}
    ticks = 0
    seconds = {}
    for seed in range(options.first, options.first + options.count):
        kind_begun = time.time()
        audit = Audit()
        try:
            coverage.add(simulate.run(history(seed), audit))
        except AuditFailure as failure:
            print(f"history {seed} ({kind_of(seed).__name__}): audit failed: {failure}")
            return 1
        ticks += audit.ticks
        for statement, slack in audit.least_slack.items():
            attained[statement] += slack == 0
        name = kind_of(seed).__name__
        seconds[name] = seconds.get(name, 0) + time.time() - kind_begun
    if options.times:
        for name, spent in sorted(seconds.items(), key=lambda item: -item[1]):
            print(f"{spent:8.2f} s  {name}")
    print(f"{options.count} histories, {ticks} ticks audited, {time.time() - begun:.1f} s")
    print("bounds attained (in so many histories): "
          + ", ".join(f"{statement} ({count})" for statement, count in attained.items()))
    coverage.report()
    return 1 if coverage.missing() else 0


if __name__ == "__main__":
    sys.exit(main())
