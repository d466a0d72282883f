#!/usr/bin/env python3
"""A simulator of the link of docs/RULES.md, written from that page alone.

    python3 simulator/simulate.py [--audit] < history

It is the tick machine, literally: one tick at a time, one byte in each tick,
every owed slot kept one by one, the waiting packets in a plain list. The parts
below stand in the order of the sections of docs/RULES.md and use its names.

With --audit the statements of section 5 are checked at every tick (see
audit.py); the first that fails ends the run with a message and status 1.

One shortcut is taken. While no slot is owed, no packet waits and the line is
free, a tick changes the clock and nothing else; such ticks of a move are not
gone through one by one, the clock is set to the end of the move.
"""

import heapq
import itertools
import os
import sys

sys.path.insert(0, os.path.dirname(os.path.abspath(__file__)))

MOST_SESSIONS = 64
MOST_WEIGHT = 4_096            # of one session, and of all together
MOST_LINK_NUMBER = 65_535
MOST_LENGTH = 65_535
MOST_CAPACITY = 1_024
MOST_UNSETTLED = 1_024
LAST_TICK = 17_592_186_044_416
MOST_INPUT = 65_536            # bytes
NUMBERS_BELOW = 2 ** 64


class Refusal(Exception):
    """A call that is refused. The numbers stand outermost first."""

    def __init__(self, *numbers):
        super().__init__(*numbers)
        self.numbers = numbers


def refuse_if(condition, *numbers):
    if condition:
        raise Refusal(*numbers)


# ---------------------------------------------------------------- 1. Slots


class Slots:
    """Who owns which slot."""

    def __init__(self, weights):
        self.weights = list(weights)
        self.Phi = sum(self.weights)
        self.owner_of_position = []
        self.positions_of = []
        for session, weight in enumerate(self.weights):
            first = len(self.owner_of_position)
            self.owner_of_position += [session] * weight
            self.positions_of.append(range(first, first + weight))

    def owner(self, slot):
        return self.owner_of_position[slot % self.Phi]

    def slots_from(self, session, start):
        """The session's slots that are not below start, lowest first, without end."""
        for turn in itertools.count(start // self.Phi):
            for position in self.positions_of[session]:
                slot = turn * self.Phi + position
                if slot >= start:
                    yield slot


# ---------------------------------------------------- 2. The round server


class RoundServer:
    def __init__(self, slots):
        self.slots = slots
        self.V = 0
        self.owed = []  # the set of owed slots, as a heap: the lowest is owed[0]
        self.n = [0] * len(slots.weights)  # 1 + highest slot ever got; 0 if none

    def tick(self):
        """Serve the lowest owed slot and answer it; None if none is owed."""
        if not self.owed:
            return None
        slot = heapq.heappop(self.owed)
        self.V = slot + 1
        return slot

    def accept(self, session, length):
        """Give a packet its slots; answer its stamp."""
        start = self.first_slot_allowed(session)
        got = list(itertools.islice(self.slots.slots_from(session, start), length))
        for slot in got:
            heapq.heappush(self.owed, slot)
        stamp = got[-1]
        self.n[session] = stamp + 1
        return stamp

    def first_slot_allowed(self, session):
        return max(self.V, self.n[session])


# ------------------------------------------- 3. A tick, 4. The life of a link


class Packet:
    __slots__ = ("number", "session", "length", "tag", "arrival",
                 "stamp", "latest_tick", "starting_tick", "leaving_tick")

    def __init__(self, number, session, length, tag):
        self.number = number
        self.session = session
        self.length = length
        self.tag = tag


class Slip:
    def __init__(self, link_number, packet):
        self.link_number = link_number
        self.packet_number = packet.number
        self.session = packet.session
        self.length = packet.length
        self.tag = packet.tag
        self.starting_tick = packet.starting_tick
        self.leaving_tick = packet.leaving_tick


class Draft:
    def __init__(self, link_number, M, capacity, weight):
        """Making."""
        refuse_if(link_number > MOST_LINK_NUMBER, 11)
        refuse_if(M == 0 or M > MOST_LENGTH, 12)
        refuse_if(capacity == 0 or capacity > MOST_CAPACITY, 13)
        refuse_if(weight == 0 or weight > MOST_WEIGHT, 14)
        self.link_number = link_number
        self.M = M
        self.capacity = capacity
        self.weights = [weight]

    def add(self, weight):
        """Adding a session: answers its number."""
        refuse_if(weight == 0, 21)
        refuse_if(len(self.weights) == MOST_SESSIONS, 22)
        refuse_if(sum(self.weights) + weight > MOST_WEIGHT, 23)
        self.weights.append(weight)
        return len(self.weights) - 1


class Link:
    """An open link: the tick machine and the calls on it."""

    def __init__(self, draft, audit=None):
        """Opening."""
        self.link_number = draft.link_number
        self.M = draft.M
        self.capacity = draft.capacity
        self.slots = Slots(draft.weights)
        sessions = len(draft.weights)

        self.clock = 0
        self.round_server = RoundServer(self.slots)
        self.waiting = []
        self.on_line = None        # the packet being sent; None if the line is free
        self.bytes_left = 0        # of the packet being sent
        self.left = []
        self.out = {}              # packet number -> packet
        self.filed_count = 0
        self.returned_count = 0

        self.accepted_count = 0
        self.accepted_bytes = [0] * sessions
        self.sent_bytes = [0] * sessions
        self.served_bytes = [0] * sessions

        self.audit = audit
        if audit:
            audit.opened(self)

    # One tick, in the order of section 3.

    def tick(self):
        V_before = self.round_server.V
        if self.on_line is None and self.waiting:
            self.start_sending(self.next_packet())
        if self.on_line is not None:
            self.send_one_byte()
        served_slot = self.serve_one_byte()
        self.clock += 1
        if self.audit:
            self.audit.ticked(V_before, served_slot)

    def next_packet(self):
        return min(self.waiting, key=lambda packet: packet.stamp)

    def start_sending(self, packet):
        self.waiting.remove(packet)
        packet.starting_tick = self.clock
        self.on_line = packet
        self.bytes_left = packet.length

    def send_one_byte(self):
        packet = self.on_line
        self.sent_bytes[packet.session] += 1
        self.bytes_left -= 1
        if self.bytes_left == 0:
            packet.leaving_tick = self.clock + 1
            self.left.append(packet)
            self.on_line = None

    def serve_one_byte(self):
        slot = self.round_server.tick()
        if slot is not None:
            self.served_bytes[self.slots.owner(slot)] += 1
        return slot

    # The calls, in the order of section 4.

    def arrival(self, session, length, tag):
        refuse_if(not self.knows(session), 31)
        refuse_if(length == 0, 32)
        refuse_if(length > self.M, 33)
        refuse_if(len(self.waiting) == self.capacity, 34, 71)
        refuse_if(self.unsettled() == MOST_UNSETTLED, 35)
        packet = Packet(self.accepted_count, session, length, tag)
        packet.arrival = self.clock
        packet.stamp = self.round_server.accept(session, length)
        packet.latest_tick = self.clock + (packet.stamp - self.round_server.V) + self.M
        self.accepted_count += 1
        self.accepted_bytes[session] += length
        self.waiting.append(packet)
        if self.audit:
            self.audit.accepted(packet)
        return packet

    def clock_move(self, tick):
        """Answers how many packets left in the move."""
        refuse_if(tick < self.clock, 41)
        refuse_if(tick > LAST_TICK, 42)
        left_before = len(self.left)
        while self.clock < tick:
            if self.is_idle():
                self.clock = tick  # the shortcut explained at the top
            else:
                self.tick()
        return len(self.left) - left_before

    def collection(self):
        """The slip of the first packet of the left list, or None."""
        if not self.left:
            return None
        packet = self.left.pop(0)
        self.out[packet.number] = packet
        return Slip(self.link_number, packet)

    def filing(self, slip):
        self.settle(slip)
        self.filed_count += 1

    def returning(self, slip):
        self.settle(slip)
        self.returned_count += 1

    def settle(self, slip):
        refuse_if(slip.link_number != self.link_number, 52)
        refuse_if(slip.packet_number not in self.out, 53)
        del self.out[slip.packet_number]

    def figures(self, session):
        refuse_if(not self.knows(session), 31)
        accepted = self.accepted_bytes[session]
        sent = self.sent_bytes[session]
        served = self.served_bytes[session]
        waiting = sum(p.length for p in self.waiting if p.session == session)
        return accepted, sent, served, sent - served, waiting

    def totals(self):
        sending = 0 if self.on_line is None else 1
        return (len(self.waiting), sending, len(self.left), len(self.out),
                self.filed_count, self.returned_count)

    def knows(self, session):
        return session < len(self.slots.weights)

    def unsettled(self):
        waiting, sending, left, out, _, _ = self.totals()
        return waiting + sending + left + out

    def is_idle(self):
        return not self.round_server.owed and not self.waiting and self.on_line is None


# --------------------------------------------------- 8. The history program

# Each word, and how many fields follow it.
FIELDS_AFTER = {
    b"link": 4, b"sess": 1, b"open": 0, b"arr": 3, b"at": 1,
    b"figs": 1, b"tots": 0, b"take": 0, b"filed": 0, b"back": 0,
}


class Fault(Exception):
    """A fault in the text of one line."""

    def __init__(self, cause, byte):
        super().__init__(cause, byte)
        self.cause = cause
        self.byte = byte


def read_number(field):
    """The number that a field says, or None if it says none."""
    if not field or len(field) > 20:  # 2^64 has 20 digits
        return None
    if any(byte not in b"0123456789" for byte in field):
        return None
    if field[:1] == b"0" and field != b"0":
        return None
    number = int(field)
    return number if number < NUMBERS_BELOW else None


def read_numbers(fields):
    """The numbers in the fields after the word, or the fault 64."""
    byte = 1 + len(fields[0]) + 1  # the first byte of the field after the word
    numbers = []
    for field in fields[1:]:
        number = read_number(field)
        if number is None:
            raise Fault(64, byte)
        numbers.append(number)
        byte += len(field) + 1
    return numbers


class HistoryProgram:
    def __init__(self, audit=None):
        self.audit = audit
        self.draft = None
        self.link = None
        self.slip = None     # the slip in hand
        self.printed = []

    def say(self, *parts):
        self.printed.append(" ".join(str(part) for part in parts))

    def read(self, history):
        if len(history) > MOST_INPUT:
            self.say("text", 60, 0, 0)
            return
        for line_number, line in enumerate(history.split(b"\n"), start=1):
            if line:
                self.read_line(line_number, line)
        if self.slip is not None:
            self.do_back()
        if self.audit:
            self.audit.ended()

    def read_line(self, line_number, line):
        try:
            word, numbers = self.understand(line)
        except Fault as fault:
            self.say("text", fault.cause, line_number, fault.byte)
            return
        try:
            getattr(self, "do_" + word)(*numbers)
        except Refusal as refusal:
            self.say("refused", *refusal.numbers)

    def understand(self, line):
        """The word and the numbers of a line, or the first fault in it."""
        fields = line.split(b" ")
        word = fields[0]
        if word not in FIELDS_AFTER:
            raise Fault(61, 1)
        if word not in self.words_in_turn():
            raise Fault(62, 1)
        if len(fields) - 1 != FIELDS_AFTER[word]:
            raise Fault(63, 1)
        return word.decode(), read_numbers(fields)

    def words_in_turn(self):
        if self.draft is None:
            return (b"link",)
        if self.link is None:
            return (b"sess", b"open")
        if self.slip is None:
            return (b"arr", b"at", b"figs", b"tots", b"take")
        return (b"arr", b"at", b"figs", b"tots", b"filed", b"back")

    # What each line does and prints when it is granted.

    def do_link(self, link_number, M, capacity, weight):
        self.draft = Draft(link_number, M, capacity, weight)
        self.say("link", link_number)

    def do_sess(self, weight):
        self.say("sess", self.draft.add(weight))

    def do_open(self):
        self.link = Link(self.draft, self.audit)
        self.say("open", self.link.slots.Phi)

    def do_arr(self, session, length, tag):
        packet = self.link.arrival(session, length, tag)
        self.say("arr", packet.number, packet.stamp, packet.latest_tick)

    def do_at(self, tick):
        left_in_move = self.link.clock_move(tick)
        self.say("at", self.link.clock, left_in_move)

    def do_figs(self, session):
        self.say("figs", *self.link.figures(session))

    def do_tots(self):
        self.say("tots", *self.link.totals())

    def do_take(self):
        slip = self.link.collection()
        if slip is None:
            self.say("took", "none")
            return
        self.slip = slip
        self.say("took", slip.packet_number, slip.session, slip.tag,
                 slip.starting_tick, slip.leaving_tick)

    def do_filed(self):
        slip, self.slip = self.slip, None
        self.link.filing(slip)
        self.say("filed", slip.packet_number)

    def do_back(self):
        slip, self.slip = self.slip, None
        self.link.returning(slip)
        self.say("back", slip.packet_number)


def run(history, audit=False):
    """What the history program prints for a history; bytes in, bytes out.

    audit is False, True, or an Audit whose findings the caller wants to read
    afterwards. A failed audit raises audit.AuditFailure.
    """
    if audit is True:
        from audit import Audit
        audit = Audit()
    program = HistoryProgram(audit or None)
    program.read(history)
    return "".join(line + "\n" for line in program.printed).encode()


def main(arguments):
    if arguments not in ([], ["--audit"]):
        print("usage: simulate.py [--audit] < history", file=sys.stderr)
        return 2
    from audit import AuditFailure
    history = sys.stdin.buffer.read(MOST_INPUT + 1)
    try:
        printed = run(history, audit=bool(arguments))
    except AuditFailure as failure:
        print("audit failed:", failure, file=sys.stderr)
        return 1
    sys.stdout.buffer.write(printed)
    return 0


if __name__ == "__main__":
    sys.exit(main(sys.argv[1:]))
