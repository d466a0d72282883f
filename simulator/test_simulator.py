#!/usr/bin/env python3
"""Tests of the simulator: python3 simulator/test_simulator.py

The cases computed by hand in docs/RULES.md, each refusal once, faults in the
text, and machines with a wrong rule, which the audit must notice.
"""

import hashlib
import os
import re
import subprocess
import sys
import unittest

HERE = os.path.dirname(os.path.abspath(__file__))
sys.path.insert(0, HERE)

import compare
import histories
import simulate
from audit import Audit, AuditFailure


def lines(*history):
    """The lines printed for the given lines, audited."""
    text = "".join(line + "\n" for line in history).encode()
    return simulate.run(text, audit=True).decode().splitlines()


def last_lines(count, *history):
    return lines(*history)[-count:]


FIRST_LINK = ("link 7 10 8 2", "sess 1", "open")
SECOND_LINK = ("link 7 10 1 1", "sess 1", "open")


class FirstLinkByHand(unittest.TestCase):
    def test_ownership(self):
        slots = simulate.Slots([2, 1])
        owned = [[q for q in range(9) if slots.owner(q) == s] for s in (0, 1)]
        self.assertEqual(owned, [[0, 1, 3, 4, 6, 7], [2, 5, 8]])

    def test_stamps_and_latest_ticks(self):
        self.assertEqual(
            last_lines(2, *FIRST_LINK, "arr 0 6 100", "arr 1 2 101"),
            ["arr 0 7 17", "arr 1 5 15"])

    def test_leaving_ticks(self):
        self.assertEqual(
            last_lines(5, *FIRST_LINK, "arr 0 6 100", "arr 1 2 101", "at 8",
                       "take", "filed", "take", "filed"),
            ["at 8 2", "took 1 1 101 0 2", "filed 1", "took 0 0 100 2 8", "filed 0"])

    def test_leads_at_2(self):
        self.assertEqual(
            last_lines(2, *FIRST_LINK, "arr 0 6 100", "arr 1 2 101", "at 2", "figs 0", "figs 1"),
            ["figs 6 0 2 -2 6", "figs 2 2 0 2 0"])

    def test_later_packets(self):
        self.assertEqual(
            lines(*FIRST_LINK, "arr 0 6 100", "arr 1 2 101", "at 3", "arr 1 1 102", "at 20",
                  "arr 0 1 103", "take", "filed", "take", "filed", "take")[5:],
            ["at 3 1", "arr 2 8 18", "at 20 2", "arr 3 9 30", "took 1 1 101 0 2", "filed 1",
             "took 0 0 100 2 8", "filed 0", "took 2 1 102 8 9", "back 2"])


class SecondLinkByHand(unittest.TestCase):
    def test_one_may_wait(self):
        self.assertEqual(
            last_lines(2, *SECOND_LINK, "arr 0 10 1", "arr 1 1 2"),
            ["arr 0 18 28", "refused 34 71"])

    def test_leaves_at_its_latest_tick(self):
        self.assertEqual(
            last_lines(7, *SECOND_LINK, "arr 0 10 1", "at 1", "arr 1 1 2", "at 11",
                       "take", "filed", "take"),
            ["at 1 0", "arr 1 1 11", "at 11 2", "took 0 0 1 0 10", "filed 0",
             "took 1 1 2 10 11", "back 1"])

    def test_return_after_silence(self):
        self.assertEqual(
            last_lines(2, *SECOND_LINK, "arr 0 10 1", "at 10", "arr 1 3 2"),
            ["at 10 1", "arr 1 23 24"])


class Listing(unittest.TestCase):
    PRINTED = (b"link 7\nsess 1\nopen 3\narr 0 7 17\narr 1 5 15\nat 2 1\nfigs 2 2 0 2 0\n"
               b"took 1 1 101 0 2\nfiled 1\nrefused 33\nrefused 41\ntots 1 0 0 0 1 0\n")

    def history(self):
        with open(os.path.join(HERE, "..", "examples", "small.txt"), "rb") as file:
            return file.read()

    def test_function(self):
        self.assertEqual(simulate.run(self.history(), audit=True), self.PRINTED)
        self.assertEqual(simulate.run(self.history(), audit=False), self.PRINTED)

    def test_program(self):
        for flags in ([], ["--audit"]):
            done = subprocess.run(
                [sys.executable, os.path.join(HERE, "simulate.py")] + flags,
                input=self.history(), stdout=subprocess.PIPE, check=True)
            self.assertEqual(done.stdout, self.PRINTED)


class Examples(unittest.TestCase):
    def example(self, name):
        with open(os.path.join(HERE, "..", "examples", name), "rb") as file:
            return file.read()

    def test_printed(self):
        for name in ("small", "morning"):
            self.assertEqual(simulate.run(self.example(name + ".txt"), audit=True),
                             self.example(name + ".printed.txt"))

    def test_lines_quoted_in_the_explanation(self):
        history = self.example("morning.txt").decode().split("\n")
        printed = self.example("morning.printed.txt").decode().split("\n")
        quoted = re.findall(r"^\| (\d+) \| `([^`]*)` \| `([^`]*)` \|",
                            self.example("README.md").decode(), re.MULTILINE)
        self.assertGreater(len(quoted), 10)
        for number, asked, answered in quoted:
            self.assertEqual((history[int(number) - 1], printed[int(number) - 1]),
                             (asked, answered))


class Refusals(unittest.TestCase):
    def test_making(self):
        self.assertEqual(
            lines("link 65536 0 0 0", "link 1 0 0 0", "link 1 65536 0 0", "link 1 9 0 0",
                  "link 1 9 1025 0", "link 1 9 9 0", "link 1 9 9 4097", "link 65535 65535 1024 4096"),
            ["refused 11", "refused 12", "refused 12", "refused 13", "refused 13",
             "refused 14", "refused 14", "link 65535"])

    def test_adding(self):
        self.assertEqual(
            lines("link 1 1 1 4095", "sess 0", "sess 2", "sess 1", "sess 1", "open"),
            ["link 1", "refused 21", "refused 23", "sess 1", "refused 23", "open 4096"])
        many = lines("link 1 1 1 1", *["sess 1"] * 63, "sess 4096", "sess 0", "open")
        self.assertEqual(many[-4:], ["sess 63", "refused 22", "refused 21", "open 64"])

    def test_arrival(self):
        self.assertEqual(
            last_lines(6, *SECOND_LINK, "arr 2 0 0", "arr 1 0 0", "arr 1 11 0", "arr 1 10 0",
                       "arr 1 11 0", "arr 1 10 0"),
            ["refused 31", "refused 32", "refused 33", "arr 0 19 29", "refused 33",
             "refused 34 71"])

    def test_1024_unsettled(self):
        printed = lines("link 1 1 1024 1", "open", *["arr 0 1 7"] * 1025, "at 1", "arr 0 1 8",
                        "take", "arr 0 1 8", "filed", "arr 0 1 9", "tots")
        self.assertEqual(
            printed[1025:],
            ["arr 1023 1023 1024", "refused 34 71", "at 1 1", "refused 35", "took 0 0 7 0 1",
             "refused 35", "filed 0", "arr 1024 1024 1025", "tots 1024 0 0 0 1 0"])

    def test_clock(self):
        self.assertEqual(
            lines("link 1 5 5 1", "open", "at 17592186044416", "at 17592186044416",
                  "at 17592186044415", "at 17592186044417", "arr 0 2 0", "tots")[2:],
            ["at 17592186044416 0", "at 17592186044416 0", "refused 41", "refused 42",
             "arr 0 1 17592186044422", "tots 1 0 0 0 0 0"])

    def test_settlement(self):
        # Not to be had from a history: there is one link, and slips come only from it.
        link = simulate.Link(simulate.Draft(1, 5, 5, 1))
        link.arrival(0, 1, 9)
        link.clock_move(1)
        slip = link.collection()
        other = simulate.Link(simulate.Draft(2, 5, 5, 1))
        with self.assertRaises(simulate.Refusal) as refusal:
            other.filing(slip)
        self.assertEqual(refusal.exception.numbers, (52,))
        link.filing(slip)
        with self.assertRaises(simulate.Refusal) as refusal:
            link.returning(slip)
        self.assertEqual(refusal.exception.numbers, (53,))
        self.assertEqual(link.totals(), (0, 0, 0, 0, 1, 0))


class Text(unittest.TestCase):
    def check(self, history, printed):
        self.assertEqual(simulate.run(history, audit=True), printed)

    def test_empty(self):
        self.check(b"", b"")
        self.check(b"\n\n", b"")

    def test_length(self):
        start = b"link 1 1 1 1"
        self.check(start + b"\n" * (65_536 - len(start)), b"link 1\n")
        self.check(start + b"\n" * (65_537 - len(start)), b"text 60 0 0\n")

    def test_empty_lines_count(self):
        self.check(b"\n\nlinks\n", b"text 61 3 1\n")

    def test_unknown_word(self):
        self.check(b" link 1 1 1 1\nLINK\nlink\t1\nopen\r\n\xff\n \n",
                   b"text 61 1 1\ntext 61 2 1\ntext 61 3 1\ntext 61 4 1\ntext 61 5 1\ntext 61 6 1\n")

    def test_out_of_turn(self):
        self.check(b"open\nlink 1 1 1 1\nlink 1 1 1 1\narr x\nopen\nsess 1\nopen\nfiled\nback\ntake\nfiled\n",
                   b"text 62 1 1\nlink 1\ntext 62 3 1\ntext 62 4 1\nopen 1\ntext 62 6 1\n"
                   b"text 62 7 1\ntext 62 8 1\ntext 62 9 1\ntook none\ntext 62 11 1\n")

    def test_number_of_fields(self):
        self.check(b"link 1 1 1\nlink 1 1 1 1 \nlink\nlink x x x\n",
                   b"text 63 1 1\ntext 63 2 1\ntext 63 3 1\ntext 63 4 1\n")

    def test_no_such_number(self):
        self.check(b"link 1  1 1\nlink 1 1 1 \nlink 01 1 1 1\nlink 1 +1 1 1\nlink 1 1 -1 1\n"
                   b"link 1 22 333 4x\nlink 1 1 1 1\r\nlink 18446744073709551616 1 1 1\n"
                   b"link 18446744073709551615 1 1 1\n",
                   b"text 64 1 8\ntext 64 2 12\ntext 64 3 6\ntext 64 4 8\ntext 64 5 10\n"
                   b"text 64 6 15\ntext 64 7 12\ntext 64 8 6\nrefused 11\n")

    def test_missing_last_line_end(self):
        self.check(b"link 1 1 1 1\nopen", b"link 1\nopen 1\n")

    def test_slip_in_hand_at_the_end(self):
        self.check(b"link 1 1 1 1\nopen\narr 0 1 18446744073709551615\nat 1\ntake\ntake",
                   b"link 1\nopen 1\narr 0 0 1\nat 1 1\ntook 0 0 18446744073709551615 0 1\n"
                   b"text 62 6 1\nback 0\n")


class Set(unittest.TestCase):
    def test_the_set_is_fixed(self):
        """The same 600 histories on every machine. A wanted change changes this sum."""
        seeds = range(histories.FIRST_SEED, histories.FIRST_SEED + histories.COUNT)
        whole = b"".join(histories.history(seed) for seed in seeds)
        self.assertEqual(
            hashlib.sha256(whole).hexdigest(),
            "8e7b6709bd7c7800ec0095fe17132bf843f578c32f2556f399454d72e9658959")

    def test_first_difference(self):
        self.assertIsNone(compare.first_difference(b"a\nb\n", b"a\nb\n"))
        self.assertEqual(compare.first_difference(b"a\nb\n", b"a\nc\n"), (2, b"b\n", b"c\n"))
        self.assertEqual(compare.first_difference(b"a\nb\n", b"a\nb"), (2, b"b\n", b"b"))
        self.assertEqual(compare.first_difference(b"a\n", b"a\n\n"), (2, None, b"\n"))
        self.assertEqual(compare.first_difference(b"a\n", b""), (1, b"a\n", None))

    def test_compare_notices(self):
        good = f"{sys.executable} {os.path.join(HERE, 'simulate.py')}"
        self.assertEqual(compare.compare([good, "cat"], range(1, 2))[0], [])
        self.assertEqual(len(compare.compare([good, "cat"], range(1, 2))[1]), 1)


class StampFromNAlone(simulate.RoundServer):
    def first_slot_allowed(self, session):
        return self.n[session]


class ServesHighest(simulate.RoundServer):
    def tick(self):
        if not self.owed:
            return None
        slot = max(self.owed)
        self.owed.remove(slot)
        self.V = max(self.V, slot + 1)
        return slot


class StampFromTheLine(simulate.Link):
    def arrival(self, session, length, tag):
        if self.on_line is not None:
            self.round_server.first_slot_allowed = (
                lambda session: max(self.on_line.stamp, self.round_server.n[session]))
        return super().arrival(session, length, tag)


class FirstSlotFirst(simulate.Link):
    def next_packet(self):
        return min(self.waiting, key=lambda packet: self.first_slot[packet.number])

    def arrival(self, session, length, tag):
        first_slot = next(self.slots.slots_from(
            session, self.round_server.first_slot_allowed(session)))
        packet = super().arrival(session, length, tag)
        if packet.number == 0:
            self.first_slot = {}
        self.first_slot[packet.number] = first_slot
        return packet


class FirstComeFirst(simulate.Link):
    def next_packet(self):
        return self.waiting[0]


class IdlesOneTick(simulate.Link):
    def tick(self):
        held, self.waiting = (self.waiting, []) if self.clock == 0 else ([], self.waiting)
        audit, self.audit = self.audit, None
        V_before = self.round_server.V
        served_before = list(self.served_bytes)
        super().tick()
        self.waiting += held
        self.audit = audit
        slot = self.round_server.V - 1 if self.served_bytes != served_before else None
        audit.ticked(V_before, slot)


class AuditNotices(unittest.TestCase):
    """The audit must be able to fail: machines that break a rule."""

    def link(self, M, weights, kind=simulate.Link, server=simulate.RoundServer, audited=True):
        draft = simulate.Draft(1, M, 1024, weights[0])
        for weight in weights[1:]:
            draft.add(weight)
        link = kind(draft, Audit() if audited else None)
        link.round_server = server(link.slots)
        return link

    def assert_fails(self, statement, calls):
        with self.assertRaises(AuditFailure) as failure:
            calls()
        self.assertIn(": " + statement + ":", str(failure.exception))

    def test_stamp_from_n_alone(self):
        for audited in (False, True):
            link = self.link(10, [1, 1], server=StampFromNAlone, audited=audited)
            link.arrival(0, 10, 0)
            link.clock_move(10)
            if audited:
                self.assert_fails("owed slots", lambda: link.arrival(1, 3, 0))
            else:
                self.assertEqual(link.arrival(1, 3, 0).stamp, 5)

    def test_stamp_from_the_line(self):
        for audited in (False, True):
            link = self.link(10, [1, 1], kind=StampFromTheLine, audited=audited)
            link.arrival(0, 10, 0)
            link.clock_move(1)
            if audited:
                self.assert_fails("timely", lambda: link.arrival(1, 1, 0))
            else:
                self.assertEqual(link.arrival(1, 1, 0).stamp, 19)

    def test_wrong_slot_served(self):
        link = self.link(10, [1, 1], server=ServesHighest)
        link.arrival(0, 2, 0)
        link.arrival(1, 2, 0)
        self.assert_fails("owed slots", lambda: link.clock_move(4))

    def test_first_slot_first(self):
        link = self.link(10, [2, 1], kind=FirstSlotFirst, audited=False)
        link.arrival(0, 6, 100)
        link.arrival(1, 2, 101)
        link.clock_move(1)
        self.assertEqual(link.on_line.session, 0)  # the rule says session 1
        link = self.link(100, [1, 1, 1], kind=FirstSlotFirst)
        link.arrival(0, 10, 100)
        link.arrival(1, 10, 101)
        link.arrival(2, 1, 102)  # its first slot, 2, is the last of the three
        self.assert_fails("prompt", lambda: link.clock_move(40))

    def test_first_come_first(self):
        link = self.link(3, [1, 1], kind=FirstComeFirst)
        for _ in range(5):
            link.arrival(0, 3, 0)
        link.arrival(1, 1, 0)
        self.assert_fails("timely", lambda: link.clock_move(60))
        link = self.link(10, [1, 1], kind=FirstComeFirst)
        for _ in range(5):
            link.arrival(0, 3, 0)
        link.arrival(1, 1, 0)
        self.assert_fails("prompt", lambda: link.clock_move(60))
        link = self.link(10, [1, 8], kind=FirstComeFirst)
        for _ in range(5):
            link.arrival(0, 3, 0)
        link.arrival(1, 3, 0)
        self.assert_fails("level", lambda: link.clock_move(60))

    def test_a_tick_lost(self):
        link = self.link(10, [1], kind=IdlesOneTick)
        link.arrival(0, 3, 0)
        self.assert_fails("bytes", lambda: link.clock_move(3))

    def test_totals(self):
        link = self.link(10, [1])
        link.arrival(0, 3, 0)
        link.filed_count = 1
        self.assert_fails("totals", lambda: link.clock_move(3))

    def test_latest_tick_too_late(self):
        link = self.link(10, [1])
        link.M = 10
        packet = link.arrival(0, 3, 0)
        packet.latest_tick += 1
        self.assert_fails("timely", lambda: link.audit.check_latest_tick_bound(packet))

    def test_bounds_attained(self):
        """The audit's bounds are the sharp ones: some history attains each."""
        attained = Audit()
        simulate.run(b"link 7 10 1 1\nsess 1\nopen\narr 0 10 1\nat 1\narr 1 1 2\nat 11\n",
                     audit=attained)
        self.assertEqual(attained.least_slack["timely"], 0)
        self.assertEqual(attained.least_slack["prompt"], 0)
        attained = Audit()
        simulate.run(b"link 7 10 9 1\nsess 9\nopen\narr 0 10 1\nat 1\narr 1 10 2\nat 20\n",
                     audit=attained)
        self.assertEqual(attained.least_slack["level"], 0)
        attained = Audit()
        simulate.run(b"link 7 3 9 1\nopen\narr 0 3 1\n", audit=attained)
        self.assertEqual(attained.least_slack["latest tick"], 0)


if __name__ == "__main__":
    unittest.main()
