"""The audit: section 5 of docs/RULES.md, checked at every tick of a history.

The simulator reports each opening, arrival and tick to an Audit. It looks at
the machine and raises AuditFailure at the first statement that does not hold.
What it needs to remember (when a packet's last byte was served, the longest
length so far) it notes down itself.

The ticks that the simulator's shortcut leaves out are ticks in which nothing
is owed, waiting or sending; no statement says anything new about those.
"""


class AuditFailure(Exception):
    pass


class Audit:
    def __init__(self):
        self.link = None
        self.Lmax = None             # none until the first acceptance
        self.packet_of_stamp = {}    # the packets whose last byte is not served yet
        self.last_byte_served = {}   # packet number -> tick, for unsent packets
        self.left_seen = 0
        self.ticks = 0
        # How close the machine came to each bound; 0 means attained.
        self.least_slack = {}

    def fail(self, statement, text):
        raise AuditFailure(f"at tick {self.link.clock}: {statement}: {text}")

    def note_slack(self, statement, slack):
        if slack < self.least_slack.get(statement, slack + 1):
            self.least_slack[statement] = slack

    # What the simulator reports.

    def opened(self, link):
        self.link = link

    def accepted(self, packet):
        self.Lmax = packet.length if self.Lmax is None else max(self.Lmax, packet.length)
        if packet.stamp in self.packet_of_stamp:
            self.fail("stamps", f"{packet.stamp} is the stamp of two packets")
        self.packet_of_stamp[packet.stamp] = packet
        self.check_latest_tick_bound(packet)
        self.check_owed_slots()
        self.check_standing()

    def ticked(self, V_before, served_slot):
        self.ticks += 1
        if served_slot in self.packet_of_stamp:
            packet = self.packet_of_stamp.pop(served_slot)
            self.last_byte_served[packet.number] = self.link.clock
        self.check_cursor(V_before, served_slot)
        self.check_just_left()
        self.check_standing()

    def ended(self):
        if self.link is not None:
            self.check_owed_slots()
            self.check_standing()

    # Prompt, and timely: about packets.

    def check_just_left(self):
        """The packet that left in this tick, if one did, is the last of the left list."""
        link = self.link
        if link.left and link.left[-1].leaving_tick == link.clock:
            packet = link.left[-1]
            self.check_packet(packet, "left")
            self.note_slack("timely", packet.latest_tick - link.clock)
            served = self.last_byte_served.pop(packet.number, None)
            if served is not None:
                self.note_slack("prompt", served + self.Lmax - 1 - link.clock)

    def check_packet(self, packet, what):
        """For a packet that leaves now or is still unsent now."""
        clock = self.link.clock
        if clock > packet.latest_tick:
            self.fail("timely", f"packet {packet.number} {what} after its "
                                f"latest tick {packet.latest_tick}")
        served = self.last_byte_served.get(packet.number)
        if served is not None and clock - served >= self.Lmax:
            self.fail("prompt", f"packet {packet.number} {what} {clock - served} ticks after its "
                                f"last byte was served at {served}; Lmax is {self.Lmax}")

    def check_latest_tick_bound(self, packet):
        link = self.link
        weight = link.slots.weights[packet.session]
        B = sum(1 for slot in link.round_server.owed
                if link.slots.owner(slot) == packet.session)
        rounds = -(-B // weight)  # B / weight, rounded up
        bound = rounds * link.slots.Phi + link.M - 1
        distance = packet.latest_tick - packet.arrival
        if distance > bound:
            self.fail("timely", f"latest tick of packet {packet.number} lies {distance} past "
                                f"its arrival, the bound is {bound}")
        self.note_slack("latest tick", bound - distance)

    # What holds at every tick, about the machine as it stands.

    def check_standing(self):
        self.check_unsent_packets()
        self.check_level()
        self.check_bytes()
        self.check_totals()

    def check_unsent_packets(self):
        for packet in self.link.waiting:
            self.check_packet(packet, "is unsent")
        if self.link.on_line is not None:
            self.check_packet(self.link.on_line, "is unsent")

    def check_level(self):
        if self.Lmax is None:
            return
        link = self.link
        behind = [served - sent for served, sent in zip(link.served_bytes, link.sent_bytes)]
        most = max(behind)
        if most >= self.Lmax:
            self.fail("level", f"session {behind.index(most)} was served {most} bytes more "
                               f"than it sent; Lmax is {self.Lmax}")
        self.note_slack("level", self.Lmax - 1 - most)

    def check_bytes(self):
        """Bytes owed in all are bytes unsent in all."""
        link = self.link
        owed = len(link.round_server.owed)
        unsent = sum([packet.length for packet in link.waiting]) + link.bytes_left
        accepted, sent, served = map(
            sum, (link.accepted_bytes, link.sent_bytes, link.served_bytes))
        if not owed == unsent == accepted - sent == accepted - served:
            self.fail("bytes", f"{owed} owed, {unsent} unsent; {accepted} accepted, "
                               f"{sent} sent, {served} served")

    def check_totals(self):
        totals = self.link.totals()
        if sum(totals) != self.link.accepted_count:
            self.fail("totals", f"{totals} do not add up to {self.link.accepted_count}")

    # A slot q is owed exactly if V <= q < n of its owner.

    def check_owed_slots(self):
        """The whole set, slot by slot: after each arrival and at the end."""
        server = self.link.round_server
        should_be = set()
        for session, n in enumerate(server.n):
            for slot in self.link.slots.slots_from(session, server.V):
                if slot >= n:
                    break
                should_be.add(slot)
        if len(server.owed) != len(should_be) or should_be != set(server.owed):
            wrong = sorted(should_be.symmetric_difference(server.owed))[:5]
            self.fail("owed slots", f"wrong at {wrong}, V is {server.V}, n is {server.n}")

    def check_cursor(self, V_before, served_slot):
        """What a tick changes in it: the slots that V went past.

        No n changes in a tick, so only the slots from the old V up to the new
        one stop being among those with V <= q < n. That must be the served
        slot and no other, and no owed slot may be left below V. With the whole
        set checked after each arrival, this checks it at each tick.
        """
        server = self.link.round_server
        if server.V < V_before:
            self.fail("owed slots", f"V went back from {V_before} to {server.V}")
        passed = [slot for slot in range(V_before, server.V)
                  if slot < server.n[self.link.slots.owner(slot)]]
        if passed != ([] if served_slot is None else [served_slot]):
            self.fail("owed slots", f"V passed the owed slots {passed}, served {served_slot}")
        if server.owed and server.owed[0] < server.V:  # owed[0] is the lowest
            self.fail("owed slots", f"a slot below V = {server.V} is still owed")
