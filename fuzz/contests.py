"""Random guests whose ranks contest one another's messages: several send alike ones to one rank, and what a rank does next
depends on whose message it got."""

import races
from races import IMPROBE, INCOMING, IPROBE, IRECV, ISSEND, LISTS, MPROBE, OUTGOING, PROBE, RECV, SEND, STATUSES, TEST, TESTALL
from races import WAITALL


# the calls that claim, and those that go on where nothing is there
CLAIMS, POLLS = (26, 27, 28, 29), (22, 24, 26, 34)


class Contests(races.Races):
    """Guests that a draw makes. Most have no link or second hart, with which nothing goes first, and no claim, which contests all
    that others send and receive. In many, one rank alone polls, and most messages go to others, so that they are nothing to it.
    In some, messages leave no trace: they come to a buffer that is cleared, and no status is kept. So states differ in nothing
    but posts, whoever made those that are over."""

    def __init__(self, draw):
        super().__init__(draw)
        self.left_out = set()
        # the ranks that poll; the one that never ends, or None; and the one to which most messages go
        self.pollers, self.spinning, self.to = [], None, 0
        self.claims_too = self.is_traceless = False

    def such(self, make):
        """What is drawn, without the calls that the guest hasn't."""
        while True:
            held, pieces = self.held, make()
            if not any(line in self.left_out for piece in pieces for line in piece):
                return pieces
            self.held = held

    def sends(self, message):
        """A send of a message."""
        return self.such(lambda: super(Contests, self).sends(message))

    def receives(self, message):
        """A receive of a message."""
        if self.claims_too and self.chance(1, 3):
            selected, numbers = self.selected(message), [IMPROBE, MPROBE]
            pieces = self.such(lambda: self.claims(self.random.choice(numbers), selected, *self.incoming()))
        else:
            pieces = self.such(lambda: super(Contests, self).receives(message))
        return [*pieces[:-1], pieces[-1] + self.cleared(1)] if self.is_traceless else pieces

    def exchanges(self, sent, received):
        """A send and a receive that hang together."""
        pieces = self.such(lambda: super(Contests, self).exchanges(sent, received))
        return [*pieces[:-1], pieces[-1] + self.cleared(1)] if self.is_traceless else pieces

    @staticmethod
    def cleared(count):
        """The lines that clear so many buffers, so that nothing is left of what came."""
        return [f"sd x0, {INCOMING + 8 * place}(s0)" for place in range(count)]

    def receives_together(self, messages):
        """Receives that are posted one after another, and completed together. What came may be left."""
        pieces = []
        for place, message in enumerate(messages):
            lines, handle = self.kept(self.call(IRECV, (INCOMING + 8 * place,), 8, *self.selected(message)))
            pieces.append([*lines, f"sd {handle}, {LISTS + 8 * place}(s0)"])
        many = (LISTS,), len(messages), 0
        pieces += self.such(
            lambda: self.draw.one(
                (lambda: [self.call(WAITALL, *many)], 2),
                (lambda: [self.call(TESTALL, *many), self.call(WAITALL, *many)], 1),
                (lambda: [self.again(TESTALL, *many)], 1),
            )
        )
        return [*pieces, self.cleared(len(messages))] if self.chance(1, 2) else pieces

    def incoming(self):
        """A buffer for what comes in, and its capacity."""
        return ((INCOMING,), 8) if self.is_traceless else super().incoming()

    def outgoing(self):
        """A buffer of what goes out, and its count: perhaps what came in goes on."""
        return ((INCOMING,), 8) if self.is_traceless and self.chance(1, 4) else super().outgoing()

    def status(self):
        """Where a status goes."""
        return 0 if self.is_traceless else super().status()

    def looks(self, rank):
        """A call that looks what is there, or is wrong."""
        return self.such(lambda: super(Contests, self).looks(rank))

    def further(self, rank):
        """What a rank does in one case alone."""
        other = self.below(self.ranks)
        source, tag = self.random.choice([-1, other]), self.random.choice([-1, 0, 1])
        return self.draw.one(
            (lambda: self.call(SEND, (OUTGOING,), 8, other, self.below(2), 0), 4),
            (lambda: self.call(races.SSEND, (OUTGOING,), 8, other, self.below(2), 0), 1),
            (lambda: self.call(RECV, *self.incoming(), source, tag, 0, self.status()), 3),
            (lambda: self.call(races.IRECV, *self.incoming(), source, tag, 0), 2),
            (lambda: self.call(IPROBE, source, tag, 0, self.status()), 1),
            (lambda: self.again(IPROBE, source, tag, 0, 0), 1),
            (lambda: self.call(PROBE, source, tag, 0, self.status()), 1),
            (lambda: self.call(TEST, 1 + self.below(2), 0), 1),
            (lambda: ["ld t2, 3(s0)"], 1),
            (lambda: ["ebreak"], 1),
            (self.spin, 1),
            (lambda: ["mv a0, s11", "li a7, 0", "ecall"], 1),
        )

    def spin(self):
        """A loop that never ends."""
        self.labels += 1
        return [f"spin{self.labels}: j spin{self.labels}"]

    def case(self, rank):
        """Something that a rank does where a byte of what came in, or of a status, is this one."""
        return self.such(lambda: [self.drawn_case(rank)])[0]

    def drawn_case(self, rank):
        """The same with any call."""
        self.labels += 1
        at = self.random.choice([STATUSES + 8 * self.below(5), INCOMING + 8 * self.below(6)])
        name, value = f"case{self.labels}", self.random.choice([0, 1, 2, 1 + self.below(16)])
        condition = self.random.choice(["beq", "bne"])
        return [f"lbu t2, {at}(s0)", f"li t3, {value}", f"{condition} t2, t3, {name}", *self.further(rank), f"{name}:"]

    def things_in_cases(self, rank, messages, links):
        """What a rank does: its part in each message, and more in some cases."""
        self.left_out = self.missing(rank)
        together = [message for message in messages if message[1] == rank][:3] if self.is_traceless else []
        together = together if len(together) > 1 and self.chance(1, 2) else []
        things = self.things(rank, 0, [message for message in messages if message not in together], links, False)
        things += [self.receives_together(together)] if together else []
        for pieces in things:
            if self.chance(1, 4):
                pieces.insert(1 + self.below(len(pieces)), self.case(rank))
        things += [self.polls(rank)] if rank in self.pollers and self.chance(2, 3) else []
        things += [[self.spin()]] if rank == self.spinning else []
        return things + ([[self.case(rank)]] if self.chance(1, 3) else [])

    def missing(self, rank):
        """The lines of the calls that a rank hasn't."""
        none = set() if self.claims_too else set(CLAIMS)
        none |= set() if rank in self.pollers else set(POLLS)
        return {f"li a7, {number}" for number in none}

    def polls(self, rank):
        """Polls of a rank, few or many, for what may come to it or not, or of a synchronous send of its own."""
        selected = self.random.choice([-1, self.below(self.ranks)]), self.random.choice([-1, 0, 1]), 0
        other = self.random.choice([number for number in range(self.ranks) if number != rank])
        lines, handle = self.draw.one(
            (lambda: self.kept(self.call(IRECV, *self.incoming(), *selected)), 3),
            (lambda: self.kept(self.call(ISSEND, *self.outgoing(), other, self.below(2), 0)), 2),
        )
        array = [f"sd {handle}, {LISTS}(s0)"]
        return self.such(
            lambda: self.draw.one(
                (lambda: [self.call(IPROBE, *selected, 0) for _ in range(1 + self.below(3))], 4),
                (lambda: [self.call(IMPROBE, *selected, 0)], 2),
                (lambda: [lines] + [self.call(TEST, handle, 0) for _ in range(1 + self.below(3))], 3),
                (lambda: [lines] + [[*array, *self.call(TESTALL, (LISTS,), 1, 0)] for _ in range(1 + self.below(2))], 3),
            )
        )

    def message(self):
        """Whose a message is, to whom, and its tag and communicator."""
        source, dest, tag, comm = super().message()
        return source, self.to if self.to in self.comms[comm] and source != self.to and self.chance(2, 3) else dest, tag, comm

    def selected(self, message):
        """A source, a tag and a communicator by which a message is received: mostly any source."""
        source, tag, comm = super().selected(message)
        return -1 if self.chance(1, 2) else source, tag, comm

    def alike(self, message):
        """Messages of several ranks that differ in whose they are alone."""
        source, dest, tag, comm = message
        others = [rank for rank in self.comms[comm] if rank not in (source, dest)]
        return [message] + [(rank, dest, tag, comm) for rank in others[:1]]

    def drawn(self):
        """A guest, and its plan or None."""
        self.ranks, self.harts = self.random.choice([2, 2, 2, 3, 3, 3, 3, 3, 4]), 1
        if self.chance(1, 40):
            self.harts = 2
        self.claims_too, everybody = self.chance(1, 3), list(range(self.ranks))
        self.pollers = self.random.choice([[], [self.below(self.ranks)], [self.below(self.ranks)], everybody])
        self.comms = [everybody] + [self.random.sample(everybody, 2) for _ in range(self.random.choice([0, 0, 1]))]
        self.spinning = self.below(self.ranks) if self.chance(1, 8) else None
        self.to = self.random.choice([rank for rank in everybody if [rank] != self.pollers])
        self.is_traceless = self.chance(1, 3)
        messages, most = [], 6 if self.is_traceless else 4
        for _ in range(self.random.choice([1, 1, 2, 2, 2, 3]) + (most - 4)):
            one = self.message()
            messages += self.alike(one) if self.chance(1, 2) else [one]
        links = [self.random.sample(everybody, 2)] if self.chance(1, 30) else []
        self.tells, self.shape = not self.is_traceless and self.chance(2, 3), self.random.choice(races.SHAPES)
        # all of what came in and of the statuses is shown
        shown = OUTGOING - INCOMING
        image = self.image(links, shown, lambda rank, hart: self.things_in_cases(rank, messages[:most], links))
        return image, self.random.choice([None, [0]]) if self.harts == 2 else None
