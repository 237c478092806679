"""Random guests whose ranks only wait for named ranks, so that messages on their way change nothing (docs/OVERTAKING.md); or
such with calls of one kind more, of which they may."""

import races
from races import BUFFERED, FREE, IMPROBE, IMRECV, IPROBE, IRECV, ISEND, ISSEND, LISTS, MPROBE, MRECV, OUTGOING, PARRIVED, PREADY
from races import PROBE, RECV, RECV_INIT, SEND, SEND_INIT, SSEND, START, STATUSES, TEST, TESTALL, WAIT, WAITALL

# what such guests don't have, each by what it is called here
KINDS = ["receive", "probe", "mprobe", "improbe", "test", "test-sync", "testall", "iprobe", "harts"]


class Waits(races.Races):
    """Guests that a draw makes. Most have a message that another one may overtake: a rank sends to a second, and then to a third,
    which sends to the second because of that."""

    def __init__(self, draw, but=None):
        super().__init__(draw)
        # the kind of calls that it may have too, or None
        self.but = but

    def has(self, kind):
        """Whether a call of this kind is made here."""
        return self.but == kind and self.chance(3, 4)

    def selected(self, message):
        """A source, a tag and a communicator by which a message is received, or perhaps another one."""
        source, tag, comm = super().selected(message)
        return self.comms[comm].index(message[0]) if source < 0 else source, tag, comm

    def any_source(self, selected, kind):
        """The same of any source, if the guest may ask so."""
        return (-1, *selected[1:]) if self.has(kind) else selected

    def completed(self, handle):
        """Ways to complete a request of which the handle is in a register."""
        other = f"s{1 + self.below(10)}"
        lists = (LISTS + 16 * self.below(3),)
        array = [f"sd {handle}, {lists[0]}(s0)", f"sd {other}, {lists[0] + 8}(s0)"]
        return self.draw.one(
            (lambda: [self.call(WAIT, handle, self.status())], 6),
            (lambda: [self.call(WAIT, handle, 0, 0, 0, 0, BUFFERED)], 0.5),
            (lambda: [array + self.call(WAITALL, lists, 1 + self.below(2), 0)], 2),
            (lambda: [], 1),
        )

    def looked(self, handle, kind):
        """Looks whether a request is complete, if the guest may look so, and its completion."""
        array = [f"sd {handle}, {LISTS}(s0)"]
        looks = {
            kind: lambda: [self.call(TEST, handle, self.status())],
            "testall": lambda: [array + self.call(TESTALL, (LISTS,), 1, 0)],
        }
        look = looks.get(self.but)
        return [*(look() if look and self.has(self.but) else []), *self.completed(handle)]

    def opened_by(self, kind, *words):
        """A call that opens a request, looks at it, and its completion."""
        lines, handle = self.kept(self.call(*words))
        return [lines, *self.looked(handle, kind)]

    def persistent_by(self, kind, *words):
        """A persistent request that is started once or twice."""
        lines, handle = self.kept(self.call(*words))
        pieces = [lines]
        for _ in range(self.random.choice([1, 1, 2])):
            pieces += [self.call(START, handle), *self.looked(handle, kind)]
        return pieces + ([self.call(FREE, handle)] if self.chance(1, 3) else [])

    def sends(self, message):
        """A send of a message."""
        _, dest, tag, comm = message
        buffer, count = self.outgoing()
        words = [buffer, count, self.comms[comm].index(dest), tag, comm]
        return self.draw.one(
            (lambda: [self.call(SEND, *words)], 5),
            (lambda: [self.call(SEND, *words, BUFFERED)], 0.5),
            (lambda: [self.call(SSEND, *words)], 3),
            (lambda: self.opened_by("test-sent", ISEND, *words), 2),
            (lambda: self.opened_by("test-sync", ISSEND, *words), 3 if self.but != "test-sync" else 9),
            (lambda: self.persistent_by("test-sent", SEND_INIT, *words), 2),
        )

    def receives(self, message):
        """A receive of a message, perhaps behind a probe."""
        selected = self.selected(message)
        buffer, cap = self.incoming()
        probed = self.any_source(self.random.choice([selected, selected, self.selected(message)]), "probe")
        words = [buffer, cap, *self.any_source(selected, "receive")]
        if self.has("mprobe"):
            return self.claims(MPROBE, selected, buffer, cap)
        if self.has("improbe"):
            return self.claims(IMPROBE, selected, buffer, cap)
        if self.has("iprobe"):
            return [self.call(IPROBE, *probed, self.status()), self.call(RECV, *words, 0)]
        return self.draw.one(
            (lambda: [self.call(RECV, *words, self.status())], 5),
            (lambda: self.opened_by("test", IRECV, *words), 5),
            (lambda: self.persistent_by("test", RECV_INIT, *words), 2),
            (lambda: [self.call(PROBE, *probed, self.status()), self.call(RECV, *words, self.status())], 3),
        )

    def claims(self, number, selected, buffer, cap):
        """A matched probe and the receive of what it found."""
        lines, handle = self.kept(self.call(number, *selected, self.status()))
        if self.chance(1, 2):
            return [lines, self.call(MRECV, buffer, cap, handle, self.status())]
        return [lines, *self.opened_by("", IMRECV, buffer, cap, handle)]

    def exchanges(self, sent, received):
        """A send and a receive that are completed together."""
        _, dest, tag, comm = sent
        source, wanted, context = self.any_source(self.selected(received), "receive")
        buffer, cap = self.incoming()
        kind = self.random.choice([ISEND, ISSEND])
        sends = self.kept(self.call(kind, *self.outgoing(), self.comms[comm].index(dest), tag, comm))
        receives = self.kept(self.call(IRECV, buffer, cap, source, wanted, context))
        both, lists = self.random.sample([sends, receives], 2), (LISTS + 16 * self.below(3),)
        array = [f"sd {handle}, {lists[0] + 8 * place}(s0)" for place, (_, handle) in enumerate(both)]
        looks = array + self.call(TESTALL, lists, 2, 0) if self.has("testall") else []
        return [*(lines for lines, _ in both), looks + array + self.call(WAITALL, lists, 2, 0)]

    def looks(self, rank):
        """A call that looks at a partition, or is wrong, or sends to itself."""
        return self.draw.one(
            (lambda: [self.call(PREADY, 1 + self.below(2), self.below(2))], 1),
            (lambda: [self.call(PARRIVED, 1 + self.below(2), self.below(2))], 1),
            (lambda: [self.call(START, 1 + self.below(3))], 1),
            (lambda: [self.call(SEND, (OUTGOING,), 8, rank, self.below(2), 0)], 1),
            (lambda: [self.call(WAIT, 1 + self.below(3), self.status())], 1),
            (lambda: [[f"ld t2, {self.below(64)}(s0)"]], 0.2),
        )

    def overtaken(self):
        """Three messages, of which the last is sent because of the second and may overtake the first."""
        one, other, to = self.random.sample(range(3), 3)
        return [(one, to, self.below(2), 0), (one, other, self.below(2), 0), (other, to, self.below(2), 0)]

    def in_order(self, rank, messages):
        """What a rank does of messages that have an order: its part in each, one after another."""
        pieces = []
        for message in messages:
            if message[0] == rank:
                pieces += self.sends(message)
            if message[1] == rank:
                pieces += self.receives(message)
        return pieces

    def drawn(self):
        """A guest, and its plan or None."""
        self.harts = 2 if self.but == "harts" else 1
        relayed = self.but is not None or self.chance(3, 4)
        self.ranks = 3 if relayed else self.random.choice([2, 3])
        everybody = list(range(self.ranks))
        self.comms = [everybody] + [self.random.sample(everybody, 2) for _ in range(self.random.choice([0, 0, 1]))]
        first = self.overtaken() if relayed else []
        many = [0, 0, 0, 1] if self.but else [0, 0, 1] if relayed else [1, 2, 3]
        messages = [self.message() for _ in range(self.random.choice(many))]
        links = [self.random.sample(everybody, 2)] if self.chance(0 if messages and relayed else 1, 5) else []
        token, self.shape = self.chance(1, 3), self.random.choice(races.SHAPES)
        self.tells, shows = self.chance(1, 2), self.chance(3, 4)

        def things(rank, hart):
            some = self.things(rank, hart, messages, links, token)
            if self.harts == 2:
                mine = [message for message in first if self.chance(1, 2)]
                return [*some, self.in_order(rank, mine)]
            return [*some, self.in_order(rank, first)]

        image = self.image(links, 128 if shows else 0, things)
        plans = [None] if self.harts == 1 else [None, [0, 1], [1, 0], [0, 0, 1], [0, 1, 1]]
        return image, self.random.choice(plans)
