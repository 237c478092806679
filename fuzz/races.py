"""Random guests of a few calls, for searches of all orders: ranks that send one another messages in every way, mostly
such as fit together, and calls between that look what is there."""

import assembler
import why

# where a hart's code stands: behind its rank's and its own number
DISPATCH = """\
_start: slli t0, a1, 1
        add  t0, t0, a0
        slli t0, t0, 3
        la   s0, room
        la   t1, codes
        add  t1, t1, t0
        ld   t1, 0(t1)
        jalr x0, 0(t1)
"""

# parts of the room: lists of handles, what comes in, statuses, and what goes out
LISTS, INCOMING, STATUSES, OUTGOING, ROOM = 0, 64, 128, 192, 256

# the argument that stands behind the room: what a call has in a5 that says that a send is buffered
BUFFERED = object()

SEND, SSEND, RECV, ISEND, ISSEND, IRECV, TEST, WAIT, IPROBE, PROBE = range(16, 26)
IMPROBE, MPROBE, IMRECV, MRECV, SEND_INIT, RECV_INIT, START, FREE, TESTALL, WAITALL = range(26, 36)
PSEND_INIT, PRECV_INIT, PREADY, PARRIVED = range(40, 44)


# what keeps a0 and a1 in the number that a hart ends with
KEPT = ["slli s11, s11, 2", "add s11, s11, a0", "add s11, s11, a1"]

# bytes of a partition, and how many there are
SHAPES = [(8, 1), (8, 2), (16, 1)]


class Races:
    """Guests that a draw makes."""

    def __init__(self, draw):
        self.draw, self.random = draw, draw.random
        self.ranks = self.harts = 2
        self.comms = []
        self.shape = SHAPES[0]
        self.labels = 0
        # how many registers of the hart whose code is made hold handles, and whether harts keep what each call answered
        self.held, self.tells = 0, False

    def below(self, count):
        """A number below another."""
        return self.random.randrange(count)

    def chance(self, part, of):
        """Whether something happens that does so in some of many cases."""
        return self.below(of) < part

    # ---- code

    @staticmethod
    def value(number, it):
        """The lines that give argument `number` a value: a number, a register's name, an address in the room, or the word that
        says that a send is buffered."""
        if it is BUFFERED:
            return [f"ld a{number}, {ROOM}(s0)"]
        if isinstance(it, str):
            return [f"mv a{number}, {it}"]
        if isinstance(it, tuple):
            return [f"addi a{number}, s0, {it[0]}"]
        return [f"li a{number}, {it}"]

    def made(self, number, *arguments):
        """The lines of a call."""
        lines = [line for place, it in enumerate(arguments) for line in self.value(place, it)]
        return [*lines, f"li a7, {number}", "ecall"]

    def call(self, number, *arguments):
        """The lines of a call, and perhaps those that keep what it answered for the hart's own code."""
        return self.made(number, *arguments) + (KEPT if self.tells else [])

    def again(self, number, *arguments):
        """The same of a call that is made until its a1 isn't 0, or it is refused: of its last answer, since a guest that
        counts its polls never comes to the same state again."""
        self.labels += 1
        name = f"again{self.labels}"
        lines = [f"{name}:", *self.made(number, *arguments), f"bnez a0, {name}x", f"beqz a1, {name}", f"{name}x:"]
        return lines + (KEPT if self.tells else [])

    def kept(self, lines):
        """The same lines with a1 kept behind them, and the register's name."""
        self.held += 1
        name = f"s{1 + self.held % 10}"
        return [*lines, f"mv {name}, a1"], name

    # ---- arguments

    def incoming(self):
        """A buffer for what comes in, and its capacity."""
        return (INCOMING + 8 * self.below(6),), self.random.choice([1, 2, 4, 8, 8, 8])

    def outgoing(self):
        """A buffer of what goes out, and its count."""
        return (OUTGOING + self.below(48),), self.random.choice([0, 1, 2, 8, 8])

    def status(self):
        """Where a status goes."""
        return (STATUSES + 8 * self.below(5),) if self.chance(1, 3) else 0

    def selected(self, message):
        """A source, a tag and a communicator by which a message is received, or perhaps another one."""
        source, _, tag, comm = message
        members = self.comms[comm]
        source = members.index(source)
        if self.chance(2, 5):
            source = -1
        if self.chance(2, 5):
            tag = -1
        return source, tag, comm

    # ---- pieces: lists of lines, between which the hart may do other things

    def completed(self, handle):
        """Ways to complete a request of which the handle is in a register."""
        other = f"s{1 + self.below(10)}"
        lists = (LISTS + 16 * self.below(3),)
        array = [f"sd {handle}, {lists[0]}(s0)", f"sd {other}, {lists[0] + 8}(s0)"]
        return self.draw.one(
            (lambda: [self.call(WAIT, handle, self.status())], 6),
            (lambda: [self.call(WAIT, handle, 0, 0, 0, 0, BUFFERED)], 0.5),
            (lambda: [self.call(TEST, handle, self.status())], 2),
            (lambda: [self.again(TEST, handle, self.status())], 2),
            (lambda: [self.call(TEST, handle, 0), self.call(WAIT, handle, self.status())], 2),
            (lambda: [array + self.call(WAITALL, lists, 1 + self.below(2), 0)], 2),
            (lambda: [array + self.call(WAITALL, lists, 1, 0, 0, 0, BUFFERED)], 0.5),
            (lambda: [array + self.call(TESTALL, lists, 1 + self.below(2), 0)], 1),
            (lambda: [array + self.again(TESTALL, lists, 1, 0)], 1),
            (lambda: [], 1),
        )

    def opened(self, *words):
        """A call that opens a request, and its completion."""
        lines, handle = self.kept(self.call(*words))
        return [lines, *self.completed(handle)]

    def persistent(self, *words):
        """A persistent request that is started once or twice."""
        lines, handle = self.kept(self.call(*words))
        pieces = [lines]
        for _ in range(self.random.choice([1, 1, 2])):
            pieces += [self.call(START, handle), *self.completed(handle)]
        return pieces + ([self.call(FREE, handle)] if self.chance(1, 3) else [])

    def sends(self, message):
        """A send of a message."""
        _, dest, tag, comm = message
        buffer, count = self.outgoing()
        words = [buffer, count, self.comms[comm].index(dest), tag, comm]
        return self.draw.one(
            (lambda: [self.call(SEND, *words)], 5),
            (lambda: [self.call(SEND, *words, BUFFERED)], 0.5),
            (lambda: [self.call(SSEND, *words)], 3),
            (lambda: self.opened(ISEND, *words), 2),
            (lambda: self.opened(ISSEND, *words), 3),
            (lambda: self.persistent(SEND_INIT, *words), 2),
        )

    def receives(self, message):
        """A receive of a message, perhaps behind a probe."""
        selected = self.selected(message)
        buffer, cap = self.incoming()
        probed = self.random.choice([selected, selected, self.selected(message)])
        words = [buffer, cap, *selected]
        return self.draw.one(
            (lambda: [self.call(RECV, *words, self.status())], 5),
            (lambda: self.opened(IRECV, *words), 5),
            (lambda: self.persistent(RECV_INIT, *words), 2),
            (lambda: [self.call(PROBE, *probed, self.status()), self.call(RECV, *words, self.status())], 2),
            (lambda: [self.again(IPROBE, *probed, self.status()), self.call(RECV, *words, 0)], 1),
            (lambda: [self.call(IPROBE, *probed, self.status()), self.call(RECV, *words, 0)], 1),
            (lambda: self.claims(MPROBE, selected, buffer, cap), 3),
            (lambda: self.claims(IMPROBE, selected, buffer, cap), 2),
        )

    def claims(self, number, selected, buffer, cap):
        """A matched probe and the receive of what it found."""
        make = self.again if number == IMPROBE and self.chance(1, 2) else self.call
        lines, handle = self.kept(make(number, *selected, self.status()))
        if self.chance(1, 2):
            return [lines, self.call(MRECV, buffer, cap, handle, self.status())]
        return [lines, *self.opened(IMRECV, buffer, cap, handle)]

    def exchanges(self, sent, received):
        """A send and a receive that hang together: a WAITALL of both, where perhaps nothing comes, or a send behind a matched probe
        of what is received behind the send."""
        selected = self.selected(received)
        buffer, cap = self.incoming()
        if self.chance(1, 2):
            claimed, *others = self.claims(MPROBE if self.chance(2, 3) else IMPROBE, selected, buffer, cap)
            return [claimed, *self.sends(sent), *others]
        _, dest, tag, comm = sent
        source, wanted, context = selected
        wanted = 2 if self.chance(1, 3) else wanted
        sends = self.kept(self.call(ISEND, *self.outgoing(), self.comms[comm].index(dest), tag, comm))
        receives = self.kept(self.call(IRECV, buffer, cap, source, wanted, context))
        both, lists = self.random.sample([sends, receives], 2), (LISTS + 16 * self.below(3),)
        handles = [handle for _, handle in self.random.sample(both, 2)]
        array = [f"sd {handle}, {lists[0] + 8 * place}(s0)" for place, handle in enumerate(handles)]
        buffered = [0, 0, BUFFERED] if self.chance(1, 10) else []
        return [*(lines for lines, _ in both), array + self.call(WAITALL, lists, 2, 0, *buffered)]

    def parts(self, link, is_source, token):
        """One side of a partitioned transfer, over a phase or two. A token may come behind the partitions of the first, so
        that the other side knows that they are there, and its look may miss them all the same."""
        size, count = self.random.choice(SHAPES) if self.chance(1, 6) else self.shape
        peer = link[1] if is_source else link[0]
        at = OUTGOING + 8 * self.below(4) if is_source else INCOMING + 8 * self.below(4)
        tag = 6 if self.chance(1, 8) else 5
        lines, handle = self.kept(self.call(PSEND_INIT if is_source else PRECV_INIT, (at,), count, size, peer, tag, 0))
        pieces = [lines]
        sent = [self.call(SEND, (OUTGOING,), 1, peer, 7, 0)] if token and is_source else []
        waited = [self.call(RECV, (STATUSES,), 1, peer, 7, 0, 0), self.call(PARRIVED, handle, 0)]
        for phase in range(self.random.choice([1, 1, 2])):
            pieces.append(self.call(START, handle))
            pieces += waited if token and phase == 0 and not is_source else []
            for part in self.random.sample(range(count), count):
                look = self.draw.one((lambda: self.again, 1), (lambda: self.call, 1))
                one = self.call(PREADY, handle, part) if is_source else look(PARRIVED, handle, part)
                pieces += [one] if is_source or token or self.chance(1, 2) else []
            pieces += sent if phase == 0 else []
            pieces.append(
                self.draw.one(
                    (lambda: self.call(WAIT, handle, self.status()), 4),
                    (lambda: self.again(TEST, handle, 0), 1),
                    (lambda: self.call(TEST, handle, 0), 1),
                )
            )
        return pieces + ([self.call(FREE, handle)] if self.chance(1, 3) else [])

    def looks(self, rank):
        """A call that looks what is there, or is wrong."""
        source, tag = self.random.choice([-1, *range(self.ranks)]), self.random.choice([-1, 0, 1])
        return self.draw.one(
            (lambda: [self.call(IPROBE, source, tag, 0, self.status())], 3),
            (lambda: [self.call(TEST, 1 + self.below(3), self.status())], 2),
            (lambda: [self.call(PREADY, 1 + self.below(2), self.below(2))], 1),
            (lambda: [self.call(PARRIVED, 1 + self.below(2), self.below(2))], 1),
            (lambda: [self.call(START, 1 + self.below(3))], 1),
            (lambda: [self.call(SEND, (OUTGOING,), 8, rank, tag if tag >= 0 else 0, 0)], 1),
            (lambda: [self.call(IRECV, *self.incoming(), source, tag, 0)], 1),
            (lambda: [self.call(MRECV, *self.incoming(), 1 + self.below(4), 0)], 1),
            (lambda: [[f"ld t2, {self.below(64)}(s0)"]], 0.2),
        )

    # ---- guests

    def message(self):
        """Whose a message is, to whom, and its tag and communicator."""
        comm = self.random.choice([0, 0, self.below(len(self.comms))])
        members = self.comms[comm]
        source = self.random.choice(members)
        others = [rank for rank in members if rank != source]
        dest = self.random.choice(others) if others and not self.chance(1, 12) else source
        return source, dest, self.below(2), comm

    def merged(self, things):
        """The pieces of several things, each in its order, and in any order with those of others."""
        things, lines = [list(pieces) for pieces in things], []
        while things := [pieces for pieces in things if pieces]:
            lines += self.random.choice(things[:2] if self.chance(2, 3) else things).pop(0)
        return lines

    def drawn(self):
        """A guest, and its plan or None."""
        self.ranks, self.harts = self.random.choice([2, 2, 3, 3, 3]), self.random.choice([1, 1, 1, 2])
        everybody = list(range(self.ranks))
        self.comms = [everybody] + [self.random.sample(everybody, 2) for _ in range(self.random.choice([0, 0, 1]))]
        messages = [self.message() for _ in range(self.random.choice([0, 1, 2, 2, 3, 3, 4]))]
        links = [self.random.sample(everybody, 2)] if self.chance(1, 3) or not messages else []
        token, self.shape = self.chance(1, 3), self.random.choice(SHAPES)
        self.tells, shows = self.chance(3 if links and token else 1, 4), self.chance(1, 2)
        image = self.image(links, 64 if shows else 0, lambda rank, hart: self.things(rank, hart, messages, links, token))
        plans = [None] if self.harts == 1 else [None, [0, 1], [1, 0], [0, 0, 1], [0, 1, 1], [1], [0]]
        return image, self.random.choice(plans)

    def image(self, links, shown, things_of):
        """The image of a guest with these links, whose harts show so many bytes of what came in, by what each hart does."""
        lines = [f".ranks {self.ranks}", f".harts {self.harts}", f".memory {4096 * self.harts}"]
        lines += [".comm " + ", ".join(map(str, comm)) for comm in self.comms[1:]]
        lines += [f".link {source}, {dest}" for source, dest in links] + [DISPATCH]
        for number in range(2 * self.ranks):
            self.held = 0
            rank, hart = number >> 1, number & 1
            lines += [f"code{number}:", *self.merged([] if hart >= self.harts else things_of(rank, hart))]
            lines += self.call(1, (INCOMING,), shown) if shown and hart < self.harts else []
            lines += ["mv a0, s11", "li a7, 0", "ecall"]
        lines += [".data", f"room: .zero {ROOM}", f".dword {why.BUFFERED}", "codes:"]
        lines += [".dword " + ", ".join(f"code{number}" for number in range(2 * self.ranks))]
        image = assembler.assembled("\n".join(lines).encode() + b"\n")
        image.data = bytes(OUTGOING) + bytes(range(1, 1 + ROOM - OUTGOING)) + image.data[ROOM:]
        return image

    def things(self, rank, hart, messages, links, token):
        """What a hart does: its rank's part in each message and link, or where there is another hart what is drawn of it."""
        mine = [message for message in messages if self.harts == 1 or self.chance(7 if hart else 6, 12)]
        sent, received = ([message for message in mine if message[side] == rank] for side in (0, 1))
        things = [self.exchanges(sent.pop(), received.pop())] if sent and received and self.chance(1, 3) else []
        things += [*map(self.sends, sent), *map(self.receives, received)]
        for link in links:
            if rank in link and hart == 0:
                things.append(self.parts(link, rank == link[0], token))
        things += [self.looks(rank)] if self.chance(1, 4) else []
        self.random.shuffle(things)
        return things[:-1] if things and self.chance(1, 15) else things
