"""Random guests: tables of calls, transfers in pieces, and runs of instructions, each as an image."""

import random as randoms

import assembler
from formats import Image

WORD = 1 << 64

# a rank's hart goes through its table of calls, seven words a row, puts out a0 and a1 behind each, and at last the room
TABLE = """\
_start: slli t0, a1, 2
        add  t0, t0, a0
        slli t0, t0, 3
        la   t1, tables
        add  t1, t1, t0
        ld   s0, 0(t1)
row:    ld   a7, 0(s0)
        bltz a7, last
        ld   a0, 8(s0)
        ld   a1, 16(s0)
        ld   a2, 24(s0)
        ld   a3, 32(s0)
        ld   a4, 40(s0)
        ld   a5, 48(s0)
        addi s0, s0, 56
        ecall
        sd   a0, -16(sp)
        sd   a1, -8(sp)
        addi a0, sp, -16
        li   a1, 16
        li   a7, 1
        ecall
        j    row
last:   la   a0, room
        li   a1, 512
        li   a7, 1
        ecall
        mv   a0, a7
        li   a7, 0
        ecall
        .data
room:   .zero 512
"""

# where the room stands: behind the text, whose `la`s are two words
ROOM = 128

VALUES = [0, 1, 2, 7, 8, 63, 64, 255, 4095, 4096, (1 << 31) - 1, 1 << 31, (1 << 32) - 1, 1 << 32]
VALUES += [(1 << 63) - 1, 1 << 63, WORD - 1, WORD - 2, WORD - 8, WORD - (1 << 31)]

# calls and how often each is made
CALLS = {1: 2, 2: 1, 3: 1, 4: 1, 16: 8, 17: 2, 18: 4, 19: 5, 20: 4, 21: 7, 22: 9, 23: 3, 24: 3, 25: 1, 26: 4, 27: 1}
CALLS.update({28: 4, 29: 4, 30: 3, 31: 3, 32: 7, 33: 3, 34: 4, 35: 2, 40: 3, 41: 3, 42: 6, 43: 5, 0: 1, 5: 1})


class Guests:
    """What is drawn at random, from one seed."""

    def __init__(self, seed):
        self.random = randoms.Random(seed)
        self.ranks = self.harts = 1
        self.memory = 65536
        self.comms = 0

    def one(self, *weighted):
        """One of several things, each with a weight."""
        return self.random.choices([thing for thing, _ in weighted], [weight for _, weight in weighted])[0]()

    def below(self, count):
        """A number below another."""
        return self.random.randrange(count)

    def value(self):
        """A number of 64 bits."""
        return self.one(
            (lambda: self.random.choice(VALUES), 5),
            (lambda: self.below(64), 2),
            (lambda: self.random.getrandbits(64), 3),
        )

    # ---- arguments of calls, mostly such as are right

    def buffer(self):
        """An address of a buffer."""
        return self.one(
            (lambda: ROOM + self.below(480), 30),
            (lambda: self.below(ROOM), 1),
            (lambda: self.memory - self.below(40), 2),
            (self.value, 1),
        )

    def count(self):
        """A number of bytes."""
        return self.one(
            (lambda: self.below(24), 20), (lambda: self.random.choice([0, 600, 4096, 4097, 5000, WORD - 1]), 1)
        )

    def peer(self, wild=True):
        """A position."""
        near = [WORD - 1, WORD - 2, WORD - 3, self.ranks, 9, 1 << 32]
        return self.one(
            (lambda: self.below(self.ranks), 20),
            (lambda: WORD - 1 if wild else self.below(self.ranks), 4),
            (lambda: self.random.choice(near), 2),
        )

    def tag(self, wild=True):
        """A tag."""
        near = [WORD - 1, WORD - 2, 32767, 32768, 65536]
        return self.one(
            (lambda: self.below(2), 20),
            (lambda: WORD - 1 if wild else 0, 4),
            (lambda: self.random.choice(near), 1),
        )

    def comm(self):
        """A communicator."""
        return self.one((lambda: 0, 8), (lambda: self.below(self.comms + 1), 3), (lambda: self.below(10), 1))

    def handle(self):
        """A request's handle."""
        return self.one((lambda: 1 + self.below(6), 25), (lambda: self.random.choice([0, 7, 255, 256, WORD - 1]), 2))

    def message(self):
        """A message's handle."""
        return self.one((lambda: 1 + self.below(14), 12), (lambda: self.random.choice([0, WORD - 1, WORD - 2]), 2))

    def status(self):
        """Where a status goes."""
        return self.one((lambda: 0, 10), (lambda: ROOM + self.below(480), 9), (self.buffer, 1))

    def parts(self):
        """A number of partitions."""
        return self.one((lambda: 1 + self.below(4), 9), (lambda: self.random.choice([0, 16, 17, WORD - 1]), 1))

    def size(self):
        """A partition's bytes."""
        return self.one(
            (lambda: 8 * (1 + self.below(4)), 9), (lambda: self.random.choice([0, 12, 64, 72, 128, 136]), 1)
        )

    def call(self):
        """A row of a table."""
        number = self.random.choices(list(CALLS), list(CALLS.values()))[0]
        if number in (16, 17, 19, 20, 30):
            row = [self.buffer(), self.count(), self.peer(False), self.tag(False), self.comm()]
        elif number in (18, 21, 31):
            row = [self.buffer(), self.count(), self.peer(), self.tag(), self.comm(), self.status()]
        elif number in (22, 23):
            row = [self.handle(), self.status()]
        elif number in (24, 25, 26, 27):
            row = [self.peer(), self.tag(), self.comm(), self.status()]
        elif number in (28, 29):
            row = [self.buffer(), self.count(), self.message(), self.status()]
        elif number in (32, 33):
            row = [self.handle()]
        elif number in (34, 35):
            row = [self.buffer() & ~7, self.one((lambda: self.below(4), 9), (lambda: 255 + self.below(2), 1))]
            row.append(self.status())
        elif number in (40, 41):
            row = [self.buffer(), self.parts(), self.size(), self.peer(False), self.tag(False), self.comm()]
        elif number in (42, 43):
            row = [self.handle(), self.one((lambda: self.below(4), 9), (self.value, 1))]
        else:
            row = [self.one((self.buffer, 1), (self.comm, 2)), self.count()]
        return [number, *row]

    # ---- guests

    def cluster(self):
        """Ranks, harts, communicators and links of a guest, as lines of its source."""
        self.ranks, self.harts = self.random.choice([1, 2, 2, 2, 3, 3, 4, 8]), self.random.choice([1, 1, 1, 2, 3, 4])
        lines = [f".ranks {self.ranks}", f".harts {self.harts}"]
        self.comms = self.below(3)
        for _ in range(self.comms):
            members = self.random.sample(range(self.ranks), 1 + self.below(self.ranks))
            lines.append(".comm " + ", ".join(map(str, members)))
        for _ in range(self.below(5) if self.ranks > 1 else 0):
            lines.append(".link {}, {}".format(*self.random.sample(range(self.ranks), 2)))
        return lines

    def image(self, lines, tables):
        """The image of a guest that goes through tables, one for each hart of each rank."""
        data = [".balign 8", "tables:"]
        for rank in range(8):
            names = [f"r{rank}h{hart}" if (rank, hart) in tables else "0" for hart in range(4)]
            data.append(".dword " + ", ".join(names))
        for (rank, hart), rows in tables.items():
            data.append(f"r{rank}h{hart}:")
            data += [".dword " + ", ".join(map(str, (row + [0] * 7)[:7])) for row in rows]
            data.append(".dword -1")
        image = assembler.assembled("\n".join([TABLE, *lines, *data]).encode())
        image.version = self.random.choice([1, 2, 2])
        image.data = self.seeded(image.data)
        return image

    def seeded(self, data):
        """The data with a room that has handles in its first words, for arrays, and other bytes behind."""
        words = [self.handle() if self.below(2) else 0 for _ in range(24)]
        room = b"".join(word.to_bytes(8, "little") for word in words) + self.random.randbytes(512 - 192)
        return room + data[512:]

    def calls(self):
        """A guest whose harts go through random calls."""
        lines = self.cluster()
        tables = {}
        for rank in range(self.ranks):
            for hart in range(self.harts):
                tables[(rank, hart)] = [self.call() for _ in range(3 + self.below(22))]
        if self.below(12) == 0:
            # one hart opens all handles, or more
            tables[(0, 0)] = 260 * [[31, ROOM, 8, WORD - 2, 0]] + tables[(0, 0)]
        return self.image(lines, tables)

    def pieces(self):
        """A guest whose first two ranks move buffers in pieces, with tries in any order."""
        self.ranks, self.harts, self.comms = 2, self.random.choice([1, 1, 2]), 0
        lines = [".ranks 2", f".harts {self.harts}"] + [".link 0, 1", ".link 1, 0"] * (1 + self.below(2))
        size, parts = self.random.choice([(8, 6), (16, 3), (24, 2), (48, 1), (32, 4), (64, 2), (64, 3)])
        total = size * parts
        cuts = [(cut, total // cut) for cut in range(8, 129, 8) if total % cut == 0 and total // cut <= 16]
        if self.below(8) == 0:
            # mostly another total
            cuts = [(16, 3), (8, 5), (128, 1)]
        tables = {}
        for rank in (0, 1):
            for hart in range(self.harts):
                tables[(rank, hart)] = self.phases(rank, (size, parts), self.random.choice(cuts))
        return self.image(lines, tables)

    def phases(self, rank, own, other):
        """The calls of one side of a transfer, over some phases."""
        sends = self.below(5) if rank else self.below(5) + 1
        size, parts = own if sends else other
        rows = [[40 if sends else 41, ROOM + 8 * self.below(20), parts, size, 1 - rank, 0, 0]]
        for _ in range(1 + self.below(3)):
            rows += [[32, 1]] if self.below(8) else []
            tries = [[42 if sends else 43, 1, part] for part in range(parts)]
            tries += [self.random.choice([[22, 1, self.status()], [43, 1, self.below(parts)]]) for _ in range(4)]
            self.random.shuffle(tries)
            rows += tries + ([[23, 1, self.status()]] if self.below(4) else [])
        return rows + [[33, 1]]

    def words(self):
        """A guest of random instructions, which puts all registers out at its end."""
        self.ranks, self.harts = 1, self.random.choice([1, 1, 2])
        count = 10 + self.below(80)
        # the registers come from the data, and go into it at the end: both stand below 2,048
        length = 4 * (31 + count + 31 + 9)
        data_at = -(-length // 16) * 16
        words = [assembler.word_i(0x03, 3, number, 0, data_at + 8 * number) for number in range(1, 32)]
        words += [self.instruction(data_at) for _ in range(count)]
        words += [assembler.word_s(3, number, 0, data_at + 8 * number) for number in range(1, 32)]
        put = [(10, data_at), (11, 256), (17, 1), None, (10, 0), (17, 0), None]
        words += [assembler.word_i(0x13, 0, pair[0], 0, pair[1]) if pair else 0x73 for pair in put]
        words += [0x73, 0x73]
        data = b"".join(self.value().to_bytes(8, "little") for _ in range(32))
        text = b"".join(word.to_bytes(4, "little") for word in words)
        return Image(text, data, 2, self.ranks, self.harts)

    def chosen(self, rows):
        """A row of a table of mnemonics."""
        return self.random.choice(list(rows.values()))

    def register(self):
        """A register."""
        return self.below(32)

    def immediate(self):
        """A number of 12 bits with a sign."""
        return self.random.choice([0, 1, -1, 7, -8, 2047, -2048, self.below(4096) - 2048])

    def instruction(self, data_at):
        """An instruction, rarely a word of any bits."""
        rd, a, b = self.register(), self.register(), self.register()
        near = data_at + self.below(256)
        return self.one(
            (lambda: assembler.word_r(*self.chosen(assembler.THREE), rd, a, b), 20),
            (lambda: assembler.word_i(*self.chosen(assembler.IMMEDIATE), rd, a, self.immediate()), 8),
            (lambda: self.shift(rd, a), 6),
            (lambda: assembler.word_u(self.random.choice([0x37, 0x17]), rd, self.random.getrandbits(20)), 2),
            (lambda: self.access(rd, near), 8),
            (lambda: assembler.word_i(0x03, self.below(8), rd, a, self.immediate()), 0.2),
            (lambda: assembler.word_s(self.below(4), b, a, self.immediate()), 0.2),
            (lambda: assembler.word_b(self.random.choice([0, 1, 4, 5, 6, 7]), a, b, 4 * (1 + self.below(4))), 4),
            (lambda: assembler.word_j(rd, 4 * (1 + self.below(4))), 1),
            (lambda: 0x0F | self.random.getrandbits(20) << 12 & 0xFFFF8000 | rd << 7, 0.5),
            (lambda: self.random.getrandbits(32), 0.05),
            (lambda: assembler.word_i(0x67, 0, rd, a, self.immediate()), 0.1),
        )

    def shift(self, rd, a):
        """A shift by an amount."""
        opcode, funct3, bits, most = self.chosen(assembler.SHIFTS)
        return assembler.word_i(opcode, funct3, rd, a, bits | self.below(most + 1))

    def access(self, register, near):
        """A load or a store near the data, mostly aligned."""
        funct3 = self.below(7)
        width = (1, 2, 4, 8, 1, 2, 4)[funct3]
        at = near if self.below(40) == 0 else near // width * width
        if self.below(2) or funct3 > 3:
            return assembler.word_i(0x03, funct3, register, 0, at)
        return assembler.word_s(funct3, register, 0, at)

    def anything(self):
        """A guest of some kind."""
        return self.one((self.calls, 4), (self.pieces, 2), (self.words, 3))
