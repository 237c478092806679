"""Ways out of functions that keep no frame pointer, as docs/DEBUGGING.md ("Inside a library") tells them."""

import machine
import places

RA, SP, T0, T1, S0 = 1, 2, 5, 6, 8
# registers whose sums sp may be
FOLLOWED = (SP, T0, T1, S0)

# of instructions: their lowest 7 bits
LOAD, ADDI, AUIPC, ADDIW, STORE, ADD, LUI, ADDW = 0x03, 0x13, 0x17, 0x1B, 0x23, 0x33, 0x37, 0x3B
BRANCH, JALR, JAL = 0x63, 0x67, 0x6F
# and of those that compute or load
WRITE = (LOAD, ADDI, AUIPC, ADDIW, ADD, LUI, ADDW)

# how many ways are tried, and how many instructions one has
WAYS, LONGEST = 256, 512


def is_call(word):
    """Whether an instruction leaves the address behind it in ra."""
    return word.rd == RA and word.opcode in (JAL, JALR)


def pops(word, register):
    """Whether it is `ld register, n(sp)`."""
    return (word.opcode, word.funct3, word.rs1, word.rd) == (LOAD, 3, SP, register)


def pushes(word, register):
    """Whether it is `sd register, n(sp)`."""
    return (word.opcode, word.funct3, word.rs1, word.rs2) == (STORE, 3, SP, register)


def word_at(memory, at):
    """The instruction at an address of the text, or None."""
    if at + 4 > memory.text:
        return None
    number = memory.fetch(at)
    return None if machine.listed(number).startswith(".word") else machine.word_of(number)


# whether a function keeps a frame pointer: that isn't known of one without a label; it does, and its return address is below
# it; it does, and its return address is in ra; it doesn't
UNKNOWN, STORED, LEAF, WITHOUT = "unknown", "stored", "leaf", "without"


def kept_pointer(image, memory, at):
    """Whether s0 is the frame pointer of the function of a place."""
    label = places.near(image, at)[1]
    if not label:
        return UNKNOWN
    if at + 4 > memory.text:
        return WITHOUT
    stored, keeps, is_restored = None, WITHOUT, False
    for place in range(label[0], at - 3, 4):
        word = word_at(memory, place)
        if not word:
            continue
        if keeps == WITHOUT and pushes(word, S0):
            stored = word.s % machine.WORD
        elif keeps == WITHOUT and (word.opcode, word.funct3, word.rd, word.rs1) == (ADDI, 0, S0, SP):
            # the address behind the frame is the one behind the return address, or behind s0 where there is none
            above = None if stored is None else word.i % machine.WORD - stored
            keeps = {16: STORED, 8: LEAF}.get(above, WITHOUT)
        elif keeps != WITHOUT and not is_restored:
            is_restored = pops(word, S0)
        elif is_restored and word.rd == 0 and word.opcode in (JAL, JALR):
            is_restored = False
    return WITHOUT if is_restored else keeps


class Lost(Exception):
    """A way that can't be followed."""


class Way:
    """A hart that is on its way out of a function."""

    def __init__(self, memory, regs, pc, number):
        self.memory, self.regs, self.pc = memory, list(regs), pc
        self.kept, self.number = {}, number

    def set(self, register, value):
        """Writes a register."""
        if register:
            self.regs[register] = value % machine.WORD

    def load(self, word):
        """`ld ra, n(sp)` and `ld s0, n(sp)`: what the way stored, or what the memory has."""
        at = (self.regs[SP] + word.i) % machine.WORD
        if word.rd not in self.kept and not self.memory.can_read(at, 8):
            raise Lost
        self.set(word.rd, self.kept.pop(word.rd) if word.rd in self.kept else self.memory.word(at))

    def jumps(self, word):
        """The address behind a jump or a call, or None at the return."""
        behind = self.pc + 4
        if word.rd == RA:
            return behind
        if word.opcode == JAL and word.rd in (0, T0):
            self.set(word.rd, behind)
            return self.pc + word.j
        if word.rd == 0 and word.rs1 == RA:
            return None
        if word.rd == 0:
            # a return by t0, or a jump by a table, behind which stands one of the cases
            return self.regs[T0] + word.i if word.rs1 == T0 else behind
        raise Lost

    def branches(self, word):
        """The address behind a branch."""
        is_taken = self.number & 1
        self.number = self.number >> 1 | is_taken << 7
        return self.pc + (word.b if is_taken else 4)

    def sum(self, word):
        """What an instruction adds up or shifts, and whether that is known where it is sp; None where it is another."""
        row = (word.opcode, word.funct3)
        if word.opcode == LUI:
            return word.u, True
        if row == (ADDI, 0):
            return self.regs[word.rs1] + word.i, word.rs1 in FOLLOWED
        if row == (ADDI, 1):
            return self.regs[word.rs1] << word.amount, False
        if row == (ADD, 0) and word.funct7 == 0:
            return self.regs[word.rs1] + self.regs[word.rs2], word.rs1 in FOLLOWED and word.rs2 in FOLLOWED
        return None, False

    def computes(self, word):
        """An instruction that writes a register."""
        if pops(word, RA) or pops(word, S0):
            return self.load(word)
        value, is_known = self.sum(word)
        if word.rd == SP and not is_known:
            raise Lost
        return self.set(word.rd, value) if value is not None else None

    def step(self, word):
        """One instruction; whether it was the return."""
        after = self.pc + 4
        if word.opcode in (JAL, JALR):
            after = self.jumps(word)
        elif word.opcode == BRANCH:
            after = self.branches(word)
        elif pushes(word, RA) or pushes(word, S0):
            self.kept[word.rs2] = self.regs[word.rs2]
        elif word.opcode in WRITE:
            self.computes(word)
        self.pc = self.pc if after is None else after % machine.WORD
        return after is None

    def leads(self):
        """Where it leads: the frame's end, the return address and the caller's s0; or None."""
        try:
            for _ in range(LONGEST):
                word = word_at(self.memory, self.pc)
                if not word:
                    return None
                if self.step(word):
                    return end(self.memory, self.regs)
        except Lost:
            pass
        return None


def end(memory, regs):
    """The frame of a function that is at its return, if that leads behind a call."""
    call = word_at(memory, max(regs[RA] - 4, 0))
    return (regs[SP], regs[RA], regs[S0]) if call and is_call(call) else None


def out(memory, regs, pc):
    """Where the first way leads that leads out."""
    for number in range(WAYS):
        frame = Way(memory, regs, pc, number).leads()
        if frame:
            return frame
    return None
