"""A hart and a rank's memory, as docs/MACHINE.md has them, and the words of instructions."""

import functools

WORD = 1 << 64
HALF = 1 << 63

# modes of a hart
RUNNING, WAITING, ENDED, TRAPPED = "running", "waiting", "ended", "trapped"

ECALL, EBREAK = 0x73, 0x100073


def signed(value, bits=64):
    """A number of so many bits, read with a sign."""
    value &= (1 << bits) - 1
    return value - (1 << bits) if value >> (bits - 1) else value


class Trap(Exception):
    """An instruction that traps, with its cause."""

    def __init__(self, cause):
        super().__init__(cause)
        self.cause = cause


class Memory:
    """A rank's bytes: the text, the data behind it, and zeros."""

    def __init__(self, image):
        self.bytes = bytearray(image.memory)
        self.text = len(image.text)
        self.bytes[: self.text] = image.text
        at = image.data_at()
        self.bytes[at : at + len(image.data)] = image.data

    def can_read(self, at, count):
        """Whether a range may be read; one of 0 bytes may be anywhere."""
        return count == 0 or at + count <= len(self.bytes)

    def can_write(self, at, count):
        """Whether a range may be written: it is in the memory and not in the text."""
        return count == 0 or (at >= self.text and at + count <= len(self.bytes))

    def read(self, at, count):
        """The bytes of a range that is there, none of an empty one."""
        return bytes(self.bytes[at : at + count]) if count else b""

    def write(self, at, text):
        """Writes bytes to a range that may be written."""
        if text:
            self.bytes[at : at + len(text)] = text

    def word(self, at):
        """The word of 8 bytes at an address, its low byte first."""
        return int.from_bytes(self.bytes[at : at + 8], "little")

    def load(self, at, width):
        """A load: its value without a sign."""
        if at % width:
            raise Trap(4)
        if at + width > len(self.bytes):
            raise Trap(5)
        return int.from_bytes(self.bytes[at : at + width], "little")

    def store(self, at, width, value):
        """A store."""
        if at % width:
            raise Trap(6)
        if at + width > len(self.bytes) or at < self.text:
            raise Trap(7)
        self.bytes[at : at + width] = (value & ((1 << (8 * width)) - 1)).to_bytes(width, "little")

    def fetch(self, pc):
        """The word of the text at a pc."""
        if pc + 4 > self.text:
            raise Trap(1)
        return int.from_bytes(self.bytes[pc : pc + 4], "little")


class Hart:
    """Registers, pc and mode."""

    def __init__(self, number, rank, image):
        self.regs = [0] * 32
        self.regs[2] = image.memory - 4096 * number
        self.regs[10], self.regs[11] = number, rank
        self.pc, self.mode = image.entry, RUNNING
        # the code of ENDED, the cause of TRAPPED, the post of WAITING or None where it makes its call anew
        self.why = None

    def is_stopped(self):
        """Whether it has ended or trapped."""
        return self.mode in (ENDED, TRAPPED)

    def stop(self, mode, why):
        """Ends, or traps."""
        self.mode, self.why = mode, why

    def told(self):
        """What a report says of it."""
        if self.mode == ENDED:
            return f"ended {self.why}"
        if self.mode == TRAPPED:
            return f"trapped {self.why} at {self.pc:#x}"
        return f"{self.mode} at {self.pc:#x}"


# ---- results of instructions, of numbers below 2^64


def divided(a, b, bits):
    """Quotient and remainder, signed, rounded toward zero."""
    a, b = signed(a, bits), signed(b, bits)
    if b == 0:
        return -1, a
    quotient = abs(a) // abs(b)
    quotient = -quotient if (a < 0) != (b < 0) else quotient
    return quotient, a - quotient * b


def divided_unsigned(a, b, bits):
    """Quotient and remainder of numbers without a sign."""
    a, b = a & ((1 << bits) - 1), b & ((1 << bits) - 1)
    return ((1 << bits) - 1, a) if b == 0 else divmod(a, b)


# by funct7 and funct3 of 0110011
WHOLE = {
    (0x00, 0): lambda a, b: a + b,
    (0x20, 0): lambda a, b: a - b,
    (0x00, 1): lambda a, b: a << (b & 63),
    (0x00, 2): lambda a, b: int(signed(a) < signed(b)),
    (0x00, 3): lambda a, b: int(a < b),
    (0x00, 4): lambda a, b: a ^ b,
    (0x00, 5): lambda a, b: a >> (b & 63),
    (0x20, 5): lambda a, b: signed(a) >> (b & 63),
    (0x00, 6): lambda a, b: a | b,
    (0x00, 7): lambda a, b: a & b,
    (0x01, 0): lambda a, b: a * b,
    (0x01, 1): lambda a, b: (signed(a) * signed(b)) >> 64,
    (0x01, 2): lambda a, b: (signed(a) * b) >> 64,
    (0x01, 3): lambda a, b: (a * b) >> 64,
    (0x01, 4): lambda a, b: divided(a, b, 64)[0],
    (0x01, 5): lambda a, b: divided_unsigned(a, b, 64)[0],
    (0x01, 6): lambda a, b: divided(a, b, 64)[1],
    (0x01, 7): lambda a, b: divided_unsigned(a, b, 64)[1],
}

# by funct7 and funct3 of 0111011, on the low 32 bits: the result's low 32 bits are sign-extended
LOW = {
    (0x00, 0): lambda a, b: a + b,
    (0x20, 0): lambda a, b: a - b,
    (0x00, 1): lambda a, b: a << (b & 31),
    (0x00, 5): lambda a, b: (a & 0xFFFFFFFF) >> (b & 31),
    (0x20, 5): lambda a, b: signed(a, 32) >> (b & 31),
    (0x01, 0): lambda a, b: a * b,
    (0x01, 4): lambda a, b: divided(a, b, 32)[0],
    (0x01, 5): lambda a, b: divided_unsigned(a, b, 32)[0],
    (0x01, 6): lambda a, b: divided(a, b, 32)[1],
    (0x01, 7): lambda a, b: divided_unsigned(a, b, 32)[1],
}

BRANCHES = {
    0: lambda a, b: a == b,
    1: lambda a, b: a != b,
    4: lambda a, b: signed(a) < signed(b),
    5: lambda a, b: signed(a) >= signed(b),
    6: lambda a, b: a < b,
    7: lambda a, b: a >= b,
}

# by funct3: the width of a load, and whether it has a sign
LOADS = {0: (1, True), 1: (2, True), 2: (4, True), 3: (8, True), 4: (1, False), 5: (2, False), 6: (4, False)}

NAMES = {
    "branch": {0: "beq", 1: "bne", 4: "blt", 5: "bge", 6: "bltu", 7: "bgeu"},
    "load": {0: "lb", 1: "lh", 2: "lw", 3: "ld", 4: "lbu", 5: "lhu", 6: "lwu"},
    "store": {0: "sb", 1: "sh", 2: "sw", 3: "sd"},
    "immediate": {0: "addi", 2: "slti", 3: "sltiu", 4: "xori", 6: "ori", 7: "andi"},
    "whole": {
        (0x00, 0): "add", (0x20, 0): "sub", (0x00, 1): "sll", (0x00, 2): "slt", (0x00, 3): "sltu", (0x00, 4): "xor",
        (0x00, 5): "srl", (0x20, 5): "sra", (0x00, 6): "or", (0x00, 7): "and", (0x01, 0): "mul", (0x01, 1): "mulh",
        (0x01, 2): "mulhsu", (0x01, 3): "mulhu", (0x01, 4): "div", (0x01, 5): "divu", (0x01, 6): "rem",
        (0x01, 7): "remu",
    },
    "low": {
        (0x00, 0): "addw", (0x20, 0): "subw", (0x00, 1): "sllw", (0x00, 5): "srlw", (0x20, 5): "sraw",
        (0x01, 0): "mulw", (0x01, 4): "divw", (0x01, 5): "divuw", (0x01, 6): "remw", (0x01, 7): "remuw",
    },
    "shift": {(0x00, 1): "slli", (0x00, 5): "srli", (0x10, 5): "srai"},
    "low shift": {(0x00, 1): "slliw", (0x00, 5): "srliw", (0x20, 5): "sraiw"},
}


class Word:
    """The fields of an instruction word."""

    def __init__(self, word):
        self.opcode, self.rd, self.funct3 = word & 0x7F, word >> 7 & 31, word >> 12 & 7
        self.rs1, self.rs2, self.funct7 = word >> 15 & 31, word >> 20 & 31, word >> 25
        self.row = (self.funct7, self.funct3)
        self.i = signed(word >> 20, 12)
        self.s = signed(self.funct7 << 5 | self.rd, 12)
        self.b = signed(
            (word >> 31) << 12 | (word >> 7 & 1) << 11 | (word >> 25 & 0x3F) << 5 | (word >> 8 & 0xF) << 1, 13
        )
        self.u = signed(word & 0xFFFFF000, 32)
        self.j = signed(
            (word >> 31) << 20 | (word >> 12 & 0xFF) << 12 | (word >> 20 & 1) << 11 | (word >> 21 & 0x3FF) << 1, 21
        )
        # the amount of a shift, and what stands above it
        self.amount, self.above = word >> 20 & 63, word >> 26


@functools.lru_cache(maxsize=65536)
def word_of(number):
    """The fields of a word, which guests ask for again and again."""
    return Word(number)


def listed(number):
    """An instruction word as `dis` prints it."""
    if number == ECALL:
        return "ecall"
    if number == EBREAK:
        return "ebreak"
    word = Word(number)
    name, operands = listed_parts(word)
    if name is None:
        return f".word {number:#010x}"
    return f"{name} {operands}".rstrip()


def listed_parts(word):
    """The name and the operands of an instruction, or None where there is none."""
    rd, rs1, rs2 = f"x{word.rd}", f"x{word.rs1}", f"x{word.rs2}"
    if word.opcode in (0x37, 0x17):
        return "lui" if word.opcode == 0x37 else "auipc", f"{rd}, {word.u >> 12 & 0xFFFFF:#x}"
    if word.opcode == 0x6F:
        return "jal", f"{rd}, {word.j}"
    if word.opcode == 0x67 and word.funct3 == 0:
        return "jalr", f"{rd}, {word.i}({rs1})"
    if word.opcode == 0x63:
        return NAMES["branch"].get(word.funct3), f"{rs1}, {rs2}, {word.b}"
    if word.opcode == 0x03:
        return NAMES["load"].get(word.funct3), f"{rd}, {word.i}({rs1})"
    if word.opcode == 0x23:
        return NAMES["store"].get(word.funct3), f"{rs2}, {word.s}({rs1})"
    if word.opcode == 0x13 and word.funct3 in (1, 5):
        return NAMES["shift"].get((word.above, word.funct3)), f"{rd}, {rs1}, {word.amount}"
    if word.opcode == 0x13:
        return NAMES["immediate"][word.funct3], f"{rd}, {rs1}, {word.i}"
    if word.opcode == 0x1B and word.funct3 == 0:
        return "addiw", f"{rd}, {rs1}, {word.i}"
    if word.opcode == 0x1B:
        return NAMES["low shift"].get(word.row), f"{rd}, {rs1}, {word.rs2}"
    if word.opcode in (0x33, 0x3B):
        names = NAMES["whole" if word.opcode == 0x33 else "low"]
        return names.get(word.row), f"{rd}, {rs1}, {rs2}"
    if word.opcode == 0x0F and word.funct3 == 0:
        return "fence", ""
    return None, ""


def result(word, hart):
    """The value of an instruction that works one out of registers, or None where it is another."""
    a, b = hart.regs[word.rs1], hart.regs[word.rs2]
    if word.opcode == 0x37:
        return word.u
    if word.opcode == 0x17:
        return hart.pc + word.u
    if word.opcode == 0x33:
        return WHOLE[word.row](a, b) if word.row in WHOLE else None
    if word.opcode == 0x3B:
        return signed(LOW[word.row](a, b), 32) if word.row in LOW else None
    if word.opcode == 0x13:
        if word.funct3 not in (1, 5):
            return WHOLE[(0, word.funct3)](a, word.i % WORD)
        if (word.above, word.funct3) not in NAMES["shift"]:
            return None
        return WHOLE[(word.above << 1, word.funct3)](a, word.amount)
    if word.opcode == 0x1B:
        if word.funct3 == 0:
            return signed(a + word.i, 32)
        return signed(LOW[word.row](a, word.rs2), 32) if word.row in NAMES["low shift"] else None
    return None


def jump(target):
    """A target that is taken."""
    if target % 4:
        raise Trap(0)
    return target % WORD


def effect(word, hart, memory):
    """What an instruction does: the value of rd or None, and the next pc."""
    a, b, behind = hart.regs[word.rs1], hart.regs[word.rs2], (hart.pc + 4) % WORD
    if word.opcode == 0x6F:
        return behind, jump(hart.pc + word.j)
    if word.opcode == 0x67 and word.funct3 == 0:
        return behind, jump((a + word.i) % WORD & ~1)
    if word.opcode == 0x63 and word.funct3 in BRANCHES:
        return None, jump(hart.pc + word.b) if BRANCHES[word.funct3](a, b) else behind
    if word.opcode == 0x03 and word.funct3 in LOADS:
        width, has_sign = LOADS[word.funct3]
        value = memory.load((a + word.i) % WORD, width)
        return signed(value, 8 * width) if has_sign else value, behind
    if word.opcode == 0x23 and word.funct3 < 4:
        memory.store((a + word.s) % WORD, 1 << word.funct3, b)
        return None, behind
    if word.opcode == 0x0F and word.funct3 == 0:
        return None, behind
    value = result(word, hart)
    if value is None:
        raise Trap(2)
    return value, behind


def step(hart, memory):
    """One instruction other than an ECALL."""
    try:
        number = memory.fetch(hart.pc)
        if number == EBREAK:
            raise Trap(3)
        word = word_of(number)
        value, pc = effect(word, hart, memory)
    except Trap as trap:
        hart.stop(TRAPPED, trap.cause)
        return
    if value is not None and word.rd:
        hart.regs[word.rd] = value % WORD
    hart.pc = pc


def is_at_call(hart, memory):
    """Whether the word at the pc is an ECALL."""
    return hart.pc + 4 <= memory.text and memory.fetch(hart.pc) == ECALL
