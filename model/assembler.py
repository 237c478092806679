"""The assembler's language, as docs/ASSEMBLER.md has it: a source as an image, or its first fault."""

import re

from formats import LINKS, MOST_MEMORY, PAGE, SYMBOLS, Image, rounded

MOST_PART = 1_048_576

REGISTERS = {f"x{number}": number for number in range(32)}
REGISTERS.update({"zero": 0, "ra": 1, "sp": 2, "gp": 3, "tp": 4, "fp": 8, "s0": 8, "s1": 9})
REGISTERS.update({f"t{number}": 5 + number for number in range(3)})
REGISTERS.update({f"t{number}": 25 + number for number in range(3, 7)})
REGISTERS.update({f"a{number}": 10 + number for number in range(8)})
REGISTERS.update({f"s{number}": 16 + number for number in range(2, 12)})

TOKEN = re.compile(
    r"""[ \t]+|(?P<comment>\#.*)|(?P<name>[A-Za-z_.$][A-Za-z0-9_.$]*)"""
    r"""|(?P<number>-?(?:0x[0-9a-fA-F]+|[0-9]+)(?![A-Za-z0-9_.$]))|(?P<string>"(?:[^"\\]|\\[nt0\\"])*")"""
    r"""|(?P<mark>[,():+])""",
    re.DOTALL,
)
ESCAPES = {"n": "\n", "t": "\t", "0": "\0", "\\": "\\", '"': '"'}


class Fault(Exception):
    """The fault of a line."""


def need(holds, fault):
    """Tests what has to hold."""
    if not holds:
        raise Fault(fault)


def tokens_of(line):
    """The tokens of a line, as pairs of a kind and a value."""
    at, tokens = 0, []
    while at < len(line):
        found = TOKEN.match(line, at)
        need(found, "Token")
        kind, text = found.lastgroup, found.group()
        at = found.end()
        if kind is None or kind == "comment":
            continue
        need(text.isascii(), "Token")
        value = text
        if kind == "number":
            value = int(text, 16 if "x" in text else 10)
            need(-(1 << 63) <= value < 1 << 64, "Token")
        elif kind == "string":
            value = re.sub(r"\\(.)", lambda it: ESCAPES[it[1]], text[1:-1]).encode()
        tokens.append((kind, value))
    return tokens


def operands_of(tokens):
    """The operands of a statement, each as a kind and its values."""
    if not tokens:
        return []
    parts = [[]]
    for token in tokens:
        if token == ("mark", ","):
            parts.append([])
        else:
            parts[-1].append(token)
    return [operand_of(part) for part in parts]


def operand_of(part):
    """One operand."""
    kinds = [kind if kind != "mark" else value for kind, value in part]
    values = [value for _, value in part]
    if kinds in (["name"], ["number"], ["string"]):
        return kinds[0], values[0]
    if kinds == ["number", "(", "name", ")"] and values[2] in REGISTERS:
        return "place", (values[0], REGISTERS[values[2]])
    if kinds == ["name", "+", "number"]:
        return "sum", (values[0], values[2])
    return "none", None


# ---- words


def word_r(opcode, funct3, funct7, rd, rs1, rs2):
    """A word of form R."""
    return opcode | rd << 7 | funct3 << 12 | rs1 << 15 | rs2 << 20 | funct7 << 25


def word_i(opcode, funct3, rd, rs1, n):
    """A word of form I."""
    return opcode | rd << 7 | funct3 << 12 | rs1 << 15 | (n & 0xFFF) << 20


def word_s(funct3, rs2, rs1, n):
    """A word of form S."""
    return 0x23 | (n & 31) << 7 | funct3 << 12 | rs1 << 15 | rs2 << 20 | (n >> 5 & 0x7F) << 25


def word_b(funct3, rs1, rs2, n):
    """A word of form B."""
    low = (n >> 11 & 1) << 7 | (n >> 1 & 15) << 8
    return 0x63 | low | funct3 << 12 | rs1 << 15 | rs2 << 20 | (n >> 5 & 63) << 25 | (n >> 12 & 1) << 31


def word_u(opcode, rd, n):
    """A word of form U, of its upper 20 bits."""
    return opcode | rd << 7 | (n & 0xFFFFF) << 12


def word_j(rd, n):
    """A word of form J."""
    return 0x6F | rd << 7 | (n >> 12 & 255) << 12 | (n >> 11 & 1) << 20 | (n >> 1 & 1023) << 21 | (n >> 20 & 1) << 31


# mnemonics with three registers: opcode, funct3, funct7
THREE = {
    name: (0x33, funct3, 0)
    for funct3, name in enumerate(("add", "sll", "slt", "sltu", "xor", "srl", "or", "and"))
}
THREE.update(
    {
        name: (0x33, funct3, 1)
        for funct3, name in enumerate(("mul", "mulh", "mulhsu", "mulhu", "div", "divu", "rem", "remu"))
    }
)
THREE.update({"sub": (0x33, 0, 0x20), "sra": (0x33, 5, 0x20)})
THREE.update({"addw": (0x3B, 0, 0), "subw": (0x3B, 0, 0x20), "sllw": (0x3B, 1, 0), "srlw": (0x3B, 5, 0)})
THREE.update({"sraw": (0x3B, 5, 0x20), "mulw": (0x3B, 0, 1), "divw": (0x3B, 4, 1), "divuw": (0x3B, 5, 1)})
THREE.update({"remw": (0x3B, 6, 1), "remuw": (0x3B, 7, 1)})

IMMEDIATE = {"addi": (0x13, 0), "slti": (0x13, 2), "sltiu": (0x13, 3), "xori": (0x13, 4), "ori": (0x13, 6)}
IMMEDIATE.update({"andi": (0x13, 7), "addiw": (0x1B, 0)})
SHIFTS = {"slli": (0x13, 1, 0, 63), "srli": (0x13, 5, 0, 63), "srai": (0x13, 5, 0x400, 63)}
SHIFTS.update({"slliw": (0x1B, 1, 0, 31), "srliw": (0x1B, 5, 0, 31), "sraiw": (0x1B, 5, 0x400, 31)})
LOADS = {"lb": 0, "lh": 1, "lw": 2, "ld": 3, "lbu": 4, "lhu": 5, "lwu": 6}
STORES = {"sb": 0, "sh": 1, "sw": 2, "sd": 3}
BRANCHES = {"beq": 0, "bne": 1, "blt": 4, "bge": 5, "bltu": 6, "bgeu": 7}


def in_range(value, low, high):
    """A number that has to fit."""
    need(low <= value <= high, f"Range {value}")
    return value


def small(value):
    """A number of 12 bits with a sign."""
    return in_range(value, -2048, 2047)


def even(value, low, high):
    """An offset that has to fit and be even."""
    need(low <= value <= high and value % 2 == 0, f"Range {value}")
    return value


def branch(name, a, b):
    """A branch of two registers."""
    return lambda target: [word_b(BRANCHES[name], a, b, even(target, -4096, 4094))]


def jump(rd):
    """A jump."""
    return lambda target: [word_j(rd, even(target, -1_048_576, 1_048_574))]


def load_number(rd, value):
    """The words of `li`."""
    in_range(value, -(1 << 31), (1 << 31) - 1)
    if -2048 <= value <= 2047:
        return [word_i(0x13, 0, rd, 0, value)]
    words = [word_u(0x37, rd, (value + 2048) >> 12)]
    return words + ([word_i(0x1B, 0, rd, rd, value)] if value & 0xFFF else [])


def load_address(rd):
    """The words of `la`."""
    return lambda at: [word_u(0x37, rd, (at + 2048) >> 12), word_i(0x13, 0, rd, rd, at)]


# a row: the kinds of operands, how many words, and what gives the words, where a target or a label comes last as its
# offset or its address. Kinds: r a register, n a number, m n(rs1), t a target, l a label, i the name iorw
def three_row(row):
    return "rrr", lambda d, a, b: [word_r(row[0], row[1], row[2], d, a, b)]


def rows():
    """All rows by mnemonic."""
    table = {name: [three_row(row)] for name, row in THREE.items()}
    for name, (opcode, funct3) in IMMEDIATE.items():
        table[name] = [("rrn", lambda d, a, n, o=opcode, f=funct3: [word_i(o, f, d, a, small(n))])]
    for name, (opcode, funct3, bits, most) in SHIFTS.items():
        table[name] = [
            ("rrn", lambda d, a, n, o=opcode, f=funct3, b=bits, m=most: [word_i(o, f, d, a, in_range(n, 0, m) | b)])
        ]
    for name, funct3 in LOADS.items():
        table[name] = [("rm", lambda d, m, f=funct3: [word_i(0x03, f, d, m[1], small(m[0]))])]
    for name, funct3 in STORES.items():
        table[name] = [("rm", lambda s, m, f=funct3: [word_s(f, s, m[1], small(m[0]))])]
    for name in BRANCHES:
        table[name] = [("rrt", lambda a, b, t, n=name: branch(n, a, b)(t))]
    for name, other in (("bgt", "blt"), ("ble", "bge"), ("bgtu", "bltu"), ("bleu", "bgeu")):
        table[name] = [("rrt", lambda a, b, t, n=other: branch(n, b, a)(t))]
    for name, other in (("beqz", "beq"), ("bnez", "bne"), ("bgez", "bge"), ("bltz", "blt")):
        table[name] = [("rt", lambda s, t, n=other: branch(n, s, 0)(t))]
    for name, other in (("blez", "bge"), ("bgtz", "blt")):
        table[name] = [("rt", lambda s, t, n=other: branch(n, 0, s)(t))]
    for name, opcode in (("lui", 0x37), ("auipc", 0x17)):
        table[name] = [("rn", lambda d, n, o=opcode: [word_u(o, d, in_range(n, 0, 1_048_575))])]
    for name, word in (("ecall", 0x73), ("ebreak", 0x100073), ("nop", 0x13), ("ret", word_i(0x67, 0, 0, 1, 0))):
        table[name] = [("", lambda w=word: [w])]
    table["fence"] = [("", lambda: [0x0FF0000F]), ("ii", lambda *_: [0x0FF0000F])]
    table["jal"] = [("rt", lambda d, t: jump(d)(t)), ("t", lambda t: jump(1)(t))]
    table["j"] = [("t", lambda t: jump(0)(t))]
    table["jalr"] = [
        ("rm", lambda d, m: [word_i(0x67, 0, d, m[1], small(m[0]))]),
        ("r", lambda s: [word_i(0x67, 0, 1, s, 0)]),
    ]
    table["jr"] = [("r", lambda s: [word_i(0x67, 0, 0, s, 0)])]
    for name, other, n in (("mv", "addi", 0), ("not", "xori", -1), ("sext.w", "addiw", 0), ("seqz", "sltiu", 1)):
        table[name] = [("rr", lambda d, s, r=IMMEDIATE[other], n=n: [word_i(r[0], r[1], d, s, n)])]
    for name, other in (("neg", "sub"), ("negw", "subw"), ("snez", "sltu"), ("sgtz", "slt")):
        table[name] = [("rr", lambda d, s, r=THREE[other]: [word_r(r[0], r[1], r[2], d, 0, s)])]
    table["sltz"] = [("rr", lambda d, s, r=THREE["slt"]: [word_r(r[0], r[1], r[2], d, s, 0)])]
    table["li"] = [("rn", load_number)]
    table["la"] = [("rl", lambda d, at: load_address(d)(at))]
    return table


ROWS = rows()
WIDTHS = {".byte": 1, ".half": 2, ".word": 4, ".dword": 8}


def is_kind(kind, operand):
    """Whether an operand is of a row's kind."""
    form, value = operand
    return {
        "r": form == "name" and value in REGISTERS,
        "n": form == "number",
        "m": form == "place",
        "t": form in ("name", "sum", "number"),
        "l": form == "name",
        "i": operand == ("name", "iorw"),
    }[kind]


def row_of(name, operands):
    """The row of a mnemonic that takes the operands."""
    need(name in ROWS, "Mnemonic")
    for kinds, words in ROWS[name]:
        if len(kinds) == len(operands) and all(map(is_kind, kinds, operands)):
            return kinds, words
    raise Fault("Operand")


def count_of_words(name, operands):
    """How many words an instruction has."""
    if name == "la":
        return 2
    if name == "li":
        value = operands[1][1]
        if not -(1 << 31) <= value < 1 << 31:
            return 2
        return len(load_number(0, value))
    return 1


class Source:
    """A source as it is understood in the first pass, and then its image."""

    def __init__(self):
        self.once = {}
        self.labels = {}
        self.label_lines = {}
        self.lines = []
        self.comms = self.links = 0
        self.names = set()
        self.sizes = {"text": 0, "data": 0}
        self.part = "text"

    # ---- the first pass

    def grow(self, count):
        """Adds bytes to the part."""
        need(self.sizes[self.part] + count <= MOST_PART, "Limit")
        self.sizes[self.part] += count

    def line(self, text, number):
        """Understands a line."""
        tokens = tokens_of(text)
        labels = []
        while len(tokens) >= 2 and tokens[0][0] == "name" and tokens[1] == ("mark", ":"):
            labels.append(tokens[0][1])
            tokens = tokens[2:]
        for label in labels:
            need(label not in self.labels, "LabelTwice")
            self.labels[label] = (self.part, self.sizes[self.part])
            self.label_lines[label] = number
        self.lines.append((number, labels, None))
        if tokens:
            need(tokens[0][0] == "name", "Mnemonic")
            name, operands = tokens[0][1], operands_of(tokens[1:])
            at = (self.part, self.sizes[self.part])
            if name.startswith("."):
                self.directive(name, operands)
            else:
                row_of(name, operands)
                need(self.part == "text", "Directive")
                self.grow(4 * count_of_words(name, operands))
            self.lines[-1] = (number, labels, (name, operands, at))

    def directive(self, name, operands):
        """Understands a directive."""
        forms = [form for form, _ in operands]
        values = [value for _, value in operands]
        numbers = bool(forms) and all(form == "number" for form in forms)
        if name in (".ranks", ".harts", ".memory"):
            need(forms == ["number"] and name not in self.once, "Directive")
            limits = {".ranks": range(1, 9), ".harts": range(1, 5), ".memory": range(PAGE, MOST_MEMORY + 1, PAGE)}
            need(values[0] in limits[name], "Directive")
            self.once[name] = values[0]
        elif name == ".entry":
            need(forms == ["name"] and name not in self.once, "Directive")
            self.once[name] = values[0]
        elif name == ".comm":
            need(numbers, "Directive")
            need(self.comms < 7, "Limit")
            self.comms += 1
        elif name == ".link":
            need(forms == ["number", "number"], "Directive")
            need(self.links < LINKS, "Limit")
            self.links += 1
        elif name in (".text", ".data"):
            need(not forms, "Directive")
            self.part = name[1:]
        elif name == ".globl":
            need(forms == ["name"] and len(values[0]) <= 31, "Directive")
            need(values[0] in self.names or len(self.names) < SYMBOLS, "Limit")
            self.names.add(values[0])
        else:
            self.grow(self.data_size(name, forms, values))

    def data_size(self, name, forms, values):
        """How many bytes a directive of data adds."""
        need(self.part == "data" or name == ".word", "Directive")
        if name in WIDTHS:
            kinds = ("number", "name") if WIDTHS[name] >= 4 else ("number",)
            need(forms and all(form in kinds for form in forms), "Directive")
            return WIDTHS[name] * len(forms)
        if name in (".ascii", ".asciz"):
            need(forms == ["string"], "Directive")
            return len(values[0]) + (name == ".asciz")
        if name == ".zero":
            need(forms == ["number"] and 0 <= values[0] <= MOST_PART, "Directive")
            return values[0]
        need(name == ".balign" and forms == ["number"] and values[0] in (1, 2, 4, 8, 16), "Directive")
        return -self.sizes["data"] % values[0]

    # ---- the second pass

    def address(self, label):
        """A label's address."""
        need(label in self.labels, "LabelMissing")
        part, at = self.labels[label]
        return at + (rounded(self.sizes["text"], 16) if part == "data" else 0)

    def entry_at(self, label):
        """The address of an entry, which is that of a word of the text."""
        at = self.address(label)
        need(self.labels[label][0] == "text" and at % 4 == 0 and at < self.sizes["text"], "Directive")
        return at

    def statement(self, image, parts, name, operands, at):
        """Writes a statement into the image's parts."""
        values = [value for _, value in operands]
        part = parts[at[0]]
        if name == ".entry":
            image.entry = self.entry_at(values[0])
        elif name == ".globl":
            self.address(values[0])
        elif name in (".comm", ".link"):
            there = all(0 <= rank < image.ranks for rank in values)
            need(there and len(set(values)) == len(values), "Directive")
            (image.comms if name == ".comm" else image.links).append(values)
        elif name in WIDTHS:
            for operand in operands:
                part += self.datum(WIDTHS[name], operand)
        elif name in (".ascii", ".asciz"):
            part += values[0] + (b"\0" if name == ".asciz" else b"")
        elif name == ".zero":
            part += bytes(values[0])
        elif name == ".balign":
            part += bytes(-len(part) % values[0])
        elif not name.startswith("."):
            for word in self.words(name, operands, at[1]):
                part += word.to_bytes(4, "little")

    def datum(self, width, operand):
        """A number or an address as data."""
        form, value = operand
        value = self.address(value) if form == "name" else value
        in_range(value, -(1 << (8 * width - 1)), (1 << (8 * width)) - 1)
        return (value % (1 << (8 * width))).to_bytes(width, "little")

    def words(self, name, operands, at):
        """The words of an instruction."""
        kinds, words = row_of(name, operands)
        values = []
        for kind, (form, value) in zip(kinds, operands):
            if kind == "r":
                value = REGISTERS[value]
            elif kind == "l":
                value = self.address(value)
            elif kind == "t" and form != "number":
                label, more = value if form == "sum" else (value, 0)
                value = self.address(label) + more - at
            values.append(value)
        return words(*values)

    def image(self):
        """The image, or the fault of a line."""
        image = Image(b"", b"", 2, self.once.get(".ranks", 1), self.once.get(".harts", 1))
        image.memory = self.once.get(".memory", 65536)
        parts = {"text": bytearray(), "data": bytearray()}
        for number, labels, statement in self.lines:
            try:
                if "_start" in labels and ".entry" not in self.once:
                    image.entry = self.entry_at("_start")
                if statement:
                    self.statement(image, parts, *statement)
            except Fault as fault:
                raise Fault(f"line {number}: {fault}") from None
        image.text, image.data = bytes(parts["text"]), bytes(parts["data"])
        need(image.text, "line 0: Directive")
        fits = PAGE * image.harts <= image.memory and len(image.text) <= image.memory
        need(fits and image.data_at() + len(image.data) <= image.memory, "line 0: Limit")
        image.symbols = sorted(((self.address(name), name.encode()) for name in self.names), key=lambda it: it[1])
        return image


def assembled(source):
    """The image of a source, given as bytes, or a fault with its line."""
    try:
        text = source.decode()
    except UnicodeDecodeError as error:
        line = source.count(b"\n", 0, error.start) + 1
        raise Fault(f"line {line}: Token") from None
    lines = text.split("\n")
    last = lines.pop()
    lines = [line[:-1] if line.endswith("\r") else line for line in lines]
    if last:
        lines.append(last)
    it = Source()
    for number, line in enumerate(lines, 1):
        try:
            it.line(line, number)
        except Fault as fault:
            raise Fault(f"line {number}: {fault}") from None
    return it.image()
