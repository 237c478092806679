"""Random sources: lines of the language, right and wrong, and known sources with a few changes."""

import assembler

NAMES = ["a", "b", "loop", "x5", "_start", "end", "go", "$", ".L1", "room", "a" * 31, "b" * 32]
ODD_NUMBERS = """0 -1 2047 2048 -2048 -2049 0x7fffffff 2147483648 -2147483648 -2147483649 18446744073709551615
18446744073709551616 -9223372036854775808 -9223372036854775809 255 256 -128 -129 65535 65536 1048575 1048576 63 64 31 32
007 0x 0X1 12ab -0 4096 8192 4095 - +5 1.5 0x8000000000000000 -0x10 4094 4093 -4096 -4098""".split()
DIRECTIVES = [".ranks", ".harts", ".memory", ".entry", ".comm", ".link", ".text", ".data", ".byte", ".half", ".word"]
DIRECTIVES += [".dword", ".ascii", ".asciz", ".zero", ".balign", ".globl", ".section", "."]
STRINGS = ['"hi\\n"', '"a#b"', '"\\t\\0\\\\\\""', '""', '"', '"\\q"', '"\x7f"', '"tab\there"', "'a'", '"\u00e9"']
ODD = ["\r", "\t", "\x00", "\x0b", "\u00e9", "\ufeff", "\n", "\\", '"', *"(),:+#@; -"]


class Sources:
    """What is drawn at random; `known` are whole sources."""

    def __init__(self, random, known):
        self.random, self.known = random, known

    def choice(self, things):
        """One of some things."""
        return self.random.choice(things)

    def odd(self, share):
        """Whether something rare happens, as often as that share of 1,000."""
        return self.random.randrange(1000) < share

    def number(self):
        """A number's text."""
        if self.odd(300):
            return self.choice(ODD_NUMBERS)
        value = self.random.randrange(*self.choice([(0, 32), (-2048, 2048), (0, 1 << 20)]))
        return hex(value) if value >= 0 and self.odd(300) else str(value)

    def register(self):
        """A register's name, or another."""
        return self.choice(NAMES) if self.odd(30) else self.choice(list(assembler.REGISTERS))

    def target(self):
        """A target."""
        if self.odd(300):
            return str(4 * self.random.randrange(-20, 20))
        name = self.choice(NAMES[:6])
        return f"{name}+{self.number()}" if self.odd(200) else name

    def operand(self, kind):
        """An operand of a kind, or rarely of another."""
        if self.odd(25):
            kind = self.choice("rnmtlis")
        return {
            "r": self.register,
            "n": self.number,
            "m": lambda: f"{self.number() if self.odd(100) else self.random.randrange(-2048, 2048)}({self.register()})",
            "t": self.target,
            "l": lambda: self.choice(NAMES),
            "i": lambda: "iorw",
            "s": lambda: self.choice(STRINGS),
        }[kind]()

    def joined(self, operands):
        """Operands with commas, of which one is rarely missing or too many."""
        mark = self.choice([", ", ",", " , "])
        text = mark.join(operands)
        if self.odd(15):
            text += self.choice([",", " 5", ", 5", ",,"])
        return text

    def instruction(self):
        """An instruction."""
        name = self.choice(list(assembler.ROWS))
        kinds = self.choice(assembler.ROWS[name])[0]
        if self.odd(10):
            name = self.choice(["mov", "call", "add.", "ADD", "x5"])
        if self.odd(15):
            kinds = kinds[1:]
        return name + " " + self.joined([self.operand(kind) for kind in kinds])

    def directive(self):
        """A directive."""
        name = self.choice(DIRECTIVES[:17]) if not self.odd(20) else self.choice(DIRECTIVES)
        few = range(1 + self.random.randrange(3))
        if name in (".ranks", ".harts"):
            operands = [str(self.random.randrange(10))]
        elif name == ".memory":
            operands = [self.choice(["4096", "8192", "65536", "1048576", "5000", "0", "1052672", "16384"])]
        elif name in (".comm", ".link"):
            operands = [str(self.random.randrange(5)) for _ in (few if name == ".comm" else range(2))]
        elif name in (".entry", ".globl"):
            operands = [self.choice(NAMES)]
        elif name in (".ascii", ".asciz"):
            operands = [self.choice(STRINGS)]
        elif name in (".zero", ".balign"):
            operands = [str(self.random.choice([0, 1, 2, 3, 4, 8, 16, 32, 100, 1048576, 1048577]))]
        elif name in (".text", ".data"):
            operands = []
        else:
            operands = [self.choice([self.number, lambda: self.choice(NAMES[:6])])() for _ in few]
        if self.odd(20):
            operands = operands[1:] + [self.operand(self.choice("rnmtls"))]
        return name + " " + self.joined(operands)

    def line(self):
        """A line."""
        labels = "".join(self.choice(NAMES[:10]) + self.choice([":", ": ", " : "]) for _ in range(self.odd(90)))
        text = self.directive() if self.odd(280) else self.instruction()
        if self.odd(60):
            text = ""
        if self.odd(60):
            text += self.choice([" # a remark", "#", ' # "', " # \u00e9"])
        return labels + text

    def lines(self):
        """Lines of the language, most of whose labels are there."""
        lines = [self.line() for _ in range(1 + self.random.randrange(12))]
        if self.odd(700):
            lines = [f"{name}: nop" for name in self.random.sample(NAMES[:6], 4)] + lines
        text = self.choice(["\n", "\n", "\n", "\r\n"]).join(lines) + self.choice(["\n", "\n", "", "\r", "\r\r\n"])
        return text.encode()

    def changed(self):
        """A known source with a few changes."""
        text = bytearray(self.choice(self.known))
        for _ in range(1 + self.random.randrange(3)):
            at = self.random.randrange(len(text) + 1)
            change = self.random.randrange(5)
            if change == 0:
                text[at:at] = self.choice(ODD).encode()
            elif change == 1:
                del text[at : at + 1 + self.random.randrange(3)]
            elif change == 2:
                text[at : at + 1] = bytes([self.random.randrange(256)])
            elif change == 3:
                lines = bytes(text).split(b"\n")
                lines[self.random.randrange(len(lines))] = self.line().encode()
                text = bytearray(b"\n".join(lines))
            else:
                lines = bytes(text).split(b"\n")
                one, other = (self.random.randrange(len(lines)) for _ in range(2))
                lines[one], lines[other] = lines[other], lines[one]
                text = bytearray(b"\n".join(lines))
        return bytes(text)

    def anything(self):
        """A source of some kind."""
        return self.changed() if self.odd(400) else self.lines()
