"""The command `debug`: its words, what they print and what is refused, as docs/DEBUGGING.md and docs/DECISIONS.md
("The debugger", "The command line") have them. And words drawn at random."""

import re

import frames
import places
from cluster import Walk

MOST, MOST_SMALL = (1 << 64) - 1, 255

NUMBER = re.compile(r"0x[0-9a-fA-F]+|[0-9]+")
NAME = re.compile(r"[A-Za-z_.$][A-Za-z0-9_.$]*")
LINE = re.compile(rf"({NAME.pattern}):([1-9][0-9]*)")

# texts that are no words, beside those with a wrong number of arguments
NO_WORDS = ["", "fly", "Step", " step", "step=1", "place=", "go", "go=", "go=x", "go=0x", "go=0X1", "go=+1", "go=1 "]
NO_WORDS += ["go=18446744073709551616", "regs=0", "regs=0,256", "regs=0x100,0", "regs=0,0,", "bytes=0,1", "go=1=1"]
NO_WORDS += ["output", "output=", "output=0,0", "output=256", "output=x", "frames", "frames=0", "frames=0,0,0"]
NO_WORDS += ["bytes=0,1a,1", "bytes=0,,1", "bytes=0,a-b,1", "break=0,0", "break=a,0,0", "break=0,0,", "go=\u0661"]
NO_WORDS += ["break=0,0,:1", "break=0,0,a.c:", "break=0,0,a.c:01", "break=0,0,a.c:0x1", "break=0,0,a.c:1:2", "bytes=0,1:1,1"]


class Refused(Exception):
    """A word that is refused."""


def number(text, most):
    """A number of at most so many, or None."""
    value = int(text, 0 if text.startswith("0x") else 10) if NUMBER.fullmatch(text) else most + 1
    return value if value <= most else None


def spot(text):
    """What stands for an address: a number, a name, or a file and the number of a line; or None."""
    if line := LINE.fullmatch(text):
        return line.groups()
    return text if NAME.fullmatch(text) else number(text, MOST)


# how the arguments of each word are read
SMALL, LARGE = (lambda text: number(text, MOST_SMALL)), (lambda text: number(text, MOST))
ARGUMENTS = {"go": [LARGE], "break": [SMALL, SMALL, spot], "regs": [SMALL, SMALL], "bytes": [SMALL, spot, LARGE]}
ARGUMENTS |= {"frames": [SMALL, SMALL], "output": [SMALL]}
ALONE = ["step", "back", "run", "place"]


def meaning(text):
    """A word's name and its arguments, or None where the text is no word."""
    name, *behind = text.split("=")
    if name in ALONE:
        return None if behind else (name, [])
    if name not in ARGUMENTS or len(behind) != 1:
        return None
    given, readers = behind[0].split(","), ARGUMENTS[name]
    if len(given) != len(readers):
        return None
    values = [reader(argument) for reader, argument in zip(readers, given)]
    return None if None in values else (name, values)


class Debugger:
    """A record and a place in it. `bad` is the first step that the machine doesn't have, or None."""

    def __init__(self, image, steps):
        self.image, self.steps = image, steps
        self.place, self.breaks = 0, []
        # of each step its rank, its hart, and where that hart is before it
        self.next = []
        self.bad = None
        walk = Walk(image, len(steps))
        for at, step in enumerate(steps):
            self.next.append((step.rank, step.hart, walk.cluster.ranks[step.rank].harts[step.hart].pc))
            if not walk.takes(step):
                self.bad = at
                return

    def rank(self, rank):
        """A rank as it is at the place."""
        if rank >= self.image.ranks:
            raise Refused("NoRank")
        walk = Walk(self.image, len(self.steps))
        for step in self.steps[: self.place]:
            walk.takes(step)
        return walk.cluster.ranks[rank]

    def addresses(self, at):
        """The addresses that a number, a name or a line stands for."""
        if isinstance(at, int):
            return [at]
        is_meant = (lambda name: places.line(name) == at) if isinstance(at, tuple) else (lambda name: name == at)
        found = [address for address, name in self.image.symbols if is_meant(name.decode())]
        if not found:
            raise Refused("NoSymbol")
        return found

    def does(self, name, values):
        """Does a word: what it prints."""
        if name in ARGUMENTS and name != "go":
            return getattr(self, f"does_{name}")(*values)
        last = len(self.steps)
        if name == "go":
            if values[0] > last:
                raise Refused(f"PastEnd {last}")
            self.place = values[0]
        elif name == "step":
            self.place = min(self.place + 1, last)
        elif name == "back":
            self.place = max(self.place - 1, 0)
        elif name == "run":
            later = range(self.place + 1, last)
            self.place = next((at for at in later if self.next[at] in self.breaks), last)
        return f"at {self.place} of {last}\n".encode()

    def does_break(self, rank, hart, at):
        """Sets a break, of a line several perhaps."""
        found = self.addresses(at)
        if rank >= self.image.ranks:
            raise Refused("NoRank")
        if hart >= self.image.harts:
            raise Refused("NoHart")
        self.breaks += [(rank, hart, at) for at in found]
        return b""

    def does_regs(self, rank, hart):
        """Shows a hart."""
        owner = self.rank(rank)
        if hart >= self.image.harts:
            raise Refused("NoHart")
        at = owner.harts[hart]
        told = f"rank {rank} hart {hart} {at.told()}\n"
        return (told + "".join(f"x{n} {value:016x}\n" for n, value in enumerate(at.regs))).encode()

    def does_frames(self, rank, hart):
        """Shows a hart, and the calls that led to where it is."""
        owner = self.rank(rank)
        if hart >= self.image.harts:
            raise Refused("NoHart")
        at = owner.harts[hart]
        lines = [f"rank {rank} hart {hart} {at.told()}", *frames.calls(self.image, at, owner.memory)]
        return "".join(f"{line}\n" for line in lines).encode()

    def does_output(self, rank):
        """Shows what a rank has put out."""
        out = bytes(self.rank(rank).out)
        return f"rank {rank} output {len(out)}\n".encode() + out + b"\n"

    def does_bytes(self, rank, at, count):
        """Shows bytes."""
        at = self.addresses(at)[0]
        memory = self.rank(rank).memory
        if not memory.can_read(at, count):
            raise Refused("Range")
        shown = memory.read(at, count)
        lines = (shown[first : first + 16].hex(" ") for first in range(0, len(shown), 16))
        return "".join(f"{line}\n" for line in lines).encode()


def told(words, image, steps):
    """What the words tell of a record: the status and both texts."""
    debugger, out = Debugger(image, steps), b""
    try:
        if debugger.bad is not None:
            raise Refused(f"NotARun {debugger.bad}")
        for text in words:
            out += debugger.does(*meaning(text))
    except Refused as fault:
        return 1, out, f"rvmc: debug: {fault}\n".encode()
    return 0, out, b""


# what is told of a line with a text that is no word
NO_SUCH_WORD = b"rvmc: no such word: rvmc debug --help lists them\n"


def answer(line, debugger):
    """What `debug -` answers to a line, by the debugger where the line before left it."""
    try:
        words = [meaning(text) for text in re.findall("[^ \t\r]+", line.decode())]
    except UnicodeDecodeError:
        return NO_SUCH_WORD
    if None in words:
        return NO_SUCH_WORD
    out = b""
    try:
        for word in words:
            out += debugger.does(*word)
    except Refused as fault:
        out += f"rvmc: debug: {fault}\n".encode()
    return out


def answers(typed, image, steps):
    """What `debug -` tells of a record and of bytes behind it: the status and both texts."""
    debugger = Debugger(image, steps)
    if debugger.bad is not None:
        return 1, b"", f"rvmc: debug: NotARun {debugger.bad}\n".encode()
    return 0, b"".join(answer(line, debugger) for line in typed.split(b"\n")), b""


class Words:
    """Words drawn at random, for a record whose steps are a run."""

    def __init__(self, random, image, steps):
        self.random, self.image, self.steps = random, image, steps
        self.next = Debugger(image, steps).next or [(0, 0, 0)]

    def drawn(self):
        """Some words, one of them none now and then."""
        words = [self.word() for _ in range(1 + self.random.randrange(9))]
        if self.random.randrange(12) == 0:
            words.insert(self.random.randrange(len(words) + 1), self.random.choice(NO_WORDS))
        return words

    def typed(self):
        """Lines of words, as a person types them, or nearly so."""
        lines = []
        for _ in range(self.random.randrange(6)):
            words = [word.encode() for word in self.drawn()[: self.random.randrange(5)]]
            blanks = [self.random.choice([b" ", b" ", b"  ", b"\t", b" \r"]) for _ in range(len(words) + 1)]
            ends = self.random.choice([(b"", b""), (b"", b"\r"), (blanks[0], blanks[0])])
            line = ends[0] + b"".join(word + blank for word, blank in zip(words, blanks)) + ends[1]
            lines.append(line if self.random.randrange(12) else line + self.random.randbytes(2))
        return b"\n".join(lines) + self.random.choice([b"", b"\n"])

    def written(self, value):
        """A number, in decimal or in hexadecimal."""
        form = self.random.choice(["{}", "{}", "{:#x}", "00{}", "0x0{:X}"])
        return form.format(value)

    def rank(self):
        """A rank, or mostly so."""
        return self.written(self.random.choice([*2 * [*range(self.image.ranks)], self.image.ranks, 255]))

    def hart(self):
        """A hart, or mostly so."""
        return self.written(self.random.choice([*3 * [*range(self.image.harts)], self.image.harts]))

    def name(self):
        """A name, of a symbol or of none."""
        names = [name.decode() for _, name in self.image.symbols]
        lines = [":".join(places.line(name)) for name in names if places.line(name)]
        return self.random.choice([*names, *names, *lines, "nobody", "_" * 32, "a.c:1"])

    def word(self):
        """A word."""
        kind = self.random.choice(["go", "go", "run", "run", "break", "break", "regs", "bytes", "frames", "output", *ALONE])
        if kind in ALONE:
            return kind
        if kind == "go":
            last = len(self.steps)
            places = [0, last // 2, last - 1, last, self.random.randrange(last + 1), self.random.randrange(last + 1)]
            return "go=" + self.written(self.random.choice([*3 * places, last + 1, MOST]))
        if kind in ("regs", "frames"):
            return f"{kind}={self.rank()},{self.hart()}"
        if kind == "output":
            return f"output={self.rank()}"
        if kind == "bytes":
            memory = self.image.memory
            count = self.random.choice([0, 1, 8, 15, 16, 17, 40])
            at = self.random.choice([0, 1, memory - count, memory - count + 1, self.random.randrange(memory), MOST])
            at = self.name() if self.random.randrange(4) == 0 else self.written(at)
            return f"bytes={self.rank()},{at},{self.written(count)}"
        if self.random.randrange(4):
            rank, hart, at = map(self.written, self.random.choice(self.next))
            return f"break={rank},{hart},{at}"
        return f"break={self.rank()},{self.hart()},{self.random.choice([self.name(), self.written(4)])}"
