"""Random command lines, and what they mean: README.md, docs/MACHINE.md ("What a run prints") and docs/DECISIONS.md ("The
command line") say it."""

import re
from functools import partial

# each command's flags, and its options with what tests a value
DECIMAL = re.compile(r"[0-9]+")
MOST_BUDGET, MOST_LEAD, MOST_PLACE = 16_777_216, 65_536, (1 << 64) - 1


def bounded(text, most, least=1):
    """A decimal number in bounds, or None."""
    value = int(text) if DECIMAL.fullmatch(text) else -1
    return value if least <= value <= most else None


def listed(text):
    """Decimal numbers from 0 to 255 with one comma between them, or None."""
    parts = text.split(",")
    if all(DECIMAL.fullmatch(part) for part in parts) and all(int(part) <= 255 for part in parts):
        return [int(part) for part in parts]
    return None


def sized(text):
    """A name without `=`, and how many bytes it has, at most as many as the input may have; or None."""
    name, *others = text.split("=")
    return (name, int(others[0])) if len(others) == 1 and bounded(others[0], 1 << 26, 0) is not None else None


BUDGET = ("--budget", lambda text: bounded(text, MOST_BUDGET))
PLAN = ("--plan", listed)
PLACE = partial(bounded, most=MOST_PLACE, least=0)
COMMANDS = {
    "asm": (("--from",), ()),
    "dis": ((), ()),
    "check": ((), ()),
    "report": ((), ()),
    "one": (("--source", "--record", "--why", "--frames"), (BUDGET, PLAN, ("--order", listed))),
    "run": (("--source", "--record", "--why", "--frames"), (BUDGET, PLAN, ("--lead", lambda text: bounded(text, MOST_LEAD)))),
    "list": (("--calls", "--stats"), (("--from", PLACE), ("--to", PLACE), ("--rank", lambda text: bounded(text, 255, 0)))),
    "draw": ((), (("--from", PLACE), ("--to", PLACE))),
    "page": ((), (("--from", PLACE), ("--to", PLACE), ("--text", sized))),
    "why": (("--frames",), (("--at", PLACE),)),
}

# flags that don't go together
APART = ({"--record", "--why"}, {"--record", "--frames"}, {"--calls", "--stats"})

# options whose values are numbers
NUMBERED = ("--budget", "--lead", "--at", "--from", "--to", "--rank")

# values at and past each bound, and texts that are no values
NUMBERS = ["0", "1", "2", "5", "300", "16777215", "16777216", "16777217", "65535", "65536", "65537", "001", "", "+5"]
NUMBERS += ["18446744073709551615", "0x5", "ten", "5 ", " 5", "1.0", "18446744073709551616", "18446744073709551617", "1,0", "\u0661"]
LISTS = ["0", "0,0", "0,1", "1,0", "1", "00", "255", "256", "1,256", "0,", ",0", "0,,0", ",", "", " 0", "0 ", "0;1"]
LISTS += ["0x0", "+1", "all", "18446744073709551616", "0,1,2,3,0,1,2,3"]
TEXTS = ["a.c=5", "a.c=0", "b/a.c=67108864", "a.c=67108865", "=3", "a.c=", "a.c", "a=b.c=5", "a.c=5=", "a.c=+5", "a.c= 5", ""]
WORDS = ["fly", "--fly", "", "one", "asm", "x", "--budge", "--sourc", "--source=yes", "--record=", "--from=1", "0"]


def spelled(text):
    """Bytes as a page spells them."""
    return b"".join(bytes([byte]) if re.match(rb"[ $(-;A-Z_a-z]", bytes([byte])) else b"\\x%02x" % byte for byte in text)


def sources(texts, behind):
    """What a page has of sources, by their names and sizes, of the bytes that stand behind its record."""
    told = b""
    for name, size in texts:
        text, behind = behind[:size], behind[size:]
        told += b"\\file " + spelled(name.encode()) + b"\n" + b"\n".join(map(spelled, text.split(b"\n")))
        told += b"" if text.endswith(b"\n") else b"\n"
    return told


# names of files, and words that are none
NAMES = ["a.image", "a.s", "./b", "room/a.s", "c.record", ".s", "a.s.image"]
NO_NAMES = ["a=1.s", "-a.s", "ab", "-", "=", "--a/b"]


class Named:
    """Words, the words that are left of them, and the files that they name."""

    def __init__(self, words, left, file=None, output=None):
        self.words, self.left, self.file, self.output = words, left, file, output


def is_file(word):
    """Whether a word names a file."""
    return ("." in word or "/" in word) and "=" not in word and not word.startswith("-")


def named(words):
    """What words name: all that is asked of a line stands in docs/DECISIONS.md."""
    rest, left, file, output = list(words), [], None, None
    command = words[0] if words and words[0] in COMMANDS else None
    valued = [name for name, _ in COMMANDS[command][1]] if command else []
    left += [rest.pop(0)] if command else []
    while rest:
        word = rest.pop(0)
        if word == "-o":
            if output is not None or not rest:
                return Named(words, words)
            output = rest.pop(0)
        elif word in valued:
            left += [word, *rest[:1]]
            del rest[:1]
        elif is_file(word):
            if file is not None:
                return Named(words, words)
            file = word
        else:
            left.append(word)
    if not command and left:
        return Named(words, words)
    if not command and file:
        left = ["one"]
    if file and file.endswith(".s") and left[0] in ("one", "run") and "--source" not in left:
        left.append("--source")
    return Named(words, left, file, output)


class Meaning:
    """What words say: a command, its flags, and the values of its options."""

    def __init__(self, command, flags, values):
        self.command, self.flags, self.values = command, flags, values


def meaning(words):
    """What words mean, or None where they are a fault of the command line."""
    if not words:
        return Meaning("one", {"--source"}, {})
    command, *rest = words
    if command not in COMMANDS:
        return None
    flags, options = COMMANDS[command]
    options = dict(options)
    seen, values = set(), {}
    while rest:
        word = rest.pop(0)
        name, equals, text = word.partition("=")
        if (name in seen and name != "--text") or (word not in flags and name not in options):
            return None
        seen.add(name)
        if name in options:
            if not equals:
                if not rest or rest[0].startswith("-"):
                    return None
                text = rest.pop(0)
            value = options[name](text)
            if value is None:
                return None
            values[name] = values.get(name, []) + [value] if name == "--text" else value
    if any(flags <= seen for flags in APART) or values.get("--to", MOST_PLACE) < values.get("--from", 0):
        return None
    return Meaning(command, seen & set(flags), values)


class Lines:
    """Command lines drawn at random."""

    def __init__(self, random):
        self.random = random

    def words(self):
        """Some words."""
        if self.random.randrange(30) == 0:
            return [self.random.choice(WORDS)]
        command = self.random.choice(["one", "one", "run", "run", *COMMANDS])
        flags, options = COMMANDS[command]
        words = [command]
        for flag in flags:
            if self.random.randrange(3) == 0:
                words.append(flag)
        for name, _ in options:
            if self.random.randrange(3) == 0:
                words += self.option(name)
        if self.random.randrange(6) == 0:
            options = ["--budget", "--plan", "--order", "--lead", "--at", "--to", "--rank", "--text"]
            other = self.random.choice([*options, "--source", "--record", "--from", "--why", "--frames", "--calls", "--stats"])
            extra = self.option(other) if other in options else [other]
            extra = self.random.choice([extra, [self.random.choice(WORDS)]])
            at = 1 + self.random.randrange(len(words))
            words[at:at] = extra
        return self.with_names(words)

    def with_names(self, words):
        """The words, and some that name files, or nearly do."""
        if self.random.randrange(12) == 0:
            words = []
        while self.random.randrange(3) == 0:
            at = self.random.randrange(1 + len(words)) if self.random.randrange(8) == 0 else len(words)
            word = self.random.choice(NAMES if self.random.randrange(6) else NO_NAMES)
            words[at:at] = [word] if self.random.randrange(3) else ["-o", self.random.choice(["out", "out.report", "--why"])]
        return words

    def option(self, name):
        """An option with a value, in one word or in two, or with none."""
        values = NUMBERS if name in NUMBERED else TEXTS if name == "--text" else LISTS
        value = self.random.choice(values)
        if self.random.randrange(3):
            value = self.random.choice(values[1:5] if name in NUMBERED else values[:5])
        forms = [[f"{name}={value}"], [name, value]]
        return self.random.choice(forms) if self.random.randrange(20) else [name]
