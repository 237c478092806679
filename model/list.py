"""A record in words and in tables, as docs/DEBUGGING.md ("A record in words") has it."""

import struct
from collections import Counter

from cluster import Walk
from formats import FREED, HELD, HUB, IDLE, MISS, PLAIN, READY, TAKE
from hub import NOT_YET
from machine import BRANCHES, ENDED, RUNNING, TRAPPED, WAITING, WORD, listed, word_of
from places import place as named_place
from why import cause

CODES = (
    "OK BAD_BUFFER BAD_COUNT BAD_TAG BAD_RANK BAD_COMM BAD_REQUEST TRUNCATED FULL BAD_PARTITION NO_CHANNEL SHAPE "
    "ACTIVE BAD_CALL BAD_MESSAGE ALREADY_READY NOT_ACTIVE"
).split()

SENDS = "buf count dest tag c"
RECEIVES = "buf cap source tag c"
PROBES = "source tag c st"

# the name of each call, its arguments, and what it leaves in a1
CALLS = {
    0: ("EXIT", "code", None), 1: ("PUT", "buf count", None), 2: ("RANK", "c", "rank"), 3: ("SIZE", "c", "size"),
    4: ("HART", "", "hart"), 16: ("SEND", SENDS, None), 17: ("SSEND", SENDS, None),
    18: ("RECV", f"{RECEIVES} st", None), 19: ("ISEND", SENDS, "handle"), 20: ("ISSEND", SENDS, "handle"),
    21: ("IRECV", RECEIVES, "handle"), 22: ("TEST", "h st", "flag"), 23: ("WAIT", "h st", None),
    24: ("IPROBE", PROBES, "flag"), 25: ("PROBE", PROBES, None), 26: ("IMPROBE", PROBES, "message handle"),
    27: ("MPROBE", PROBES, "message handle"), 28: ("IMRECV", "buf cap m", "handle"),
    29: ("MRECV", "buf cap m st", None), 30: ("SEND_INIT", SENDS, "handle"), 31: ("RECV_INIT", RECEIVES, "handle"),
    32: ("START", "h", None), 33: ("REQUEST_FREE", "h", None), 34: ("TESTALL", "array count statuses", "flag"),
    35: ("WAITALL", "array count statuses", None), 40: ("PSEND_INIT", "buf parts size dest tag c", "handle"),
    41: ("PRECV_INIT", "buf parts size source tag c", "handle"), 42: ("PREADY", "h partition", None),
    43: ("PARRIVED", "h partition", "flag"),
}

ADDRESSES = {"buf", "st", "array", "statuses"}
WILD = {"dest", "source", "tag", "m"}


def wild(number):
    """A rank, a tag or a message handle."""
    return {WORD - 1: "any", WORD - 2: "null"}.get(number, str(number))


def argument(name, number):
    """An argument by its name."""
    if name in ADDRESSES:
        return f" {name}={number:#x}"
    return f" {name}={wild(number) if name in WILD else number}"


class Before:
    """What is seen of a step before it is done."""

    def __init__(self, rank, step):
        hart = rank.harts[step.hart]
        self.regs, self.pc = list(hart.regs), hart.pc
        self.word = rank.memory.fetch(hart.pc) if hart.pc + 4 <= rank.memory.text else None
        self.box = None
        self.rank, self.look = rank, rank.box
        rank.box = self.looks

    def looks(self, side, number):
        """A look at a box."""
        self.box = (side.link, number)
        return self.look(side, number)

    def end(self):
        """Looks no more."""
        self.rank.box = self.look


class Phases:
    """How often each box was made ready, and how often taken."""

    def __init__(self, image):
        self.links, self.made, self.taken = image.links, Counter(), Counter()

    def met(self, step, box):
        """What the line of a step tells of its box's phase, where it asked a box; the box is counted."""
        if step.kind not in (READY, TAKE, MISS, FREED):
            return ""
        self.made[box] += step.kind == READY
        phase = self.made[box] if self.links[box[0]][0] == step.rank else self.taken[box] + 1
        self.taken[box] += step.kind == TAKE
        return f" -> phase {phase}"


# ---- instructions


def left(word, before, hart):
    """What an instruction left."""
    if word.opcode == 0x63:
        taken = BRANCHES[word.funct3](before.regs[word.rs1], before.regs[word.rs2])
        return " taken" if taken else " not taken"
    if word.opcode == 0x23:
        at = (before.regs[word.rs1] + word.s) % WORD
        return f" [{at:#x}] = {before.regs[word.rs2] % (1 << (8 << word.funct3)):#x}"
    if word.opcode == 0x0F or word.rd == 0:
        return ""
    return f" = {hart.regs[word.rd]:#x}"


def instruction(image, before, hart):
    """An instruction, and what it left."""
    trapped = f"trapped {cause(image, hart)}" if hart.mode == TRAPPED else None
    if before.word is None:
        return trapped
    text = listed(before.word)
    if text.startswith(".word"):
        return f".word {before.word:#x} {trapped}"
    if trapped:
        return f"{text} {trapped}"
    return text + left(word_of(before.word), before, hart)


# ---- calls


def envelope(text):
    """A message without its bytes."""
    _, source, tag, count = struct.unpack("<BBHH", text)
    return f" -> message from rank {source} tag {tag}, {count} bytes"


def message(text):
    """A message with its first sixteen bytes, and what stands behind it."""
    count = struct.unpack("<H", text[4:6])[0]
    first = "".join(f" {byte:02x}" for byte in text[6 : 6 + min(count, 16)])
    return f"{envelope(text[:6])}:{first}", text[6 + count :]


def messages(text):
    """What several posts gave."""
    told = ""
    while text:
        there, text = text[0], text[1:]
        if there:
            more, text = message(text)
            told += more
    return told


def replied(reply):
    """What the hub told."""
    if not reply:
        return ""
    tag, rest = reply[0], reply[1:]
    if tag == 2:
        return message(rest)[0]
    if tag == 5:
        return envelope(rest)
    if tag == 6:
        return envelope(rest[8:])
    if tag == 7:
        return messages(rest[1:])
    if tag == 8:
        return f" -> link {rest[0]}"
    if tag == 9:
        return f" -> cut into {rest[0]} partitions of {rest[1]} bytes"
    return ""


def ended(value, hart):
    """How a call ended."""
    if hart.mode == WAITING:
        return " -> waits"
    if hart.mode != RUNNING:
        return ""
    code = f" -> {CODES[hart.regs[10]]}" if hart.regs[10] else ""
    return code + (f" -> {value} {wild(hart.regs[11])}" if value else "")


def call(step, before, hart):
    """A call, and what it gave."""
    name, names, value = CALLS.get(before.regs[17], ("no call", "", None))
    arguments = "".join(argument(one, number) for one, number in zip(names.split(), before.regs[10:]))
    if hart.mode == RUNNING and hart.regs[10] not in (0, 7):
        return f"{name} refused: {CODES[hart.regs[10]]}{arguments}"
    box = ""
    if step.kind in (READY, TAKE, MISS, FREED):
        box = f" -> link {before.box[0]} partition {before.box[1]}"
    return f"{name}{arguments}{box}{replied(step.reply)}{ended(value, hart)}"


# ---- lines


def line(image, place, step, before, hart):
    """The line of a step."""
    head = f"{place} rank {step.rank} hart {step.hart} stamp {step.stamp} at {named_place(image, before.pc)}: "
    if step.kind == PLAIN:
        return head + instruction(image, before, hart)
    return head + ("stopped" if step.kind == IDLE else call(step, before, hart))


def is_vain(step):
    """Whether a step found nothing."""
    return step.kind in (MISS, HELD, IDLE) or (step.kind == HUB and step.reply == NOT_YET)


class Lines:
    """Lines, of which those in vain are folded where calls alone are wanted."""

    def __init__(self, calls):
        self.calls, self.lines, self.more, self.within = calls, [], 0, False

    def add(self, text, step):
        """Adds a line."""
        folded = self.calls and is_vain(step)
        if folded and self.within:
            self.more += 1
            return
        self.end()
        self.lines.append(text)
        self.within = folded

    def end(self):
        """Ends the line before."""
        if self.more:
            self.lines[-1] += f" and {self.more} more looks in vain"
        self.more = 0

    def told(self):
        """All of them."""
        self.end()
        return "".join(f"{text}\n" for text in self.lines).encode()


# ---- tables


def gots(reply):
    """The sender and the length of each message that a reply brings."""
    tag, rest, found = reply[0], reply[1:], []
    if tag == 7:
        rest = rest[1:]
    while tag in (2, 7) and rest:
        if tag == 7:
            there, rest = rest[0], rest[1:]
            if not there:
                continue
        source, count = rest[1], struct.unpack("<H", rest[4:6])[0]
        found.append((source, count))
        rest = rest[6 + count :]
    return found


class Tables:
    """What steps are counted by."""

    HEADS = [
        "rank turns waited plain local hub ready take miss freed held idle",
        "turns call and how it ended",
        "messages bytes from to",
        "turns place",
    ]

    def __init__(self, image):
        self.image = image
        self.turns, self.waits, self.kinds, self.calls = Counter(), Counter(), Counter(), Counter()
        self.messages, self.bytes, self.places = Counter(), Counter(), Counter()

    def add(self, step, before, hart):
        """Counts a step."""
        self.turns[step.rank] += 1
        self.kinds[step.rank, step.kind] += 1
        self.waits[step.rank] += is_vain(step) and step.kind != IDLE
        if step.kind not in (PLAIN, IDLE):
            number = before.regs[17] if before.regs[17] in CALLS else 44
            ended = {WAITING: 18, ENDED: 19, TRAPPED: 20}.get(hart.mode, hart.regs[10])
            self.calls[number, ended] += 1
        for source, count in gots(step.reply) if step.kind == HUB else []:
            self.messages[source, step.rank] += 1
            self.bytes[source, step.rank] += count
        if step.kind != IDLE and before.pc % 4 == 0 and before.pc < len(self.image.text):
            self.places[before.pc] += 1

    def told(self):
        """All of them."""
        ends = [*CODES, "no code", "waits", "ended", "trapped"]
        lines = [
            [
                " ".join(str(n) for n in (rank, self.turns[rank], self.waits[rank], *(self.kinds[rank, k] for k in range(9))))
                for rank in sorted(self.turns)
            ],
            [
                f"{self.calls[number, ended]} {CALLS.get(number, ('no call',))[0]} {ends[ended]}"
                for number, ended in sorted(self.calls)
            ],
            [f"{self.messages[pair]} {self.bytes[pair]} {pair[0]} {pair[1]}" for pair in sorted(self.messages)],
            [
                f"{turns} {named_place(self.image, at)}"
                for at, turns in sorted(self.places.items(), key=lambda found: (-found[1], found[0]))[:10]
            ],
        ]
        return "\n".join("".join(f"{line}\n" for line in [head, *told]) for head, told in zip(self.HEADS, lines)).encode()


def told(image, steps, first=0, last=None, rank=None, calls=False, stats=False):
    """What `list` tells of a record: the status and both texts."""
    end = len(steps) if last is None else last
    if rank is not None and rank >= image.ranks:
        return 1, b"", b"rvmc: list: NoRank\n"
    if max(first, end) > len(steps):
        return 1, b"", f"rvmc: list: PastEnd {len(steps)}\n".encode()
    walk, lines, tables, phases = Walk(image, len(steps)), Lines(calls), Tables(image), Phases(image)
    for number, step in enumerate(steps[: max(first, end)]):
        owner = walk.cluster.ranks[step.rank]
        before = Before(owner, step)
        done = walk.takes(step)
        before.end()
        if not done:
            return 1, b"", f"rvmc: list: NotARun {number}\n".encode()
        phase = phases.met(step, before.box)
        if not first <= number < end or rank not in (None, step.rank):
            continue
        if stats:
            tables.add(step, before, owner.harts[step.hart])
        elif not (calls and step.kind == PLAIN):
            lines.add(line(image, number, step, before, owner.harts[step.hart]) + phase, step)
    return 0, tables.told() if stats else lines.told(), b""
