"""The starts of a split, what is told of each, and what is told of all of them together, as docs/EXPLORE.md has them; and
the ends behind a start, by the model's own search."""

import hashlib
import re

import orders
from formats import FREED, MISS, TAKE

LINE = re.compile(rb"(\d+)/(\d+):(\d+-[0-9a-f]{16}):([0-9a-f]{16}):(\d+(?:,\d+)*):((?:\d+(?:x\d+|-)?(?:,(?!$)|$))*)")

HEAD = re.compile(
    rb"start (\d+) of (\d+) of split ([0-9a-f]{16})\nimage (\d+-[0-9a-f]{16}) harts (\d+(?:,\d+)*)\n"
    rb"(\d+) outcomes, (\d+) states, (\d+) left, status (\d)(, for ever|)\n"
)

OUTCOME = re.compile(rb"((outcome \d+)?[^\n]*\n)(\d+) bytes\n")

CLOSING = re.compile(
    rb"(\d+ outcomes? of \d+ states?) of (\d+ starts?): "
    rb"(no other outcome with buffered sends|not all: start (\d+) isn't told whole)\n"
)


def digest(text):
    """The first eight bytes of a text's SHA-256 digest, in hexadecimal."""
    return hashlib.sha256(text).hexdigest()[:16].encode()


def counted(count, word):
    """How many there are of what a word names."""
    return b"%d %s%s" % (count, word, b"" if count == 1 else b"s")


class Start:
    """A start, taken apart: its number, how many there are, its image, its split, its plan and its turns."""

    def __init__(self, line):
        self.word = line.decode()
        parts = LINE.fullmatch(line)
        self.number, self.count = int(parts[1]), int(parts[2])
        self.image, self.split, self.plan = parts[3], parts[4], [int(hart) for hart in parts[5].split(b",")]
        # each turn as its rank, and whether it is a look that sees nothing, there or not
        self.turns = []
        for item in parts[6].split(b",") if parts[6] else []:
            rank, _, times = item.rstrip(b"-").partition(b"x")
            self.turns += [(int(rank), item.endswith(b"-"))] * int(times or 1)


def wrong_split(text, given, plan):
    """What is wrong with the starts of a split of an image by a plan: None where nothing is."""
    lines = text.splitlines(keepends=True)
    if not all(line.endswith(b"\n") and LINE.fullmatch(line[:-1]) for line in lines):
        return "no starts"
    starts = [Start(line[:-1]) for line in lines]
    bare = b"".join(line.replace(start.split, b"0" * 16, 1) for line, start in zip(lines, starts))
    for number, start in enumerate(starts, 1):
        if (start.number, start.count, start.plan) != (number, len(starts), plan):
            return f"start {number} has another number, count or plan"
        if start.image != b"%d-%s" % (len(given), digest(given)):
            return f"start {number} is of another image"
        if start.split != digest(bare):
            return f"start {number} is of another split"
    return None


class Part:
    """What was told of a start, taken apart. Where it isn't a text of one, `is_right` isn't set; and where a line of an
    outcome doesn't have its number, `has_heads` isn't: those lines are the reader's alone."""

    def __init__(self, text):
        self.text, self.is_right = text, False
        head = HEAD.match(text)
        if not head:
            return
        self.number, self.count, self.split, self.image = int(head[1]), int(head[2]), head[3], head[4]
        self.plan = [int(hart) for hart in head[5].split(b",")]
        outcomes, self.states, self.left, self.status = (int(head[field]) for field in (6, 7, 8, 9))
        self.is_unending, self.heads, self.bodies, self.has_heads = bool(head[10]), [], [], True
        at = head.end()
        for number in range(1, outcomes + 1):
            line = OUTCOME.match(text, at)
            if not line:
                return
            at = line.end() + int(line[3])
            self.heads.append(line[1])
            self.has_heads = self.has_heads and line[2] == b"outcome %d" % number
            self.bodies.append(text[line.end() : at])
        last = orders.UNENDING if self.is_unending else b""
        last += b"%s of %s: " % (counted(outcomes, b"outcome"), counted(self.states, b"state"))
        if self.left:
            last += b"not all from start %d of %d: %d states are left\n" % (self.number, self.count, self.left)
        else:
            last += b"no other outcome with buffered sends from start %d of %d\n" % (self.number, self.count)
        self.is_right = text[at:] == last

    def search(self):
        """Which search it is told of."""
        return self.count, self.split, self.image, self.plan

    def is_of(self, start):
        """Whether it is told of a start."""
        return (self.number, *self.search()) == (start.number, start.count, start.split, start.image, start.plan)


def joined(parts, count):
    """What the texts of starts, of which there are so many, tell together; and the status."""
    used = []
    for place, part in enumerate(parts):
        same = [other for other in parts if other.number == part.number]
        whole = [other for other in same if not other.left]
        if part is (whole or same)[0]:
            used.append(part)
    text, seen = b"", []
    for part in used:
        for number, body in enumerate(part.bodies, 1):
            if body not in seen:
                seen.append(body)
                text += b"outcome %d: outcome %d of start %d\n%s" % (len(seen), number, part.number, body)
    lacking = set(range(1, count + 1)) - {part.number for part in used if not part.left}
    # ranks may need buffers before a start, where no part looks
    verdict = b"not all: start %d isn't told whole" % min(lacking) if lacking else b"no other outcome with buffered sends"
    text += orders.UNENDING if any(part.is_unending for part in used) else b""
    states = sum(part.states for part in used)
    told = (counted(len(seen), b"outcome"), counted(states, b"state"), counted(count, b"start"), verdict)
    statuses = {part.status for part in used}
    status = 4 if lacking else next((status for status in (3, 7, 8) if status in statuses), 0)
    return text + b"%s of %s of %s: %s\n" % told, status


class Joined(orders.Told):
    """What was told of all starts together, taken apart."""

    def __init__(self, text, image):
        super().__init__(text, image)
        closing = CLOSING.fullmatch(text[text.rfind(b"\n", 0, len(text) - 1) + 1 :])
        self.is_whole = closing and closing[3] == b"no other outcome with buffered sends"
        self.lacking = closing and closing[4] and int(closing[4])
        self.outcomes = [body + why for body, why in zip(self.bodies, self.whys)]


class Behind(orders.Search):
    """All states that some order of turns leads to from where the turns of a start lead. Where one of them can't be taken,
    `lost` is its number, from 1."""

    def __init__(self, image, start, most):
        super().__init__(image, start.plan, False, most)
        self.start, self.lost = start, None

    def first(self):
        """The state at which the start is."""
        self.each = True
        state = super().first()
        for number, (rank, misses) in enumerate(self.start.turns, 1):
            if not self.has(state, rank, misses):
                self.lost = number
                return None
            state = self.behind(state, rank, misses)[0]
        self.each, self.turns = False, {}
        around = orders.Around(self.image, state.hub, state.boxes)
        ranks = [self.settled(orders.copy_of_rank(rank, around)) for rank in state.ranks]
        return orders.State(ranks, state.hub, state.boxes, (*map(self.key, ranks), *state.key[-2:]))

    def has(self, state, rank, misses):
        """Whether a rank has such a turn: of a rank that has ended it is one that does nothing."""
        if rank >= len(state.ranks):
            return False
        kind = self.behind(state, rank)[1]
        return kind in (TAKE, FREED, MISS) if misses else kind != MISS
