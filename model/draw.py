"""A record as a picture, as docs/DEBUGGING.md ("A record as a picture") has it, and what a picture tells of it.

What is drawn is told in the words that stand behind the pointer in a picture: those of each mark, arrow, bar and row.
Where on the page they stand isn't told, and is no part of this.
"""

import xml.etree.ElementTree as tree

from cluster import Walk
from formats import FREED, HELD, HUB, IDLE, LOCAL, MISS, PLAIN, READY, TAKE
from list import Before, line
from machine import ENDED, TRAPPED, WAITING
from why import Tried, told as why_told, verdict

MOST_MARKS = 5_000

SVG = "{http://www.w3.org/2000/svg}"

# calls that have no mark where they aren't refused
QUIET = {2, 3, 4, 30, 31, 32, 33, 40, 41}

PUT = 1

SHAPES = (
    "send ssend posted got claimed seen done ready taken freed put exit trap refused look other"
).split()


def safe(text):
    """A text of a guest as a picture has it: letters that XML doesn't allow, or that aren't ASCII, are dots."""
    return "".join(letter if letter == "\n" or " " <= letter <= "~" else "." for letter in text)


class Spot:
    """A step: its place, and who took it."""

    def __init__(self, place, step):
        self.place, self.rank, self.hart = place, step.rank, step.hart


class Deed:
    """What a step did, as far as a picture shows it."""

    def __init__(self, walk, place, step):
        self.spot, self.step = Spot(place, step), step
        self.rank = walk.cluster.ranks[step.rank]
        self.hub = walk.cluster.hub
        self.before = Before(self.rank, step)
        self.sends = [(number, post) for number, post in enumerate(self.hub.posts) if self.is_open(post)]
        self.collected = [post.collected for post in self.hub.posts]
        self.shape = None
        self.vain = self.wild = False
        self.made, self.got = None, []

    @staticmethod
    def is_open(post):
        """Whether a post is a send without a partner."""
        return post.kind == "send" and post.partner is None

    def done(self, image):
        """Notes what was done: the step was taken."""
        self.before.end()
        hub, self.hart = self.hub, self.rank.harts[self.spot.hart]
        if len(hub.posts) > len(self.collected):
            self.made = len(hub.posts) - 1
        fresh = [*self.collected, *[False] * (len(hub.posts) - len(self.collected))]
        self.got = [number for number, post in enumerate(hub.posts) if post.collected and not fresh[number]]
        self.tip = safe(line(image, self.spot.place, self.step, self.before, self.hart))
        self.shape = self.shape_of()
        self.vain = self.is_vain()
        post = None if self.made is None else hub.posts[self.made]
        self.wild = post is not None and post.kind != "send" and post.source is None

    def is_vain(self):
        """Whether what was asked for isn't there yet."""
        if self.step.kind == HUB:
            return self.step.reply[0] == 3 or (self.step.reply[0] == 1 and self.hart.mode == WAITING)
        return self.step.kind in (MISS, HELD)

    def shape_of(self):
        """The shape of the step's mark, if it has one."""
        kind, mode, number = self.step.kind, self.hart.mode, self.before.regs[17]
        if kind == PLAIN:
            return "trap" if mode == TRAPPED else None
        if kind == IDLE:
            return None
        if kind == LOCAL:
            if mode in (ENDED, TRAPPED):
                return "exit" if mode == ENDED else "trap"
            if mode != WAITING and self.hart.regs[10] not in (0, 7):
                return "refused"
            return "put" if number == PUT else None if number in QUIET else "other"
        if kind == HUB:
            return self.hub_shape()
        return {READY: "ready", TAKE: "taken", MISS: "look", FREED: "freed", HELD: "look"}[kind]

    def hub_shape(self):
        """The shape of a call of the hub."""
        reply = self.step.reply
        if reply[0] == 1:
            post = None if self.made is None else self.hub.posts[self.made]
            if post is None or post.kind == "claim":
                return "other"
            return "posted" if post.kind == "receive" else "ssend" if post.sync else "send"
        if reply[0] == 7:
            # of each post a byte, 1 where it brought a message
            return "got" if self.got else "done"
        return {0: "refused", 2: "got", 3: "look", 4: "done", 5: "seen", 6: "claimed", 8: None, 9: None}[reply[0]]


class Drawing:
    """A picture of a record, as what it tells: marks with their shapes, arrows, bars, rows, and the end."""

    def __init__(self, image, first, last):
        self.image, self.first, self.last = image, first, last
        self.marks, self.arrows, self.bars, self.rows, self.told = [], [], [], [], ""
        self.spots = {}
        # by hart: the bar that it looks in, and its last shape; by box: its phase and the step that began it
        self.begun, self.shapes, self.boxes = {}, {}, {}
        # the boxes that are full: the step that filled each, and its phase
        self.full = {}
        self.got = set()

    def sees(self, spot):
        """Whether a step is shown."""
        return spot is not None and self.first <= spot.place < self.last

    # ---- arrows

    def arrow(self, start, end, dest, what, could=False):
        """Adds an arrow, if it is shown."""
        if not (self.sees(end) or (not could and self.sees(start))):
            return
        to = f"rank {dest}, where nobody got it" if end is None else f"step {end.place} of rank {end.rank}"
        self.arrows.append(f"step {start.place} of rank {start.rank} to {to}: {what}")

    @staticmethod
    def carried(post):
        """The tag and the size of a send."""
        return f"tag {post.envelope[2]}, {post.envelope[3]} bytes"

    def arrows_to(self, deed):
        """Adds the arrows to a step."""
        posts = deed.hub.posts
        if deed.made is not None and posts[deed.made].kind == "send":
            self.spots[deed.made] = deed.spot
        post = None if deed.made is None else posts[deed.made]
        if deed.wild:
            found = set()
            for number, send in deed.sends:
                source = send.envelope[1]
                if post.accepts(send) and source not in found:
                    found.add(source)
                    if post.partner is not send:
                        what = f"could have been taken, {self.carried(send)}"
                        self.arrow(self.spots[number], deed.spot, None, what, could=True)
        if post is not None and post.kind == "claim":
            at = posts.index(post.partner)
            self.arrow(self.spots[at], deed.spot, None, f"claimed, {self.carried(post.partner)}")
        for number in deed.got:
            at = posts.index(posts[number].partner)
            self.got.add(at)
            self.arrow(self.spots[at], deed.spot, None, self.carried(posts[at]))
        self.partitions(deed)

    def partitions(self, deed):
        """Adds the arrow to a step that took a partition, and notes one that was made ready."""
        if deed.step.kind == TAKE:
            start, phase = self.boxes[deed.before.box]
            link, part = deed.before.box
            self.arrow(start, deed.spot, None, f"link {link} partition {part} phase {phase}")
            del self.full[deed.before.box]
        if deed.step.kind == READY:
            _, phase = self.boxes.get(deed.before.box, (None, 0))
            self.boxes[deed.before.box] = self.full[deed.before.box] = deed.spot, phase + 1

    def losses(self, hub):
        """Adds the arrows of messages that nobody got, and of partitions that nobody took."""
        for (link, part), (spot, phase) in sorted(self.full.items()):
            if self.sees(spot):
                self.arrow(spot, None, self.image.links[link][1], f"link {link} partition {part} phase {phase}")
        for number, spot in sorted(self.spots.items()):
            if number not in self.got and self.sees(spot):
                self.arrow(spot, None, hub.posts[number].dest, self.carried(hub.posts[number]))

    # ---- marks and bars

    def mark(self, deed):
        """Adds a step's mark, if it has one, and its bar."""
        if deed.shape is None:
            return
        hart = (deed.spot.rank, deed.spot.hart)
        row = deed.shape in ("put", "freed") and self.shapes.get(hart) == deed.shape
        if self.sees(deed.spot):
            if row:
                self.last_of(hart)[3] += 1
            elif not (deed.vain and hart in self.begun):
                self.marks.append([deed.spot.place, deed.shape, deed.wild, 1, deed.tip, hart])
            self.shapes[hart] = deed.shape
        if deed.vain:
            self.begun.setdefault(hart, [deed.spot, 0])[1] += 1
        elif hart in self.begun:
            self.bar(hart, deed.spot.place)

    def last_of(self, hart):
        """The last mark of a hart."""
        return next(mark for mark in reversed(self.marks) if mark[5] == hart)

    def bar(self, hart, end):
        """Ends the bar of a hart, at a step or at the end of the record."""
        first, looks = self.begun.pop(hart)
        if first.place < self.last and self.first <= (end if end is not None else 1 << 64):
            until = "the end" if end is None else f"step {end}"
            self.bars.append(
                f"rank {hart[0]} hart {hart[1]} waits from step {first.place} to {until}: {looks} looks in vain"
            )

    # ---- the end

    def ends(self, cluster):
        """Tells of the state where the picture ends."""
        waits = {
            (rank.number, number): Tried(cluster, rank.number, number).waits() if hart.mode == WAITING else []
            for rank in cluster.ranks
            for number, hart in enumerate(rank.harts)
        }
        dead = verdict(cluster, waits)
        stuck = dead.split()[2:] if dead.startswith("deadlock") else []
        for (rank, hart), found in sorted(waits.items()):
            if found:
                anybody = any("from any rank" in wait.text for wait in found)
                ranks = range(self.image.ranks) if anybody else sorted(set().union(*(wait.could for wait in found)))
                whom = "".join(f" rank {other}" for other in ranks if other != rank) or " its own rank"
                self.rows.append(
                    f"rank {rank} hart {hart} waits for{whom}" + (": in a deadlock" if str(rank) in stuck else "")
                )
        if self.rows:
            self.told = safe(why_told(cluster).decode("latin-1")).replace("\n", "")

    def tells(self):
        """All that the picture tells, each kind in an order of its own."""
        marks = [tuple(mark[:5]) for mark in self.marks]
        return marks, sorted(self.arrows), sorted(self.bars), self.rows, self.told


def told(image, steps, first=0, last=None):
    """What `draw` tells of a record: the status, what stands in the picture or None, and the line of a fault."""
    end = len(steps) if last is None else last
    if max(first, end) > len(steps):
        return 1, None, f"rvmc: draw: PastEnd {len(steps)}\n".encode()
    walk, drawing = Walk(image, len(steps)), Drawing(image, first, end)
    for place, step in enumerate(steps):
        if place == end:
            drawing.ends(walk.cluster)
        deed = Deed(walk, place, step)
        if not walk.takes(step):
            return 1, None, f"rvmc: draw: NotARun {place}\n".encode()
        deed.done(image)
        drawing.arrows_to(deed)
        drawing.mark(deed)
    if end == len(steps):
        drawing.ends(walk.cluster)
    for hart in sorted(drawing.begun):
        drawing.bar(hart, None)
    drawing.losses(walk.cluster.hub)
    if len(drawing.marks) > MOST_MARKS:
        return 1, None, f"rvmc: draw: TooMany {len(drawing.marks)}\n".encode()
    return 0, drawing.tells(), b""


class Joined(Drawing):
    """The steps that messages, claims and partitions join: each arrow with its first step, its last or None, and its text."""

    def arrow(self, start, end, dest, what, could=False):
        """Adds an arrow; what could have been taken is none."""
        if not could:
            self.arrows.append((start, end, what))


def joined(image, steps):
    """The arrows of a record that is a run: those to each step in order, and those of what nobody got."""
    walk, drawing = Walk(image, len(steps)), Joined(image, 0, len(steps))
    for place, step in enumerate(steps):
        deed = Deed(walk, place, step)
        walk.takes(step)
        deed.done(image)
        drawing.arrows_to(deed)
    drawing.losses(walk.cluster.hub)
    return drawing.arrows


# ---- what a picture tells


def title(part):
    """What stands behind the pointer at a part of a picture, or None."""
    found = part.find(f"{SVG}title")
    return None if found is None else found.text


def mark_of(part):
    """A mark of a picture: its place, its shape, whether it has a ring, how many steps it stands for, and its words."""
    names = [used.get("href")[1:] for used in part.findall(f"{SVG}use")]
    text, _, more = title(part).partition("\nand more of its kind: ")
    times = int(more.split()[0]) if more else 1
    return int(part.get("id")[4:]), names[-1], names[:-1] == ["ring"], times, text


def read(svg):
    """All that a picture tells, as the model does, or an error where it is no XML."""
    marks, arrows, bars, rows, lines = [], [], [], [], []
    for part in tree.fromstring(svg).iter():
        if part.tag == f"{SVG}text" and part.get("{http://www.w3.org/XML/1998/namespace}space") == "preserve":
            lines.append(part.text or "")
        if part.tag != f"{SVG}g" or title(part) is None:
            continue
        if part.get("id"):
            marks.append(mark_of(part))
        elif title(part).startswith("step "):
            arrows.append(title(part))
        elif " waits from " in title(part):
            bars.append(title(part))
        else:
            rows.append(title(part))
    return marks, sorted(arrows), sorted(bars), rows, "".join(lines)


def has_names(svg, ranks):
    """Whether each rank's name stands by its lanes at least once in 700 pixels, and between its marks and not on them."""
    root = tree.fromstring(svg)
    foot = max(float(line.get("y2")) for line in root.iter(f"{SVG}line") if line.get("class") == "lane")
    rows = [float(use.get("y")) for mark in root.iter(f"{SVG}g") if mark.get("id") for use in mark.iter(f"{SVG}use")]
    for rank in range(ranks):
        names = [float(text.get("y")) for text in root.iter(f"{SVG}text") if f"f{rank} bold" in text.get("class")]
        if any(below - above > 700 for above, below in zip(names, names[1:] + [foot])):
            return False
        # a letter is 12 pixels high, and a mark 14
        if any(-5 < row - name + 6 < 5 for name in names[1:] for row in rows):
            return False
    return True


def has_lanes(svg):
    """Whether all marks of a hart stand in one lane, and the lanes in the order of ranks and of their harts."""
    across = {}
    for part in tree.fromstring(svg).iter(f"{SVG}g"):
        if part.get("id") and title(part) is not None:
            words = title(part).split()
            hart = int(words[words.index("rank") + 1]), int(words[words.index("hart") + 1])
            across.setdefault(hart, set()).add(float(part.find(f"{SVG}use").get("x").rstrip("%")))
    lanes = [sorted(across[hart]) for hart in sorted(across)]
    return all(len(lane) == 1 for lane in lanes) and all(one < other for one, other in zip(lanes, lanes[1:]))
