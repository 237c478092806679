"""What each hart waits for, and which ranks are in a deadlock, as docs/DEBUGGING.md ("A run that doesn't end") has it; and which
ranks need buffers, as docs/EXPLORE.md has it."""

import copy

import frames
import places
from cluster import Walk
from formats import HELD, HUB, MISS
from hub import NOT_YET
from machine import ECALL, ENDED, RUNNING, TRAPPED, WAITING

CALLS = {16: "SEND", 17: "SSEND", 18: "RECV", 23: "WAIT", 25: "PROBE", 27: "MPROBE", 29: "MRECV", 35: "WAITALL"}

# the causes of traps by their numbers, as docs/MACHINE.md ("Traps") lists them
CAUSES = [
    "jump to a misaligned address",
    "jump out of the text",
    "illegal instruction",
    "breakpoint",
    "misaligned load",
    "load outside memory",
    "misaligned store",
    "store outside memory or into the text",
]
STORE_ACCESS = 7

# what a SEND has in a5 whose message its sender buffers itself, and a WAIT or WAITALL of such sends
BUFFERED = int.from_bytes(b"buffered", "little")


class Wait:
    """One thing that a hart waits for, as text, and which ranks could bring it."""

    def __init__(self, text, could, short=None):
        self.text, self.could = text, set(could)
        # inside the library: the second communicator is its own, and so are the tags there
        self.short = text if short is None else short


class Tried:
    """A hart's next turn, taken in a copy of the cluster, and what it asked for in vain."""

    def __init__(self, cluster, number, hart):
        self.cluster = copy.deepcopy(cluster)
        rank = self.rank = self.cluster.ranks[number]
        rank.must_miss, rank.most_calls = False, 1 << 60
        self.asked = self.looked = self.held = None
        self.ask, self.box, self.try_sent = rank.ask, rank.box, rank.try_sent
        rank.ask, rank.box, rank.try_sent = self.asks, self.looks, self.sends
        rank.turn(hart)

    def asks(self, name, *arguments):
        """A call of the hub."""
        self.asked = (name, arguments)
        return self.ask(name, *arguments)

    def looks(self, side, number):
        """A look at a box."""
        self.looked = (side.link, number)
        return self.box(side, number)

    def sends(self, waits, handle, side, status):
        """A try to complete a sender's phase."""
        self.held = (side.link, side.freed)
        return self.try_sent(waits, handle, side, status)

    def waits(self):
        """What the turn asked for in vain: nothing where it came on."""
        kind, _, reply = self.rank.event
        if kind == HELD:
            link, part = self.held
            return [Wait(f"its own partition {part} of link {link}", ())]
        if kind == MISS:
            return [self.at_box()]
        if kind != HUB or reply != NOT_YET:
            return []
        name, arguments = self.asked
        return getattr(self, f"of_{name}")(*arguments)

    def at_box(self):
        """A box that is empty, or full."""
        link, part = self.looked
        source, dest = self.cluster.image.links[link]
        if self.rank.number == dest:
            return Wait(f"partition {part} of link {link} from rank {source}", [source])
        return Wait(f"rank {dest} to take partition {part} of link {link}", [dest])

    def message(self, comm, source, tag):
        """A message."""
        who = "any rank" if source is None else f"rank {source}"
        what = "any tag" if tag is None else f"tag {tag}"
        could = self.cluster.comms[comm] if source is None else [source]
        text = f"a message from {who}"
        return Wait(f"{text} {what} comm {comm}", could, text if comm == 1 else None)

    def of_post(self, number):
        """The other side of a post."""
        post = self.cluster.hub.post(number)
        if post.kind != "send":
            return [self.message(post.comm, post.source, post.tag)]
        return [Wait(f"rank {post.dest} to receive", [post.dest])]

    of_collect = of_finished = of_post

    def of_probe(self, comm, source, tag):
        """A message that a probe tells of."""
        return [self.message(comm, source, tag)]

    of_claim = of_probe

    def of_all(self, numbers):
        """Those of several posts that aren't ready."""
        hub, found = self.cluster.hub, []
        for number in numbers:
            post = hub.post(number)
            if not (hub.is_complete(post) if post.kind == "send" else post.partner):
                found += self.of_post(number)
        return found

    def of_cut(self, link):
        """How a sender cuts its transfer."""
        source = self.cluster.image.links[link][0]
        return [Wait(f"the shape of link {link} from rank {source}", [source])]


def is_stack_full(image, hart):
    """Whether the stack pointer is in the text, or below address 0."""
    pointer = hart.regs[2]
    return pointer >> 63 or pointer + 4 <= len(image.text)


def cause(image, hart):
    """The number and the name of a trap's cause."""
    if hart.why == STORE_ACCESS and is_stack_full(image, hart):
        return f"{hart.why} (stack overflow)"
    return f"{hart.why} ({CAUSES[hart.why]})"


def waiting_text(image, hart, memory, waits, framed):
    """Where a hart waits, and for what: in the library at the program's own call, with the function of the library. With
    frames it is where it is itself."""
    call = None if framed else frames.own_call(image, hart, memory)
    things = "; ".join(wait.short if call else wait.text for wait in waits) or "nothing more"
    if call:
        function = places.function(image, call[1])
        return f"{places.name(image, call[0])}{f', in {function}' if function else ''}, for {things}"
    if places.has_line(image, hart.pc):
        return f"{places.name(image, hart.pc)}, for {things}"
    return f"{places.place(image, hart.pc)} in {CALLS[hart.regs[17]]} for {things}"


def hart_line(image, rank, number, waits, framed):
    """How a hart is, perhaps with the calls that led there, each in a line."""
    hart = rank.harts[number]
    at = places.place(image, hart.pc)
    calls = frames.calls(image, hart, rank.memory) if framed else []
    told = f"runs at {at}"
    if hart.mode == ENDED:
        told, calls = f"ended {hart.why}", []
    elif hart.mode == TRAPPED:
        told = f"trapped {cause(image, hart)} at {at}"
    elif hart.mode == WAITING:
        told = f"waits at {waiting_text(image, hart, rank.memory, waits, framed)}"
    return f"rank {rank.number} hart {number} {told}\n" + "".join(f"  {call}\n" for call in calls)


def unreceived(hub, rank):
    """The messages to a rank that no receive and no claim has."""
    sends = [post for post in hub.posts if post.kind == "send" and post.partner is None and post.dest == rank]
    keys = [post.envelope[1:3] for post in sends]
    if not keys:
        return ""
    lines = (f"  from rank {source} tag {tag}: {keys.count((source, tag))}\n" for source, tag in sorted(set(keys)))
    count = "1 message" if len(keys) == 1 else f"{len(keys)} messages"
    return f"rank {rank} unreceived: {count}\n" + "".join(lines)


def is_stuck(rank, waits, among):
    """Whether each hart of a rank is stopped, or waits for what these ranks alone could bring. Of several things that
    have to come together it is enough that one is so."""
    return all(
        hart.is_stopped() or any(wait.could <= among for wait in waits[rank.number, number])
        for number, hart in enumerate(rank.harts)
    )


def stuck_ranks(cluster, waits):
    """The most ranks that are stuck together, in order: none where no hart of theirs waits."""
    among = set(range(len(cluster.ranks)))
    while free := {rank for rank in among if not is_stuck(cluster.ranks[rank], waits, among)}:
        among -= free
    is_waiting = any(not hart.is_stopped() for rank in among for hart in cluster.ranks[rank].harts)
    return sorted(among) if is_waiting else []


def named(cluster, ranks):
    """Of ranks that are stuck, or that need buffers, those that have not stopped, as a text names them."""
    live = [str(rank) for rank in sorted(ranks) if not all(hart.is_stopped() for hart in cluster.ranks[rank].harts)]
    return f"rank {live[0]}" if len(live) == 1 else f"ranks {' '.join(live)}"


def verdict(cluster, waits):
    """Which ranks are stuck together."""
    ranks = stuck_ranks(cluster, waits)
    return f"deadlock: {named(cluster, ranks)}\n" if ranks else "no deadlock shown\n"


def waits_of(cluster):
    """What each hart waits for that waits."""
    return {
        (rank.number, number): Tried(cluster, rank.number, number).waits() if hart.mode == WAITING else []
        for rank in cluster.ranks
        for number, hart in enumerate(rank.harts)
    }


def told_of_company(cluster):
    """What is told of ranks that are stuck while others run on: nothing where none are."""
    waits = waits_of(cluster)
    ranks = stuck_ranks(cluster, waits)
    lines = [hart_line(cluster.image, cluster.ranks[rank], hart, found, False) for (rank, hart), found in waits.items() if rank in ranks]
    return ("".join(lines) + f"deadlock: {named(cluster, ranks)} while others run on\n").encode() if ranks else b""


class Rest:
    """Where a rank rests: its hart as it is at the call, and the ranks that are to receive what it sent."""

    def __init__(self, hart, receivers):
        self.hart, self.receivers = hart, receivers


def is_unreceived(send):
    """Whether nobody received a send's message: no receive has it, and a matched probe has it at most."""
    claim = send.partner
    return claim is None or (claim.kind == "claim" and not claim.received)


def rest_behind(hub, rank, comms):
    """A rank that rests right behind a standard send whose message nobody received, or None. Of messages that look alike, it rests
    for each that nobody received."""
    hart = rank.harts[0]
    if hart.mode != RUNNING or hart.pc < 4 or bytes(rank.memory.bytes[hart.pc - 4 : hart.pc]) != ECALL.to_bytes(4, "little"):
        return None
    code, dest, tag, comm, buffered, call = (hart.regs[number] for number in (10, 12, 13, 14, 15, 17))
    members = comms[comm] if comm < len(comms) else []
    if call != 16 or code or buffered == BUFFERED or rank.number not in members or dest >= len(members):
        return None
    sends = [post for post in hub.posts if post.kind == "send" and not post.sync and is_unreceived(post)]
    sent = members[dest], (comm, rank.number, tag)
    if not any((post.dest, tuple(post.envelope[:3])) == sent for post in sends):
        return None
    hart = copy.copy(hart)
    hart.pc -= 4
    return Rest(hart, [members[dest]])


def rest_before(hub, rank):
    """A rank that rests before a WAIT or WAITALL of standard sends of which nobody received one, or None."""
    hart = rank.harts[0]
    posts = [] if hart.regs[15] == BUFFERED else [hub.post(number) for number in rank.sends_ahead(hart)]
    receivers = [post.dest for post in posts if is_unreceived(post)]
    return Rest(hart, receivers) if receivers else None


def rest_of(hub, rank, comms):
    """Where a rank rests, or None."""
    return rest_behind(hub, rank, comms) or rest_before(hub, rank)


def others_ahead(cluster, rank):
    """What a rank that rests waits for besides: what a WAITALL, before which it rests, asks the hub for in vain."""
    return Tried(cluster, rank, 0).waits()


def held_line(cluster, rank, rest, waits):
    """How a rank is held up: what it waits for, or where it rests and who is to receive. What a WAITALL, before which it rests, waits
    for in any case comes first."""
    if rest is None:
        return hart_line(cluster.image, rank, 0, waits, False)
    things = others_ahead(cluster, rank.number) + [Wait(f"rank {to} to receive", [to]) for to in rest.receivers]
    return f"rank {rank.number} hart 0 waits at {waiting_text(cluster.image, rest.hart, rank.memory, things, False)}\n"


def told_of_need(cluster):
    """What is told of the most ranks that are held up together, if one of them rests and waits for nothing else: nothing where none
    does. Each rank has one hart."""
    rests = {rank.number: rest_of(cluster.hub, rank, cluster.comms) for rank in cluster.ranks}
    if not any(rests.values()):
        return b""
    waits, among = waits_of(cluster), set(rests)
    while free := {rank for rank in among if not is_held_up(cluster.ranks[rank], rests[rank], waits, among)}:
        among -= free
    if all(rests[rank] is None or others_ahead(cluster, rank) for rank in among):
        return b""
    lines = [held_line(cluster, cluster.ranks[rank], rests[rank], waits[rank, 0]) for rank in sorted(among)]
    return ("".join(lines) + f"needs buffering: {named(cluster, among)}\n").encode()


def going_line(image, rank, number=0):
    """Where a hart goes on: in the library at the program's own call, with the function of the library."""
    hart = rank.harts[number]
    call = frames.own_call(image, hart, rank.memory)
    if call:
        function = places.function(image, call[1])
        at = places.name(image, call[0]) + (f", in {function}" if function else "")
    else:
        at = places.name(image, hart.pc) if places.has_line(image, hart.pc) else places.place(image, hart.pc)
    return f"rank {rank.number} hart {number} goes on at {at}\n"


def told_of_going(cluster, plan):
    """Where each hart goes on that takes turns and runs."""
    harts = [(rank, number) for rank in cluster.ranks for number in sorted(set(plan)) if rank.harts[number].mode == RUNNING]
    return "".join(going_line(cluster.image, *one) for one in harts).encode()


def told_of_hang(cluster):
    """What is told of a state from which no run ends if standard sends wait: how each rank stands that hasn't stopped. Each rank has
    one hart."""
    waits, lines, live = waits_of(cluster), [], set()
    for rank in cluster.ranks:
        if rank.harts[0].is_stopped():
            continue
        live.add(rank.number)
        rest = rest_of(cluster.hub, rank, cluster.comms)
        goes = rest is None and rank.harts[0].mode == RUNNING
        lines.append(going_line(cluster.image, rank) if goes else held_line(cluster, rank, rest, waits[rank.number, 0]))
    return ("".join(lines) + f"some runs go on for ever if sends wait: {named(cluster, live)}\n").encode()


def is_held_up(rank, rest, waits, among):
    """Whether a rank is stuck, or rests until one of these ranks receives."""
    return is_stuck(rank, waits, among) or (rest is not None and not among.isdisjoint(rest.receivers))


def told(cluster, framed=False):
    """What is told of a cluster, perhaps with calls."""
    waits = waits_of(cluster)
    lines = [hart_line(cluster.image, cluster.ranks[rank], hart, found, framed) for (rank, hart), found in waits.items()]
    lines += [unreceived(cluster.hub, rank.number) for rank in cluster.ranks]
    return ("".join(lines) + verdict(cluster, waits)).encode()


def told_at(at, image, steps, framed=False):
    """What `why` tells of a record, after so many steps or after all, perhaps with calls: the status and both texts."""
    count = len(steps) if at is None else at
    if count > len(steps):
        return 1, b"", f"rvmc: why: PastEnd {len(steps)}\n".encode()
    walk = Walk(image, len(steps))
    for number, step in enumerate(steps[:count]):
        if not walk.takes(step):
            return 1, b"", f"rvmc: why: NotARun {number}\n".encode()
    return 0, told(walk.cluster, framed), b""
