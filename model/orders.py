"""All ends of all orders of the ranks' turns, as docs/EXPLORE.md has them: found by taking every turn of every rank
from every state, where states count as one only if they are equal but for clocks and stamps. And what is told of them."""

import collections
import re

import cluster
import named
import places
import why
from formats import FREED, HELD, HUB, IDLE, LOCAL, MISS, PLAIN, TAKE
from hub import NOT_YET, Hub
from machine import RUNNING, WAITING, is_at_call
from ranks import messages_of

# turns that need only their rank, and leave nobody waiting
ALONE = (PLAIN, LOCAL, IDLE)

# what the hub is asked where who asks may go first, if it is there: the message of a receive of its own, whether its send is
# complete, several of these, the next message to be received, and how a link is cut
STAYS = ("collect", "finished", "all", "probe", "cut")

# how often each rank goes first with such calls before others may
ROUNDS = 64

# how many turns a rank takes by itself before a search is given up
LONGEST = 3_000

# what the last line has behind its verdict where it makes no difference how long messages take
ON_THEIR_WAY = b", also with messages on their way"

CLOSING = re.compile(
    rb"(\d+) outcomes? of (\d+) states?: "
    rb"(no other outcome(?: with buffered sends)?(?:, also with messages on their way)?"
    rb"|not all: \d+ states are left|not all: rank \d takes more than \d+ turns alone)\n"
)

UNENDING = b"some runs go on for ever\n"

# how the last line begins of a state from which runs hang if sends wait
HANGING = b"some runs go on for ever if sends wait: "

UNKNOWN = b"not all: whether ranks need buffers is unknown; raise --states, or use --buffered\n"

UNSOUGHT = b"whether ranks need buffers wasn't checked: they have several harts\n"

# lines of harts that go on
GOING = re.compile(rb"(?:rank \d hart \d+ goes on at .*\n)*")

# how many ends an outcome stands for
LOOKING = re.compile(rb"(\d+) ends look like outcome (\d+)\n")


class TooMany(Exception):
    """A search that is given up."""


class Meeting(Exception):
    """A turn that needs others than its rank."""


class Nobody:
    """A hub and boxes that nobody may meet."""

    def __getattr__(self, name):
        raise Meeting

    def __getitem__(self, link):
        raise Meeting


class Around:
    """What a rank sees of its cluster."""

    def __init__(self, image, hub, boxes, ranks=()):
        self.image, self.hub, self.boxes, self.ranks = image, hub, boxes, ranks
        self.width = 64 if image.version == 1 else 128
        self.comms = [list(range(image.ranks)), *image.comms]


def copied(thing, **fields):
    """A copy of a thing, some of whose fields are others."""
    new = object.__new__(type(thing))
    new.__dict__.update(thing.__dict__)
    new.__dict__.update(fields)
    return new


def copy_of_request(request):
    """A copy of a request, which shares what never changes."""
    side = request.side
    if side is not None:
        side = copied(side, ready=set(side.ready), taken=set(side.taken))
    return copied(request, side=side)


def copy_of_rank(rank, around):
    """A copy of a rank, in a cluster."""
    return copied(
        rank,
        cluster=around,
        memory=copied(rank.memory, bytes=bytearray(rank.memory.bytes)),
        harts=[copied(hart, regs=list(hart.regs)) for hart in rank.harts],
        requests={handle: copy_of_request(request) for handle, request in rank.requests.items()},
        out=bytearray(rank.out),
        must_miss=False,
        hart=None,
        most_calls=1 << 60,
    )


def copy_of_hub(hub):
    """A copy of a hub, whose posts are partners of one another as they were."""
    posts = {id(post): copied(post) for post in hub.posts}
    for post in posts.values():
        post.partner = post.partner and posts[id(post.partner)]
    return copied(hub, posts=list(posts.values()), sides=list(hub.sides))


def copy_of_boxes(boxes):
    """A copy of all boxes."""
    return [[copied(box) for box in link] for link in boxes]


# ---- keys: equal where all is, but clocks and stamps


def key_of_request(request, name):
    """A request's fields, with what its post is called, and that of a standard send."""
    transfer, side = request.transfer, request.side
    fields = (transfer.at, transfer.count, transfer.peer, transfer.tag, transfer.comm, transfer.parts)
    phase = side and (side.link, side.parts, side.size, tuple(sorted(side.ready)), side.freed, side.cut)
    taken = side and tuple(sorted(side.taken))
    return request.kind, request.persistent, request.active, fields, phase, taken, name(request.post), name(request.sent)


def key_of_rank(rank, name=lambda number: number):
    """A rank's memory, harts, requests and output, with what posts are called, by default by their numbers."""
    harts = tuple(
        (hart.pc, hart.mode, name(hart.why) if hart.mode == WAITING else hart.why, tuple(hart.regs)) for hart in rank.harts
    )
    requests = tuple((handle, key_of_request(rank.requests[handle], name)) for handle in sorted(rank.requests))
    return bytes(rank.memory.bytes), harts, requests, bytes(rank.out)


def key_of_post(post, name):
    """A post, with what its partner is called."""
    fields = (post.kind, post.rank, post.partner and name(post.partner), post.sync, post.dest, post.envelope, post.text)
    return *fields, post.comm, post.source, post.tag, post.collected, post.received


def key_of_side(side):
    """A side of a transfer."""
    return side.sends, side.key, side.parts, side.size, side.link


def key_of_hub(hub):
    """All posts in their order, each with the place of its partner, and all sides."""
    places = {id(post): place for place, post in enumerate(hub.posts)}
    posts = tuple(key_of_post(post, lambda other: places[id(other)]) for post in hub.posts)
    return posts, tuple(map(key_of_side, hub.sides))


def key_of_boxes(boxes):
    """What stands in each box."""
    return tuple(box.text for link in boxes for box in link)


class State:
    """Ranks, of which each is shared with other states, a hub and boxes; and a number for each of these by which equal
    ones are known."""

    def __init__(self, ranks, hub, boxes, key):
        self.ranks, self.hub, self.boxes, self.key = ranks, hub, boxes, key


class Search:
    """All states that some order of turns leads to. Where `each` is set, each turn is one of its own; else turns that
    need only their rank are taken at once, for they can be exchanged with those of others."""

    # whether an end is left alone: what waits there may look in vain
    is_over = True

    def __init__(self, image, plan, each, most):
        self.image, self.plan, self.each, self.most = image, plan, each, most
        self.numbers, self.turns = {}, {}
        # how many states were found, whether these are all, and whether one of them leads to no end
        self.count, self.is_whole, self.is_unending = 0, True, False
        # whether ranks only wait for named ranks, by the calls that they made so far
        self.only_waits = image.harts == 1
        # what is told of the harts that go on in such a state
        self.going = set()
        # what is told of ranks that are stuck in states that lead to no end
        self.companies = set()
        # how many of the states that are ends have each text, with what each hart waits for
        self.shared = collections.Counter()

    def number(self, key):
        """The number of a key: the same for equal ones."""
        return self.numbers.setdefault(key, len(self.numbers))

    def is_done(self, rank):
        """Whether each hart that takes turns is stopped."""
        return all(rank.harts[hart].is_stopped() for hart in self.plan)

    def next_hart(self, rank):
        """The hart whose turn is next."""
        return self.plan[rank.turns % len(self.plan)]

    def settled(self, rank):
        """A rank behind the turns that it takes by itself."""
        taken = 0
        hub = rank.cluster.hub
        while not self.each and not self.is_done(rank) and not self.stays(rank, hub):
            if self.meets(rank, self.next_hart(rank)):
                after = copy_of_rank(rank, Around(self.image, Nobody(), Nobody()))
                try:
                    if after.turn(self.next_hart(after)).kind not in ALONE:
                        return rank
                except Meeting:
                    return rank
                rank = after
            else:
                rank.turn(self.next_hart(rank))
            taken += 1
            if taken > LONGEST:
                raise TooMany
        return rank

    def key(self, rank):
        """A number by which equal ranks are known."""
        place = 0 if self.is_done(rank) else rank.turns % len(self.plan)
        return self.number((rank.number, place, key_of_rank(rank)))

    def first(self):
        """The state that the image begins as."""
        loaded = cluster.loaded(self.image)
        around = Around(self.image, loaded.hub, loaded.boxes)
        ranks = [self.settled(copy_of_rank(rank, around)) for rank in loaded.ranks]
        keys = [*map(self.key, ranks), self.number(key_of_hub(loaded.hub)), self.number(key_of_boxes(loaded.boxes))]
        return State(ranks, loaded.hub, loaded.boxes, tuple(keys))

    def stays(self, rank, hub):
        """Whether a rank takes no turn by itself where it is."""
        return False

    def see(self, state):
        """Is shown each state that was found."""

    def is_met(self, rank, hart):
        """Whether what a hart's next turn leads to may hang on others."""
        return self.meets(rank, hart)

    @staticmethod
    def meets(rank, hart):
        """Whether a hart may meet others in its next turn."""
        mode = rank.harts[hart].mode
        return mode == WAITING or (mode == RUNNING and is_at_call(rank.harts[hart], rank.memory))

    def turn(self, state, number, hart, must_miss=False):
        """A rank behind a turn of a hart, the cluster around it, and the step."""
        around = Around(self.image, state.hub, state.boxes)
        if self.meets(state.ranks[number], hart):
            around = Around(self.image, copy_of_hub(state.hub), copy_of_boxes(state.boxes))
        rank = copy_of_rank(state.ranks[number], around)
        rank.must_miss = must_miss
        step, only_waits = named.turn(rank, hart)
        self.only_waits = self.only_waits and only_waits
        return rank, around, step

    def behind(self, state, number, must_miss=False):
        """The state behind a rank's next turn, and the turn's kind. What a turn does hangs on what is met alone, so each is
        taken once."""
        hart = self.next_hart(state.ranks[number])
        known = state.key[number], must_miss, state.key[-2:] if self.is_met(state.ranks[number], hart) else None
        if known not in self.turns:
            rank, around, step = self.turn(state, number, hart, must_miss)
            rank, hub, boxes = self.settled(rank), around.hub, around.boxes
            keys = [self.key(rank)]
            keys += [self.number(key_of_hub(hub)), self.number(key_of_boxes(boxes))] if known[2] else []
            self.turns[known] = rank, hub, boxes, keys, step.kind
        rank, hub, boxes, keys, kind = self.turns[known]
        if not known[2]:
            hub, boxes = state.hub, state.boxes
        ranks, key = list(state.ranks), list(state.key)
        ranks[number], key[number] = rank, keys[0]
        key[-2:] = keys[1:] or key[-2:]
        return State(ranks, hub, boxes, tuple(key)), kind

    def moves(self, state):
        """The states that one turn leads to, also a look that misses what is there."""
        for number, rank in enumerate(state.ranks):
            if not self.is_done(rank):
                yield from self.moves_of(state, number)

    def moves_of(self, state, number):
        """The states that a rank's next turn leads to."""
        after, kind = self.behind(state, number)
        yield after
        if kind in (TAKE, FREED):
            yield self.behind(state, number, True)[0]

    def rests(self, state, number, hart):
        """Whether a hart is stopped, or waits for what isn't there."""
        mode = state.ranks[number].harts[hart].mode
        if mode == RUNNING:
            return False
        if mode != WAITING:
            return True
        step = self.turn(state, number, hart)[2]
        return step.kind in (HELD, MISS) or (step.kind == HUB and step.reply == NOT_YET)

    def is_end(self, state):
        """Whether nobody goes on."""
        return all(self.rests(state, rank.number, hart) for rank in state.ranks for hart in set(self.plan))

    def ends(self):
        """The ends that were found, each as what is known of its ranks, and its text."""
        try:
            todo = [self.first()]
        except TooMany:
            self.is_whole = False
            return {}
        # from which states each was come to, all states, and those that are ends
        before, states, ends, stops = {todo[0].key: []}, {}, {}, []
        while todo:
            state = todo.pop()
            states[state.key] = state
            self.see(state)
            if self.is_end(state):
                ends[what_is_known(state.ranks)] = text_of(state.ranks, self.plan)
                self.shared[whole_text(self.around(state), self.plan)] += 1
                stops.append(state.key)
                if self.is_over:
                    continue
            try:
                for after in self.moves(state):
                    if after.key not in before:
                        before[after.key] = []
                        todo.append(after)
                    before[after.key].append(state.key)
            except TooMany:
                self.is_whole = False
            if len(before) > self.most:
                self.is_whole = False
                break
        self.count = len(before)
        led = led_to(stops, before)
        self.is_unending = self.is_whole and len(led) < len(before)
        self.going = {why.told_of_going(self.around(state), self.plan) for key, state in states.items() if key not in led}
        self.companies = {self.company(state) for key, state in states.items() if key not in led} - {b""}
        return ends

    def company(self, state):
        """What is told of the most ranks that are stuck together in a state while others run on: nothing where none are."""
        if not any(hart.mode == WAITING for rank in state.ranks for hart in rank.harts):
            return b""
        return why.told_of_company(self.around(state))

    def around(self, state):
        """The cluster of a state."""
        around = Around(self.image, copy_of_hub(state.hub), copy_of_boxes(state.boxes))
        around.ranks = [copy_of_rank(rank, around) for rank in state.ranks]
        return around

    def walked(self, random, most):
        """The end that an order at random leads to, in so many turns at most, or None."""
        try:
            state = self.first()
            for _ in range(most):
                if self.is_end(state):
                    return what_is_known(state.ranks), text_of(state.ranks, self.plan)
                number = random.choice([rank.number for rank in state.ranks if not self.is_done(rank)])
                state = self.behind(state, number, random.random() < 0.25)[0]
        except TooMany:
            pass
        return None


class Ahead(Search):
    """The states as they are counted: where each rank makes its calls for what is there and stays at once, for no turn of
    another rank changes what such a call answers; and where states count as one that are equal but for clocks, stamps, and
    the numbers of posts that are no claims. Posts go by the rank that made them, and as the how manieth of its own; sends
    that have no partner stay in order, to each destination in each communicator."""

    is_over = False

    def __init__(self, image, plan, most):
        super().__init__(image, plan, False, most)

    def called(self, hub):
        """What each post is called."""
        counts, names = [0] * self.image.ranks, []
        for number, post in enumerate(hub.posts, 1):
            counts[post.rank] += 1
            names.append(number if post.kind == "claim" else (post.rank, counts[post.rank]))
        return names

    def state(self, ranks, hub, boxes):
        """A state, known by all that counts."""
        names = self.called(hub)
        of_number = lambda number: number and names[number - 1]
        places = {id(post): name for post, name in zip(hub.posts, names)}
        posts, waiting, sides = {}, {}, {}
        for post in hub.posts:
            posts.setdefault(post.rank, []).append(key_of_post(post, lambda other: places[id(other)]))
            if post.kind == "send" and not post.partner:
                waiting.setdefault((post.dest, post.envelope[0]), []).append(places[id(post)])
        for side in hub.sides:
            sides.setdefault((side.sends, side.key), []).append(key_of_side(side))
        keys = []
        for rank in ranks:
            place = 0 if self.is_done(rank) else rank.turns % len(self.plan)
            keys.append((place, key_of_rank(rank, of_number)))
        key = self.number(repr((keys, *(sorted(it.items()) for it in (posts, waiting, sides)), key_of_boxes(boxes))))
        return State(ranks, hub, boxes, key)

    def behind(self, state, number, must_miss=False):
        """The state behind a rank's next turn, and the turn's kind."""
        rank, around, step = self.turn(state, number, self.next_hart(state.ranks[number]), must_miss)
        ranks = list(state.ranks)
        ranks[number] = self.settled(rank)
        return self.state(ranks, around.hub, around.boxes), step.kind

    def is_sure(self, state, number):
        """Whether a rank's next turn is a call for what is there and stays."""
        rank = state.ranks[number]
        if self.is_done(rank) or not self.meets(rank, self.next_hart(rank)):
            return False
        after = copy_of_rank(rank, Around(self.image, copy_of_hub(state.hub), copy_of_boxes(state.boxes)))
        asked, ask = [], after.ask
        after.ask = lambda name, *arguments: asked.append(name) or ask(name, *arguments)
        step = after.turn(self.next_hart(after))
        return step.kind == HUB and asked[0] in STAYS and step.reply != NOT_YET and step.reply[0] != 0

    def ahead(self, state):
        """The state behind all such calls."""
        for _ in range(ROUNDS):
            sure = [number for number in range(len(state.ranks)) if self.is_sure(state, number)]
            if not sure:
                break
            for number in sure:
                state = self.behind(state, number)[0]
        return state

    def first(self):
        """The state that the image begins as."""
        first = super().first()
        return self.ahead(self.state(first.ranks, first.hub, first.boxes))

    def moves(self, state):
        """The states that one turn leads to, and the calls behind it."""
        return map(self.ahead, super().moves(state))


class Resting(Search):
    """The states in which a rank takes no turn by itself where it rests: behind a standard send that nobody received, or before a
    WAIT or WAITALL of one. Ranks have one hart each. MPI lets such a send wait."""

    def __init__(self, image, plan, most):
        super().__init__(image, plan, False, most)
        # what is told of ranks that need buffers in one of these states
        self.needs = set()
        # all states, those that are ends, and those in which nobody goes on; and from which states each was come to, by a
        # turn of any rank and of one that doesn't rest
        self.states, self.stops, self.still = {}, [], []
        self.before, self.patient = collections.defaultdict(list), collections.defaultdict(list)

    def stays(self, rank, hub):
        return why.rest_of(hub, rank, [list(range(self.image.ranks)), *self.image.comms]) is not None

    def is_met(self, rank, hart):
        return True

    def see(self, state):
        self.needs |= {why.told_of_need(self.around(state))} - {b""}
        self.states[state.key] = state
        if self.is_end(state):
            self.stops.append(state.key)
        if all(self.is_still(state, rank) for rank in state.ranks):
            self.still.append(state.key)

    def is_still(self, state, rank):
        """Whether a rank is stopped, or waits for what isn't there, or would: before a WAITALL of a send and of such a thing."""
        if not self.stays(rank, state.hub):
            return self.rests(state, rank.number, 0)
        step = self.turn(state, rank.number, 0)[2]
        return step.kind == HUB and step.reply == NOT_YET

    def moves_of(self, state, number):
        rests = self.stays(state.ranks[number], state.hub)
        for after in super().moves_of(state, number):
            self.before[after.key].append(state.key)
            if not rests:
                self.patient[after.key].append(state.key)
            yield after

    def hangs(self):
        """What is told of each state that leads to an end, but to none if each rank that rests stays there until its message was
        received: where sends wait, no run from there ends."""
        hanging = led_to(self.stops, self.before) - led_to(self.still, self.patient)
        return {why.told_of_hang(self.around(self.states[key])) for key in hanging}


def led_to(stops, before):
    """The states that lead to one of these, by those from which each was come to."""
    found, todo = set(stops), list(stops)
    while todo:
        for key in before[todo.pop()]:
            if key not in found:
                found.add(key)
                todo.append(key)
    return found


# ---- what is told


def what_is_known(ranks):
    """All that alike ends have in common: memory, registers, modes, requests and output of each rank."""
    return tuple(key_of_rank(rank, lambda number: number is not None) for rank in ranks)


def waits(rank, plan):
    """Whether a hart that takes turns waits."""
    return any(rank.harts[hart].mode == WAITING for hart in plan)


def text_of(ranks, plan):
    """What is told of the ranks of an end."""
    lines = []
    for rank in ranks:
        stop = "stuck" if waits(rank, plan) else "all-ended"
        lines.append(rank.told() + f"rank {rank.number} stop {stop}\n".encode())
    return b"".join(lines)


class Noting(Hub):
    """A hub that notes which posts were given their messages, in this order."""

    def __init__(self, links):
        super().__init__(links)
        self.gave = []

    def given(self, post):
        self.gave.append(post)
        return super().given(post)


class Recorded:
    """The outcome that a record leads to."""

    def __init__(self, image, steps, plan):
        self.image, self.steps, self.plan = image, steps, plan
        self.walk = cluster.Walk(image, len(steps))
        self.walk.cluster.hub = Noting(image.links)
        # where the hart was before it made each post, in their order
        self.posted = []
        # what each rank got or saw, in order: where its hart was before, whose it was, and, where it got it, where that hart was
        self.messages = [[] for _ in range(image.ranks)]
        self.bad = next((at for at, step in enumerate(steps) if not self.takes(step)), None)
        self.ranks = self.walk.cluster.ranks

    def takes(self, step):
        """Takes a step, where the machine has it, and it is its hart's turn by the plan."""
        rank, made = self.walk.cluster.ranks[step.rank], self.walk.cluster.hub
        place, turn, gave = rank.harts[step.hart].pc, self.plan[rank.turns % len(self.plan)], len(made.gave)
        if step.hart != turn or not self.walk.takes(step):
            return False
        self.posted += [place] * (len(made.posts) - len(self.posted))
        if step.kind == HUB:
            sent = [self.posted[made.posts.index(post.partner)] for post in made.gave[gave:]]
            sources = sources_of(step.reply)
            self.messages[step.rank] += [(place, source, at) for source, at in zip(sources, sent or [None] * len(sources))]
        return True

    def is_end(self):
        """Whether nobody goes on."""
        now = self.walk.cluster
        return Search(self.image, self.plan, True, 0).is_end(State(now.ranks, now.hub, now.boxes, None))

    def text(self):
        """What is told of the end behind its first line."""
        return whole_text(self.walk.cluster, self.plan)

    def wrong(self, told, number, first):
        """What is wrong with it as the outcome of this number, or None."""
        if self.bad is not None:
            return f"no turn by the plan at step {self.bad}"
        company, need, hang = (told.bodies[number - 1] in some for some in (told.companies, told.needs, told.hangs))
        if not company and not need and not hang and not self.is_end():
            return "no end"
        text = why.told_of_company(self.walk.cluster) if company else self.text()
        text = why.told_of_need(self.walk.cluster) if need else text
        text = why.told_of_hang(self.walk.cluster) if hang else text
        if told.bodies[number - 1] + told.whys[number - 1] != text:
            return f"an outcome at which is told {text}"
        head = f"outcome {number}{self.difference(first)}\n".encode()
        return None if told.heads[number - 1] == head else f"an outcome whose first line is {head}"

    def difference(self, first):
        """By which message it differs from the first outcome."""
        for number, (mine, theirs) in enumerate(zip(self.messages, first.messages)):
            for (at, source, sent), (_, other, before) in zip(mine, theirs):
                if source != other:
                    told = f": rank {number} at {places.name(self.image, at)} {'saw' if sent is None else 'got'} "
                    told += f"rank {source}'s message{self.sent_at(sent)}"
                    return f"{told}, in outcome 1 rank {other}'s{self.sent_at(before)}"
        return ""

    def sent_at(self, place):
        """Where a message was sent, if it was received."""
        return "" if place is None else f" (sent at {places.name(self.image, place)})"


def sources_of(reply):
    """Whose each message in a reply is."""
    at = {2: 2, 5: 2, 6: 10}.get(reply[0])
    if at is not None:
        return [reply[at]]
    return [message[1] for message in messages_of(reply) if message] if reply[0] == 7 else []


class Told:
    """What `explore` told, taken apart: the line of each outcome, what is told of its ranks and, at an end, of what each hart
    waits for. Of ranks that are stuck while others run on, or that need buffers, that is one text, and `companies` and `needs`
    have these; and `hangs` has that of a state from which runs hang if sends wait."""

    def __init__(self, text, image):
        self.heads, self.bodies, self.whys, self.companies, self.needs = [], [], [], set(), set()
        self.hangs = set()
        at = 0
        while text[at:].startswith(b"outcome "):
            stop = text.index(b"\n", at) + 1
            self.heads.append(text[at:stop])
            at = self.take_company(text, stop) if text[stop:].startswith(b"rank ") and b" hart " in line_at(text, stop) else 0
            at = at or self.take_end(text, stop, image)
        # how many ends look like an outcome, by its number, where two or more do
        self.looking, stop = {}, at
        while line := LOOKING.match(text, stop):
            self.looking[int(line[2])], stop = int(line[1]), line.end()
        at = stop if text[at:stop] == self.looking_lines() else at
        # where harts go on that never end
        self.going = GOING.match(text, at)[0]
        at += len(self.going)
        self.is_unending = text[at:].startswith(UNENDING)
        at += len(UNENDING) if self.is_unending else 0
        # whether ranks that need buffers were looked for in vain, and not everywhere
        self.is_unknown = text[at:].startswith(UNKNOWN)
        at += len(UNKNOWN) if self.is_unknown else 0
        # or not looked for, since ranks have several harts
        self.is_unsought = text[at:].startswith(UNSOUGHT)
        at += len(UNSOUGHT) if self.is_unsought else 0
        closing = CLOSING.fullmatch(text[at:])
        self.is_whole = self.is_buffered = self.is_on_the_way = None
        if closing and int(closing[1]) == len(self.heads):
            self.count, self.is_whole = int(closing[2]), closing[3].startswith(b"no other outcome")
            # whether it makes no difference how long messages take
            verdict = closing[3].removesuffix(ON_THEIR_WAY)
            self.is_on_the_way = verdict != closing[3]
            # whether ranks may need buffers of which nothing is told
            self.is_buffered = verdict != b"no other outcome"
            spelled = b"%d outcome%s of %d state%s: %s\n"
            outcomes, states = (b"" if number == 1 else b"s" for number in (len(self.heads), self.count))
            if text[at:] != spelled % (len(self.heads), outcomes, self.count, states, closing[3]):
                self.is_whole = None
        if self.going and not self.is_unending:
            self.is_whole = None

    def take_company(self, text, start):
        """Takes what is told of ranks that are stuck, or need buffers, or hang if sends wait. Returns where it ends."""
        kinds, at = {b"deadlock: ": self.companies, b"needs buffering: ": self.needs, HANGING: self.hangs}, start
        while not text[at:].startswith(tuple(kinds)):
            at = text.index(b"\n", at) + 1
        told = next(some for begun, some in kinds.items() if text[at:].startswith(begun))
        at = text.index(b"\n", at) + 1
        self.bodies.append(text[start:at])
        self.whys.append(b"")
        told.add(text[start:at])
        return at

    def take_end(self, text, start, image):
        """Takes what is told of an end. Returns where it ends."""
        at = start
        for _ in range(image.ranks):
            first = text.index(b"\n", at) + 1
            at = first + int(text[at:first].split()[3]) + 1
            for _ in range(image.harts + 1):
                at = text.index(b"\n", at) + 1
        self.bodies.append(text[start:at])
        start = at
        while re.match(rb"rank (?!\d hart \d+ goes on at )|  from |deadlock|no deadlock", text[at:]):
            at = text.index(b"\n", at) + 1
        self.whys.append(text[start:at])
        return at

    def looking_lines(self):
        """The lines of outcomes that two or more ends look like, as they have to be."""
        ends = [number for number, body in enumerate(self.bodies, 1) if body not in self.companies | self.needs | self.hangs]
        rows = [(self.looking[number], number) for number in ends if self.looking.get(number, 1) > 1]
        return b"".join(b"%d ends look like outcome %d\n" % row for row in rows)

    def ends(self):
        """What is told of the ranks of each end."""
        return set(self.bodies) - self.companies - self.needs - self.hangs

    def shared(self):
        """How many ends have each text, with what each hart waits for."""
        texts, ends = enumerate(zip(self.bodies, self.whys), 1), self.ends()
        return {body + told: self.looking.get(number, 1) for number, (body, told) in texts if body in ends}

    def wrong(self, found, is_whole, companies):
        """What is wrong with it by ends and companies that were found, which may be all: None where nothing is."""
        if len(set(zip(self.bodies, self.whys))) < len(self.bodies):
            return f"two equal texts: {self.bodies}"
        if self.is_whole and found - self.ends():
            return f"{self.bodies}, not {found - self.ends()}"
        if is_whole and self.ends() - found:
            return f"too many: {self.ends() - found}"
        if self.is_whole and is_whole and self.companies != largest(companies, self.companies):
            return f"ranks that are stuck: {self.companies}, not {companies}"
        return None

    def status(self):
        """The status that goes with it."""
        if not self.is_whole or self.is_unknown:
            return 4
        lines = b"".join(self.ends())
        if re.search(rb"^rank \d hart \d trapped ", lines, re.MULTILINE):
            return 3
        if self.companies or self.needs or self.hangs or re.search(rb"^rank \d stop stuck$", lines, re.MULTILINE):
            return 7
        return 8 if self.is_unending else 0


def whole_text(cluster, plan):
    """What is told of an end, with what each hart waits for where one does."""
    whys = why.told(cluster) if any(waits(rank, plan) for rank in cluster.ranks) else b""
    return text_of(cluster.ranks, plan) + whys


def largest(companies, told):
    """These texts of ranks that are stuck, without those that are earlier ones of a text that was told: where a rank's turn goes
    first, no state is kept at which it isn't stuck yet and others are, or at which its message hasn't come yet."""
    return {text for text in companies if text in told or not any(is_earlier(text, other) for other in told)}


def is_earlier(text, other):
    """Whether these ranks are stuck with more ranks later, or wait for less."""
    ranks, those = ranks_of(text), ranks_of(other)
    return ranks < those or (ranks == those and awaited(text) > awaited(other))


def awaited(text):
    """What the ranks of such a text wait for, one by one."""
    lines = re.findall(rb"^(rank \d hart \d waits) .* for (.*)$", text, re.MULTILINE)
    return {(who, one) for who, what in lines for one in what.split(b"; ")}


def ranks_of(text):
    """The ranks that such a text is of: those that wait, and those that have stopped, which its last line leaves out."""
    return set(re.findall(rb"^rank (\d) hart ", text, re.MULTILINE))


def line_at(text, at):
    """The line that begins here."""
    return text[at : text.index(b"\n", at)]


def body_of(report, image):
    """What a run's report tells, as it is told of an end, or None where a rank didn't come to one."""
    lines = re.compile(rb"^rank (\d) stop (all-ended|stuck) turns \d+$", re.MULTILINE)
    if len(lines.findall(report)) != image.ranks:
        return None
    body = lines.sub(rb"rank \1 stop \2", report)
    return Told(b"outcome 1\n" + body, image).bodies[0]


def without_stops(text):
    """What is told of ranks without why they stopped."""
    return re.sub(rb"^rank \d stop .*\n", b"", text, flags=re.MULTILINE)
