"""All outcomes by fewer schedules, as docs/SCHEDULES.md has it: a turn that nobody contests goes first. It is a second search
beside the one of model/orders.py, which takes every turn from every state; and this says how the two differ."""

import collections

import cluster
import orders
import why
from formats import HELD
from hub import NOT_YET
from machine import RUNNING, WAITING, is_at_call, step
from orders import Around, TooMany, copy_of_boxes, copy_of_hub, copy_of_rank

# calls that are made anew until there is something
BLOCKING = (23, 25, 27, 35)

# what a rank asks for that is there or not, where being told changes nothing for others; a poll of posts that may be synchronous
# sends; and what makes a claim or receives what was claimed
THERE = ("collect", "finished", "all", "probe", "cut")
OF_SENDS, CLAIMS = ("finished", "all"), ("claim", "claimed")

# turns at a box: a partition is made ready, looked for, or was taken, which the last two may miss. PREADY's number
READY, LOOK, FREED = "ready", "look", "freed"
BOX, PREADY = (READY, LOOK, FREED), 42

RECEIVE, POLL, POLL_OF_SENDS, CLAIM = "receive", "poll", "poll of sends", "claim"
POLL_OF_CUTS = "poll of cuts"

# a rank that goes round and round without others, and never ends
SPINS = "spins"

# what a rank asks in its next turn: the hub's method, its arguments, and whether the rank waits on where nothing is there
Next = collections.namedtuple("Next", "name arguments waits")

# the manners of a search, of which each leaves out more: its words, by `Schedules`
MANNERS = [{}, {"by_source": True}, {"alone": True}, {"alone": True, "by_source": True, "forgets": True}]

# the manner in which states are one as `explore` has it
COUNTED = {"alone": True, "collected": True}
MANNERS.append(COUNTED)

# a send, by how, to whom and where
Send = collections.namedtuple("Send", "sync dest comm")

# an initialisation, by whether it sends, where, with whom and by which tag, and how many bytes the transfer has in all
Init = collections.namedtuple("Init", "sends comm peer tag bytes")

# a turn at a box of a link, by its sender or by its receiver
Side = collections.namedtuple("Side", "sends link")


class Asked(Exception):
    """What a rank asks of the hub, in place of an answer."""


class Grown(Exception):
    """A pattern that the search doesn't know yet: it has to begin anew."""


class Unlisted(Exception):
    """A turn that has no pattern: of a rank that waits for a partition that it hasn't made ready itself."""


class Listening:
    """A hub that doesn't answer, but for probes that find a message: these change nothing."""

    def __init__(self, state, note):
        self.hub, self.clock, self.note = state.hub, 0, note
        self.waits = self.is_pready = False

    def __getattr__(self, name):
        def ask(number, *arguments):
            asked = Next(name, arguments, self.waits)
            if name == "probe" and is_there(self.hub, None, number, asked):
                self.note(number, asked)
                return self.hub.probe(number, *arguments)
            raise Asked(asked)

        return ask


class Link:
    """Boxes of a link that don't answer."""

    def __init__(self, hub, receives, link):
        self.hub, self.receives, self.link = hub, receives, link

    def __getitem__(self, part):
        name = LOOK if self.receives else READY if self.hub.is_pready else FREED
        raise Asked(Next(name, (self.link, part), self.hub.waits))


class Boxes:
    """Boxes that don't answer, as a rank sees them."""

    def __init__(self, image, number, hub):
        self.image, self.number, self.hub = image, number, hub

    def __getitem__(self, link):
        return Link(self.hub, self.image.links[link][1] == self.number, link)


class State:
    """Ranks, the hub, the boxes, and what each rank asks in its next turn: None where it is stopped, or `SPINS`."""

    def __init__(self, ranks, hub, boxes):
        self.ranks, self.hub, self.boxes = ranks, hub, boxes
        self.nexts, self.key = [None] * len(ranks), None

    def copy(self):
        """Another one that is the same."""
        hub = copy_of_hub(self.hub)
        new = State([copy_of_rank(rank, rank.cluster) for rank in self.ranks], hub, copy_of_boxes(self.boxes))
        new.nexts, new.key = list(self.nexts), self.key
        return new

    def is_in_vain(self, number):
        """Whether a rank's next turn leaves all as it is: it is stopped, goes round, or waits for what isn't there."""
        asked = self.nexts[number]
        if asked is None or asked == SPINS:
            return True
        return asked.waits and may_miss(asked) and not self.is_there(number)

    def is_there(self, number):
        """Whether a rank would be given what it asks for in its next turn."""
        return is_there(self.hub, self.boxes, number, self.nexts[number])

    def finds_late(self, hart):
        """Whether a rank waited for what it claims, which is there now."""
        claims = [n for n, asked in enumerate(self.nexts) if asked not in (None, SPINS) and asked.name == "claim"]
        return any(self.ranks[n].harts[hart].mode == WAITING and not self.is_in_vain(n) for n in claims)

    def is_end(self):
        """Whether nobody goes on."""
        return SPINS not in self.nexts and all(map(self.is_in_vain, range(len(self.ranks))))

    def around(self):
        """The cluster."""
        now = Around(self.ranks[0].cluster.image, self.hub, self.boxes)
        now.ranks = [copy_of_rank(rank, now) for rank in self.ranks]
        return now


def may_miss(asked):
    """Whether what a rank asks for may not be there."""
    return asked.name in (*THERE, LOOK, FREED, "claim")


def joined(number, init):
    """The sender and the receiver of a transfer of which a rank initialises a side: its link joins the two."""
    return (number, init.peer) if init.sends else (init.peer, number)


def begins_late(number, mine, other, pattern):
    """Whether a rank's initialisation contests a pattern of another rank: a poll, which it would answer, or an initialisation for
    links of the same two ranks, unless it is the other side of the same transfer."""
    if isinstance(pattern, Init):
        is_other_side = (mine.comm, mine.tag, mine.bytes) == (pattern.comm, pattern.tag, pattern.bytes)
        return joined(number, mine) == joined(other, pattern) and not is_other_side
    return pattern == POLL_OF_CUTS and mine.sends


def is_there(hub, boxes, number, asked):
    """Whether a rank would be given what it asks for: a message, that its sends are complete, how a transfer is cut, a partition,
    or that one was taken."""
    if asked.name in BOX:
        link, part = asked.arguments
        return (boxes[link][part].text is not None) == (asked.name == LOOK)
    if asked.name == "cut":
        return hub.cut(number, *asked.arguments) != NOT_YET
    if asked.name in ("probe", "claim"):
        return hub.found(hub.selecting("receive", number, *asked.arguments)) is not None
    if asked.name not in THERE:
        return False
    numbers = asked.arguments[0] if asked.name == "all" else asked.arguments
    posts = [hub.post(post) for post in numbers]
    return all(hub.is_complete(post) if post.kind == "send" else post.partner for post in posts)


def left(hub):
    """The messages that nobody received: of each sender to each rank in each communicator, in their order."""
    lines = {}
    for post in hub.posts:
        if post.kind == "send" and post.partner is None:
            lines.setdefault((post.dest, post.envelope[0], post.rank), []).append((post.envelope, post.text))
    return tuple((where, tuple(line)) for where, line in sorted(lines.items()))


class Schedules:
    """The states that a search keeps, at which it lets every rank go. `alone`: a rank's send, receive or claim goes first, too,
    where no other rank can go on. `by_source`: states are one though messages of different senders came in another order, where
    nobody asks for any source. `collected`: states are one where they differ only in standard sends and receives whose message
    was collected, and as many posts were made. `forgets`: where they differ only in posts that nobody can ask for any more."""

    def __init__(
        self, image, plan, most, alone=False, by_source=False, collected=False, forgets=False, longest=orders.LONGEST
    ):
        self.image, self.plan, self.most, self.longest = image, plan, most, longest
        self.alone, self.by_source, self.collected, self.forgets = alone, by_source, collected, forgets
        # the patterns of each rank, and where a rank asks for any source, as (rank, communicator)
        self.patterns, self.wild = [set() for _ in range(image.ranks)], set()
        self.numbers, self.passes = {}, {}
        # how many turns were taken in all, and how often the search began anew
        self.taken = self.restarts = 0
        # how many states were kept, whether these are all that are needed, and whether one of them leads to no end
        self.count, self.is_whole, self.is_unending = 0, True, False
        # whether `explore` keeps as many: no rank goes round alone, and none waited for what it claims and finds
        self.is_counted = image.harts == 1
        # of ends: the texts, what is known of them, and the same with the messages left; and ranks that are stuck
        self.texts, self.known, self.left, self.companies = set(), set(), set(), set()
        # how many ends have each text, with what each hart waits for
        self.shared = collections.Counter()

    def number(self, key):
        """The number of a key: the same for equal ones."""
        return self.numbers.setdefault(key, len(self.numbers))

    # ---- patterns

    def pattern(self, asked):
        """The pattern of what is asked, or None where a rank that has it contests nothing."""
        if asked.name == "send":
            sync, comm, dest = asked.arguments[:3]
            return Send(sync, dest, comm)
        if asked.name == "recv":
            return RECEIVE
        if asked.name in CLAIMS:
            return CLAIM
        if asked.name in BOX:
            return Side(asked.name != LOOK, asked.arguments[0])
        if asked.name == "init":
            *what, parts, size = asked.arguments
            return Init(*what, parts * size)
        if asked.waits:
            return None
        return POLL_OF_CUTS if asked.name == "cut" else POLL_OF_SENDS if asked.name in OF_SENDS else POLL

    def note(self, number, asked):
        """Sees to it that what a rank asks is one of the patterns."""
        if asked is None or asked == SPINS:
            return
        pattern, size = self.pattern(asked), (len(self.patterns[number]), len(self.wild))
        if pattern is not None:
            self.patterns[number].add(pattern)
        at = {"recv": 1, "probe": 0, "claim": 0}.get(asked.name)
        selects = None if at is None else asked.arguments[at : at + 2]
        if selects and selects[1] is None:
            self.wild.add((number, selects[0]))
        if (len(self.patterns[number]), len(self.wild)) != size:
            raise Grown

    def may_pass(self, number, asked):
        """Whether a rank's send, receive or initialisation contests no pattern of another rank."""
        mine = asked.arguments[:3] if asked.name == "send" else self.pattern(asked) if asked.name == "init" else None
        if (number, mine) not in self.passes:
            self.passes[number, mine] = not any(
                self.contests(number, mine, other, pattern)
                for other, patterns in enumerate(self.patterns)
                for pattern in patterns
                if other != number
            )
        return self.passes[number, mine]

    def contests(self, number, mine, other, pattern):
        """Whether a rank's send, given by what it asks, its initialisation, or its receive, which is None, contests a pattern of
        another rank."""
        if isinstance(mine, Init):
            return begins_late(number, mine, other, pattern)
        if pattern == CLAIM:
            return True
        if pattern == POLL_OF_CUTS or isinstance(pattern, (Init, Side)):
            return False
        if pattern in (POLL, POLL_OF_SENDS):
            return pattern == POLL_OF_SENDS if mine is None else mine[2] == other
        if pattern == RECEIVE:
            return mine is not None and mine[0] and mine[2] == other
        if mine is None:
            return pattern.sync and pattern.dest == number
        return mine[1:] == (pattern.comm, pattern.dest) and (pattern.dest, pattern.comm) in self.wild

    def goes_first(self, state, number):
        """Whether a rank's next turn goes first: it asks for what is there, or nobody contests its post or its initialisation."""
        asked = state.nexts[number]
        if asked is None or asked == SPINS:
            return False
        if asked.name in THERE:
            return state.is_there(number)
        if asked.name in BOX:
            return self.may_meet(number, asked) and (asked.name == READY or (asked.waits and state.is_there(number)))
        return asked.name not in CLAIMS and self.may_pass(number, asked)

    def may_meet(self, number, asked):
        """Whether no other rank is on the same side of the link of a box."""
        mine = self.pattern(asked)
        return not any(mine in patterns for other, patterns in enumerate(self.patterns) if other != number)

    # ---- turns

    def runs(self, state, number):
        """Lets a rank take its turns that need nobody, up to one that asks. Sets what that asks."""
        rank, hub = state.ranks[number], Listening(state, self.note)
        rank.cluster, hart = Around(self.image, hub, Boxes(self.image, number, hub)), rank.harts[self.plan[0]]
        state.nexts[number], seen, taken, power = None, None, 0, 64
        try:
            while not hart.is_stopped():
                hub.waits = (hart.mode == WAITING and hart.why is not None) or hart.regs[17] in BLOCKING
                hub.is_pready = hart.regs[17] == PREADY
                self.turn(rank, hart)
                taken += 1
                if rank.event and rank.event[0] == HELD:
                    raise Unlisted
                if seen and seen[0] == hart.pc and seen == of_hart(rank, hart):
                    self.go_round(rank, hart)
                    state.nexts[number] = SPINS
                    return
                if taken == power:
                    seen, power = of_hart(rank, hart), 2 * power
                if taken > self.longest:
                    raise TooMany
        except Asked as asked:
            state.nexts[number] = asked.args[0]
        self.note(number, state.nexts[number])

    def turn(self, rank, hart):
        """A turn of a rank."""
        self.taken += 1
        if hart.mode == RUNNING and not is_at_call(hart, rank.memory):
            step(hart, rank.memory)
        else:
            rank.turn(self.plan[0])

    def go_round(self, rank, hart):
        """Takes a rank round to the least of the states that it goes through, so that it is in the same one each time."""
        self.is_counted = False
        first = least = of_hart(rank, hart)
        while True:
            self.turn(rank, hart)
            now = of_hart(rank, hart)
            if now == first:
                break
            least = min(least, now)
        while of_hart(rank, hart) != least:
            self.turn(rank, hart)

    def take(self, state, number, must_miss=False):
        """A rank's next turn, a look that misses or not, and those behind it that need nobody."""
        rank = state.ranks[number]
        rank.cluster, rank.must_miss = Around(self.image, state.hub, state.boxes), must_miss
        self.turn(rank, rank.harts[self.plan[0]])
        rank.must_miss = False
        self.runs(state, number)

    def first_of(self, state):
        """The lowest rank that goes first, or None."""
        everybody = range(len(state.ranks))
        for number in everybody:
            if self.goes_first(state, number):
                return number
        able = [number for number in everybody if not state.is_in_vain(number)] if self.alone else []
        return able[0] if len(able) == 1 and self.goes_alone(state, able[0]) else None

    @staticmethod
    def goes_alone(state, number):
        """Whether a rank sends, receives or claims in its next turn, with nobody else on the move: it could poll in vain for
        ever."""
        asked = state.nexts[number]
        return SPINS not in state.nexts and asked.name not in BOX and (not may_miss(asked) or state.is_there(number))

    def settle(self, state):
        """Takes turns that go first until none does. Ranks that wait for what isn't there do wait then."""
        taken = 0
        while (number := self.first_of(state)) is not None:
            self.take(state, number)
            taken += 1
            if taken > self.longest:
                raise TooMany
        for number, rank in enumerate(state.ranks):
            if state.nexts[number] not in (None, SPINS) and state.is_in_vain(number):
                rank.harts[self.plan[0]].mode = WAITING
        state.key = self.key(state)
        return state

    # ---- likeness

    def is_kept(self, state, number, post):
        """Whether a post counts: its message waits, or it waits for one, or its rank may ask for it."""
        if not was_collected(post) or not (self.collected or self.forgets):
            return True
        if self.collected:
            return post.kind == "send" and post.sync
        rank = state.ranks[post.rank]
        return number in {hart.why for hart in rank.harts if hart.mode == WAITING} | {it.post for it in rank.requests.values()}

    def key(self, state):
        """A number by which alike states are known. A claim is called by its number, which its guest was told: so where there are
        claims, it counts how many posts were made."""
        counts, names = [0] * self.image.ranks, []
        for number, post in enumerate(state.hub.posts, 1):
            if post.kind == "claim":
                names.append(number)
            elif self.is_kept(state, number, post):
                counts[post.rank] += 1
                names.append((post.rank, counts[post.rank]))
            else:
                names.append(None)
        places = {id(post): name for post, name in zip(state.hub.posts, names)}
        posts, waiting = {}, {}
        for post in state.hub.posts:
            if places[id(post)]:
                fields = key_of_post(post, lambda other: places[id(other)])
                posts.setdefault(post.rank, []).append((places[id(post)], fields))
            to = post.kind == "send" and not post.partner and (post.dest, post.envelope[0])
            if to and (to in self.wild or not self.by_source):
                waiting.setdefault(to, []).append(places[id(post)])
        ranks = [self.key_of_rank(rank, lambda number: number and names[number - 1]) for rank in state.ranks]
        sides = {}
        for side in state.hub.sides:
            sides.setdefault((side.key, side.sends), []).append((side.parts, side.size, side.link))
        meeting = sorted(sides.items()), [[box.text for box in link] for link in state.boxes]
        is_told = any(CLAIM in patterns for patterns in self.patterns)
        many = len(state.hub.posts) if self.collected or is_told else None
        return self.number(repr((ranks, sorted(posts.items()), sorted(waiting.items()), meeting, many)))

    def key_of_rank(self, rank, name):
        """A rank's key, in which a hart that makes its call anew is one that makes it for the first time."""
        memory, harts, requests, out = orders.key_of_rank(rank, name)
        again = lambda mode, post: (RUNNING, None) if (mode, post) == (WAITING, None) else (mode, post)
        awake = [(pc, *again(mode, post), regs) for pc, mode, post, regs in harts]
        return self.number(memory), awake, requests, out

    # ---- searches

    def first(self):
        """The state that the image settles to."""
        loaded = cluster.loaded(self.image)
        around = Around(self.image, loaded.hub, loaded.boxes)
        state = State([copy_of_rank(rank, around) for rank in loaded.ranks], loaded.hub, loaded.boxes)
        for number in range(len(state.ranks)):
            self.runs(state, number)
        return self.settle(state)

    def search(self):
        """Searches, as often as it has to begin anew. Says whether it could: each rank has one hart that takes turns, and
        each of its turns has a pattern."""
        if len(set(self.plan)) > 1:
            return False
        while True:
            try:
                self.once()
                return True
            except Grown:
                self.restarts += 1
                self.passes = {}
            except Unlisted:
                return False
            except TooMany:
                self.is_whole = False
                return True

    def once(self):
        """Searches by the patterns that are known."""
        self.texts, self.known, self.left, self.companies = set(), set(), set(), set()
        self.shared = collections.Counter()
        first = self.first()
        before, states, stops, todo = {first.key: []}, {first.key: first}, [], collections.deque([first])
        while todo:
            # the state that was found first, as in the program: which patterns come up depends on it
            state = todo.popleft()
            if state.is_end():
                self.found(state)
                stops.append(state.key)
                continue
            for number, must_miss in self.moves(state):
                after = state.copy()
                self.take(after, number, must_miss)
                self.settle(after)
                self.is_counted &= not after.finds_late(self.plan[0])
                if after.key not in before:
                    before[after.key], states[after.key] = [], after
                    todo.append(after)
                before[after.key].append(state.key)
            if len(before) > self.most:
                raise TooMany
        self.count = len(before)
        led = orders.led_to(stops, before)
        self.is_unending = len(led) < self.count
        lost = [state for key, state in states.items() if key not in led]
        self.companies = {why.told_of_company(state.around()) for state in lost if waits(state)} - {b""}

    @staticmethod
    def moves(state):
        """Who may go on where all may, and by a look that misses what is there, where the rank goes on then."""
        for number, asked in enumerate(state.nexts):
            if not state.is_in_vain(number):
                yield number, False
                if asked.name in (LOOK, FREED) and not asked.waits and state.is_there(number):
                    yield number, True

    def found(self, state):
        """Keeps what is told of an end, and what is known of it."""
        known = orders.what_is_known(state.ranks)
        self.texts.add(orders.text_of(state.ranks, self.plan))
        self.shared[orders.whole_text(state.around(), self.plan)] += 1
        self.known.add(known)
        self.left.add((known, left(state.hub)))


def was_collected(post):
    """Whether the message of a send or a receive was collected."""
    receive = post if post.kind == "receive" else post.partner
    return receive is not None and receive.collected


def key_of_post(post, name):
    """A post's key, without a message that was collected."""
    return orders.key_of_post(orders.copied(post, text=None) if was_collected(post) else post, name)


def of_hart(rank, hart):
    """All that a rank's turns that need nobody hang on."""
    return hart.pc, hart.mode, hart.regs[:], bytes(rank.memory.bytes), len(rank.out), sorted(rank.requests)


def waits(state):
    """Whether a hart waits."""
    return any(hart.mode == WAITING for rank in state.ranks for hart in rank.harts)


class Whole(orders.Search):
    """The search that leaves nothing out, which also keeps the messages that nobody received at each end."""

    def __init__(self, image, plan, most):
        super().__init__(image, plan, False, most)
        self.left = set()
        self.found = self.ends()

    def is_end(self, state):
        """Whether nobody goes on."""
        ended = super().is_end(state)
        if ended:
            self.left.add((orders.what_is_known(state.ranks), left(state.hub)))
        return ended


def difference(some, whole):
    """How a search that leaves schedules out differs from the one that leaves out nothing, where both are done, or None."""
    return first_difference(
        ("texts", some.texts, set(whole.found.values())),
        ("ends", some.known, set(whole.found)),
        ("messages left", some.left, whole.left),
        ("ranks that are stuck", some.companies, orders.largest(whole.companies, some.companies)),
        ("runs without an end", some.is_unending, whole.is_unending),
    )


def difference_from_told(some, told):
    """How such a search differs from what `explore` told of all states, or None."""
    return first_difference(
        ("texts", some.texts, told.ends()),
        ("ranks that are stuck", orders.largest(some.companies, told.companies), orders.largest(told.companies, some.companies)),
        ("runs without an end", some.is_unending, told.is_unending),
    )


def difference_in_states(image, plan, most, longest, told):
    """How many states `explore` told of, where docs/SCHEDULES.md has other ones, or how many ends look like its outcomes, or
    None. It may tell of more where a rank goes round alone, which has states of its own then, and where it searches without
    this law."""
    some = Schedules(image, plan, most, longest=longest, **COUNTED)
    if not some.search() or not some.is_whole or not told.is_whole:
        return None
    if told.count > some.count and not some.is_counted:
        return None
    return first_difference(
        ("states", told.count, some.count),
        ("ends of each text", told.shared(), dict(some.shared)),
    )


def first_difference(*rows):
    """The first row whose two things differ, in words, or None."""
    return next((f"{name}: {str(mine)[:600]}, not {str(theirs)[:600]}" for name, mine, theirs in rows if mine != theirs), None)
