"""Programs whose ranks only wait for named ranks, so that it makes no difference how long messages take (docs/OVERTAKING.md): by
the calls that the ranks make in a search, or in one run."""

import cluster
from machine import WAITING, is_at_call, signed
from ranks import NULL, ROWS, SEND, Rank

# what the hub is asked for something that may not be there yet
LOOKS = ("collect", "finished", "all", "probe")

# the numbers of the calls that go on where it isn't
GOES_ON = [number for number, call in ROWS.items() if call in (Rank.test, Rank.testall, Rank.iprobe)]

# at which place of what is asked the source is
SOURCES = {"recv": 2, "probe": 1}


def is_wait(call, name, *arguments):
    """Whether what a call of this number asks of the hub names its source, is no matched probe, and waits where nothing is
    there."""
    if name in ("claim", "claimed") or (name in SOURCES and arguments[SOURCES[name]] is None):
        return False
    return name not in LOOKS or call not in GOES_ON


def is_complete(request):
    """Whether a request is a synchronous send that was complete as it was made: its receive was posted before it."""
    if request is None or request.kind != SEND or not request.active or signed(request.transfer.peer) == NULL:
        return False
    return request.post is None and request.sent is None


def polls_complete(rank, hart):
    """Whether a hart's next turn is a TEST of such a send, or a TESTALL that names one. It asks nobody here, and on a network it
    may find nothing yet."""
    return any(is_complete(rank.requests.get(handle)) for handle in rank.handles_ahead(rank.harts[hart], Rank.test, Rank.testall))


def turn(rank, hart):
    """Gives a hart of a rank a turn. Returns its step, and whether what it asks of the hub only waits for a named rank."""
    if polls_complete(rank, hart):
        return rank.turn(hart), False
    asked, ask, call = [], rank.ask, rank.harts[hart].regs[17]
    rank.ask = lambda name, *arguments: asked.append((name, *arguments)) or ask(name, *arguments)
    try:
        step = rank.turn(hart)
    finally:
        del rank.ask
    return step, all(is_wait(call, *one) for one in asked)


def wrong(told, search):
    """What is wrong with whether a text of `explore` says that messages on their way change nothing, by a search that leaves out
    no call: None where nothing is."""
    if told.is_on_the_way and not search.only_waits:
        return "that messages on their way change nothing"
    # a rank that waits for a partition of its own is searched otherwise
    is_known = told.is_whole and search.is_whole and not search.image.links
    return "that messages on their way may change something" if is_known and told.is_on_the_way < search.only_waits else None


def only_waits_in_run(image, most):
    """Whether ranks of one hart only wait for named ranks in a run, of so many turns a rank at most; None where it doesn't end by
    then. Then they do so in each run: each receive has the same message in all, so the ranks make the same calls. Not so
    where there are partitions, of which PARRIVED may find more or fewer."""
    if image.harts > 1 or image.links:
        return None
    ranks = cluster.loaded(image).ranks
    moved = True
    while moved:
        moved = False
        for rank in ranks:
            hart = rank.harts[0]
            while not hart.is_stopped():
                if rank.turns > most:
                    return None
                was = hart.mode
                if was == WAITING or is_at_call(hart, rank.memory):
                    if not turn(rank, 0)[1]:
                        return False
                else:
                    rank.turn(0)
                if was == hart.mode == WAITING:
                    break
                moved = True
    return True
