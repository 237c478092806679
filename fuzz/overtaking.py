#!/usr/bin/env python3
"""How many more outcomes there are if messages take their time: a model of the machine in which each message is on its way
until it arrives (docs/OVERTAKING.md), over the searches of model/orders.py. Nothing of rvmc has it.

usage: fuzz/overtaking.py [--seed N] [--cases N] [--waits | --but KIND] [SOURCE]

It takes random guests as fuzz/run draws them for `explore`, finds all outcomes of each with messages that arrive at once and
with messages on their way, and says of how many guests there are more. An outcome is the text of an end here: ranks that are
stuck while others run on aren't looked for. With SOURCE, an assembler source, it prints the outcomes that only messages on
their way lead to.

With --waits it takes guests whose ranks only wait for named ranks, of which none may have more, and compares ranks that are
stuck while others run on too; the status is 1 if one has more. With --but such guests have calls of one kind besides.
"""

import argparse
import os
import sys

sys.path.insert(0, f"{os.path.dirname(os.path.dirname(os.path.abspath(__file__)))}/model")
sys.dont_write_bytecode = True

import assembler  # noqa: E402
import guests  # noqa: E402
import hub  # noqa: E402
import orders  # noqa: E402
import races  # noqa: E402
import waits  # noqa: E402

# states of a guest at most: beyond them it isn't counted. Those that only wait have few that matter
MOST, FEW = 6_000, 1_500


class Mail(hub.Hub):
    """A hub whose messages are on their way until they arrive. Those of one sender to one rank in one communicator arrive
    in the order in which they were sent."""

    def __init__(self, links):
        super().__init__(links)
        # the numbers of sends in the order in which they arrived
        self.arrived = []

    def add(self, post):
        """Adds a post. A send finds its partner when it arrives; what takes a message takes the first that arrived."""
        self.posts.append(post)
        if post.kind != "send":
            self.join(post, self.found(post))
        return len(self.posts)

    @staticmethod
    def join(post, other):
        """Makes two posts partners, if there are two."""
        if other:
            post.partner, other.partner = other, post

    def found(self, new):
        """The message that a new receive or claim would be given."""
        sends = (self.posts[number - 1] for number in self.arrived)
        return next((send for send in sends if send.partner is None and new.accepts(send)), None)

    def on_their_way(self):
        """The numbers of the sends that may arrive next: of each sender, rank and communicator the first."""
        first = {}
        for number, post in enumerate(self.posts, 1):
            if post.kind == "send" and number not in self.arrived:
                first.setdefault((post.rank, post.dest, post.envelope[0]), number)
        return list(first.values())

    def arrive(self, number):
        """A message arrives: the first receive that accepts it gets it."""
        send = self.posts[number - 1]
        self.arrived.append(number)
        waiting = (post for post in self.posts if post.kind == "receive" and post.partner is None)
        self.join(send, next((post for post in waiting if post.accepts(send)), None))


def copy_of_mail(old):
    """A copy of such a hub."""
    return orders.copied(orders.copy_of_hub(old), arrived=list(old.arrived))


def key_of_mail(mail):
    """What counts of it: all posts, which have arrived, and in which order those did that nobody took."""
    order = tuple(number for number in mail.arrived if mail.posts[number - 1].partner is None)
    return orders.key_of_hub(mail), frozenset(mail.arrived), order


class Search(orders.Search):
    """All states that some order of turns and arrivals leads to."""

    def __init__(self, image, plan, most):
        super().__init__(image, plan, False, most)

    def state(self, ranks, mail, boxes):
        """A state, known by all that counts."""
        keys = [*map(self.key, ranks), self.number(key_of_mail(mail)), self.number(orders.key_of_boxes(boxes))]
        return orders.State(ranks, mail, boxes, tuple(keys))

    def first(self):
        """The state that the image begins as."""
        first = super().first()
        return self.state(first.ranks, Mail(self.image.links), first.boxes)

    def turn(self, state, number, hart, must_miss=False):
        """A rank behind a turn of a hart, the cluster around it, and the step."""
        around = orders.Around(self.image, copy_of_mail(state.hub), orders.copy_of_boxes(state.boxes))
        rank = orders.copy_of_rank(state.ranks[number], around)
        rank.must_miss = must_miss
        step = rank.turn(hart)
        return rank, around, step

    def behind(self, state, number, must_miss=False):
        """The state behind a rank's next turn, and the turn's kind."""
        rank, around, step = self.turn(state, number, self.next_hart(state.ranks[number]), must_miss)
        ranks = list(state.ranks)
        ranks[number] = self.settled(rank)
        return self.state(ranks, around.hub, around.boxes), step.kind

    def moves(self, state):
        """The states that one turn, or one arrival, leads to."""
        yield from super().moves(state)
        for number in state.hub.on_their_way():
            mail = copy_of_mail(state.hub)
            mail.arrive(number)
            yield self.state(state.ranks, mail, state.boxes)

    def is_end(self, state):
        """Whether nobody goes on, and nothing is on its way."""
        return not state.hub.on_their_way() and super().is_end(state)

    def company(self, state):
        """What is told of ranks that are stuck while others run on: nothing while something is on its way, which may free them."""
        return b"" if state.hub.on_their_way() else super().company(state)


def searched(image, plan, most):
    """The searches on both machines, each with its outcomes, or None where one of them was given up."""
    plan = plan or list(range(image.harts))
    found = []
    for search in (orders.Search(image, plan, False, most), Search(image, plan, most)):
        found.append((search, set(search.ends().values())))
        if not search.is_whole:
            return None
    return found


def both(image, plan):
    """The outcomes on both machines, or None where one of the searches was given up."""
    found = searched(image, plan, MOST)
    return found and [ends for _, ends in found]


def more_of(image, plan):
    """What only messages on their way lead to: outcomes, and ranks that are stuck while others run on. None where a search was
    given up."""
    found = searched(image, plan, FEW)
    if found is None:
        return None
    (here, ends), (there, others) = found
    # ranks are stuck with a rank whose message is there, and which then stops
    new = there.companies - here.companies
    stuck = {text for text in new if not any(orders.is_earlier(text, other) for other in here.companies)}
    return (others - ends) | stuck, (ends - others) | (here.companies - there.companies)


def count(seed, cases):
    """Says of how many guests there are more outcomes."""
    searched = more = outcomes = new = lost = 0
    for case in range(cases):
        image, plan = races.Races(guests.Guests(f"{seed} {case}")).drawn()
        found = both(image, plan)
        if found is None:
            continue
        here, there = found
        searched += 1
        more += bool(there - here)
        lost += bool(here - there)
        outcomes, new = outcomes + len(here), new + len(there - here)
    print(f"overtaking: {searched} of {cases} guests searched: {outcomes} outcomes if messages arrive at once; {new} more,")
    print(f"of {more} guests, if they take their time; {lost} guests lose one")


def count_waits(seed, cases, but):
    """Says of how many guests whose ranks only wait for named ranks there are more outcomes. Gives how many."""
    searched_of = more = lost = 0
    for case in range(cases):
        image, plan = waits.Waits(guests.Guests(f"{seed} {case}"), but).drawn()
        found = more_of(image, plan)
        if found is None:
            continue
        searched_of += 1
        more += bool(found[0])
        lost += bool(found[1])
        if found[0] and not but:
            print(f"overtaking: case {case}: {sorted(found[0])[0].decode()}")
    kind = f", but {but}" if but else ""
    print(f"overtaking: {searched_of} of {cases} guests that only wait{kind}, searched: {more} have more")
    print(f"outcomes if messages take their time; {lost} lose one", flush=True)
    return more


def main():
    parser = argparse.ArgumentParser(description=__doc__.split("\n", maxsplit=1)[0])
    parser.add_argument("--seed", default="1")
    parser.add_argument("--cases", type=int, default=200)
    parser.add_argument("--waits", action="store_true")
    parser.add_argument("--but", choices=waits.KINDS)
    parser.add_argument("source", nargs="?")
    given = parser.parse_args()
    if given.waits or given.but:
        return int(count_waits(given.seed, given.cases, given.but) > 0 and not given.but)
    if not given.source:
        count(given.seed, given.cases)
        return 0
    with open(given.source, "rb") as file:
        image = assembler.assembled(file.read())
    found = both(image, None)
    if found is None:
        sys.exit(f"overtaking: more than {MOST} states")
    for text in sorted(found[1] - found[0]):
        print(text.decode(), end="")
    print(f"{len(found[0])} outcomes if messages arrive at once, {len(found[1])} if they take their time")
    return 0


if __name__ == "__main__":
    sys.exit(main())
