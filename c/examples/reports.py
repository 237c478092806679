"""What a report of `rvmc one` and `rvmc run` tells of each rank. c/run-all and c/tests/run-all use it."""

import re

HEAD = re.compile(rb"rank (\d) output (\d+)\n")
TAIL = re.compile(rb"\n((?:rank \d hart \d .*\n)+)rank \d stop ([a-z-]+) turns (\d+)\n")
HART = re.compile(r"rank \d hart \d (.*)")


class Rank:
    """What a report tells of one rank."""

    def __init__(self, text, harts, why, turns):
        self.text, self.harts, self.why, self.turns = text, harts, why, turns


def ranks_of(report):
    """Takes a report apart. Returns its ranks, and the text behind it."""
    ranks, at = [], 0
    while head := HEAD.match(report, at):
        end = head.end() + int(head[2])
        tail = TAIL.match(report, end)
        if not tail or int(head[1]) != len(ranks):
            break
        harts = HART.findall(tail[1].decode())
        ranks.append(Rank(report[head.end() : end].decode("latin-1"), harts, tail[2].decode(), int(tail[3])))
        at = tail.end()
    return ranks, report[at:]
