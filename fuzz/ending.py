"""Where a run with `--until-stuck` ends, and what is told of it, as docs/DEBUGGING.md and docs/MACHINE.md have it."""

import re

import cluster
import why
from list import is_vain

# how many rounds of the ranks, for each hart of a plan, all may look in vain before a run on one thread is ended
LATE = 100


class End:
    """The end of the record of a run by this budget: the cluster that its steps lead to, and why each rank stopped."""

    def __init__(self, image, steps, budget):
        self.steps, self.bad = steps, None
        walk = cluster.Walk(image, len(steps))
        for number, step in enumerate(steps):
            if not walk.takes(step):
                self.bad = number
                return
        self.cluster = walk.cluster
        self.why = why.told(self.cluster)
        going = [rank for rank in self.cluster.ranks if not all(hart.is_stopped() for hart in rank.harts)]
        last = self.why.decode().splitlines()[-1]
        dead = set(re.findall(r"\d", last)) if last.startswith("deadlock: ") else set()
        self.is_stuck = bool(going) and {str(rank.number) for rank in going} <= dead
        early = "stuck" if self.is_stuck else "told"
        self.stops = {rank.number: "all-ended" for rank in self.cluster.ranks}
        for rank in going:
            self.stops[rank.number] = "budget" if rank.turns >= budget else early
        self.is_early = early in self.stops.values()

    def wrong(self, run):
        """What is wrong with such an end, where the run was on one thread also by what the run without the option was:
        None where nothing is."""
        if self.bad is not None:
            return f"no run at step {self.bad}"
        if self.is_early and not self.is_stuck:
            return "ranks were told to stop, and some can go on"
        if run is None:
            return None
        whole = sorted(run.steps, key=lambda step: (step.stamp, step.rank))
        here, there = ([step.written() for step in steps] for steps in (self.steps, whole))
        known = set(here)
        if here != (there if not self.is_early else [step for step in there if step in known]):
            return f"{len(here)} steps that aren't the first of each rank of the {len(there)} without the option"
        if self.is_stuck and not self.is_early and self.vain(run) > LATE * len(run.plan):
            return f"a deadlock that was not seen in {self.vain(run)} rounds"
        return None

    def vain(self, run):
        """The fewest rounds in which a rank that waits looked in vain since a turn of such a run changed anything. They are
        counted in the order in which turns were taken: a rank that waits may be far ahead of the others by its stamps."""
        at = next((at for at, step in enumerate(reversed(run.steps)) if not is_vain(step)), len(run.steps))
        last = [step.rank for step in run.steps[len(run.steps) - at :]]
        waits = [rank for rank, stop in self.stops.items() if stop != "all-ended"]
        return min((last.count(rank) // run.order.count(rank) for rank in waits), default=0)

    def reports(self):
        """What may be told of the run: behind it what its harts wait for where all that are left are in a deadlock, also
        where they used up their turns."""
        text = cluster.report(self.cluster, self.stops)
        return [text + self.why] if self.is_stuck else [] if self.is_early else [text]

    def status(self):
        """The status of the run."""
        return cluster.status(self.cluster, self.stops)
