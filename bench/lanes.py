"""The schedule of ./sunreg-build: which crate to prove next, by how many jobs, and the time left.

It goes by processors and free memory."""
import collections
import os
import pathlib
import time

import kit

# A proof gets BEYOND times the memory that bench/GATE.md has, and A_JOB of it more for each further
# job. For a crate without a figure, MOST is the most of a library (False) or a program (True).
BEYOND, A_JOB, MOST = 1.1, 0.25, {False: 3_200_000_000, True: 8_800_000_000}
# A running proof: its start, its jobs, and its memory.
Running = collections.namedtuple("Running", "since jobs memory")


class Lanes:
    """The crates to prove, the crates that a group of processes proves now, and the proved
    crates."""

    def __init__(self, rt, crates, group):
        costs, none = kit.costs(), kit.Cost()
        known = {it: costs.get(it.name, none) for it in crates}
        self.seconds = {it: cost.seconds or 20 + 0.25 * it.count(rb"\n") for it, cost in known.items()}
        self.memory = {it: BEYOND * (cost.memory or MOST[it.is_program]) for it, cost in known.items()}
        # (the seconds of the longest chain that begins with the crate; the lowest crates come
        # first)
        self.behind = dict(self.seconds)
        for crate in reversed(crates):
            for it in crate.below():
                self.behind[it] = max(self.behind[it], self.seconds[it] + self.behind[crate])
        self.rt, self.group, self.lanes = rt, group, rt.processors()
        self.left, self.running, self.done = [], {}, set()
        self.took, self.weighed, self.killed = 0, 0, set()

    def next(self):
        """Returns the crate to prove now and its number of jobs, and counts it as running.

        Returns nothing if no crate is ready, or if processors or memory lack."""
        idle = self.lanes - sum(it.jobs for it in self.running.values())
        ready = [it for it in self.left if self.done.issuperset(it.below())]
        if not ready or idle <= 0:
            return None
        crate = max(ready, key=self.behind.get)
        # (memory that running proofs will still take is not free)
        planned, held = sum(it.memory for it in self.running.values()), sum(much for _, much in members(self.group))
        room = self.rt.free() - max(planned - held, 0)
        much = self.memory[crate]
        if self.running and much > room:
            return None
        jobs = max(1, min(4, idle // len(ready), int(1 + (room / much - 1) / A_JOB)))
        self.left.remove(crate)
        self.running[crate] = Running(time.monotonic(), jobs, much * (1 + A_JOB * (jobs - 1)))
        return crate, jobs

    def ended(self, crate, status):
        """Records the end of a proof, and returns its seconds.

        A proof that a signal ended most likely lacked memory: it is tried once more, with twice the
        memory."""
        took = time.monotonic() - self.running.pop(crate).since
        if status < 0 and crate not in self.killed:
            self.killed.add(crate)
            self.memory[crate] *= 2
            self.left.append(crate)
        else:
            self.done.add(crate)
            self.took, self.weighed = self.took + took, self.weighed + self.seconds[crate]
        return took

    def minutes(self):
        """Returns the minutes left at the pace so far: the larger of the longest chain and the
        shared-out rest."""
        pace, now = self.took / self.weighed if self.weighed else 1, time.monotonic()
        gone = {it: min((now - run.since) / pace, self.seconds[it]) for it, run in self.running.items()}
        chains = [self.behind[it] - gone.get(it, 0) for it in [*self.left, *self.running]]
        whole = sum(self.seconds[it] - gone.get(it, 0) for it in [*self.left, *self.running])
        return round(pace * max([*chains, whole / self.lanes]) / 60)


def members(group):
    """Yields the processes of a group, and those of this process that may still join it, with their
    bytes."""
    for state in pathlib.Path("/proc").glob("[0-9]*/stat"):
        try:
            kind, parent, of, *words = state.read_text(errors="replace").rpartition(")")[2].split()
        except OSError:
            continue
        if kind != "Z" and (int(of) == group or int(parent) == os.getpid()):
            yield int(state.parent.name), int(words[18]) * os.sysconf("SC_PAGE_SIZE")
