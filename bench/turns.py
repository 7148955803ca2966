"""Asking programs in turns: the times of each, and how often they are asked."""

import dataclasses
import statistics
import time


class Differ(Exception):
    """Programs gave different answers to one question."""


@dataclasses.dataclass(frozen=True)
class Times:
    """The seconds that a program took, one figure for each round."""

    seconds: tuple[float, ...]

    @property
    def least(self):
        return min(self.seconds)

    @property
    def median(self):
        return statistics.median(self.seconds)


@dataclasses.dataclass(frozen=True)
class Rounds:
    """How often a program is asked one question: so many times as are wanted, or fewer, but never less than the least, once that has taken it so many
    seconds."""

    wanted: int = 15
    least: int = 3
    seconds: float = 10.0

    def are_over(self, done, taken):
        """Whether a program that was asked so often, for so many seconds, isn't asked again."""
        return done >= self.wanted or (done >= self.least and taken >= self.seconds)

    def at_most(self, count):
        """The same, for what can be asked so many times alone."""
        return dataclasses.replace(self, wanted=min(self.wanted, count), least=min(self.least, count))


class Asked:
    """One program and what it was asked for: what it answers, and what that takes."""

    def __init__(self, ask, clock):
        self.ask = ask
        self.clock = clock
        self.answers = set()
        self.seconds = []
        self.taken = 0.0

    def once(self, counted=True):
        """Asks the program once."""
        start = self.clock()
        answer, seconds = self.ask()
        self.answers.add(answer)
        if counted:
            self.taken += self.clock() - start
            self.seconds.append(seconds)

    def is_done(self, rounds):
        """Whether it was asked often enough."""
        return rounds.are_over(len(self.seconds), self.taken)


def in_turns(what, programs, rounds, warm=False, clock=time.perf_counter):
    """The answer that all programs give, and the times of each.

    `programs` has, by the name of each, a call that asks it and gives the answer and the seconds. They are asked one after the other in each round, so
    that what else the machine does in a minute falls upon all of them; a slow one may be done before the others. A program whose answer is None isn't
    compared. With `warm` a round goes before that isn't counted.
    """
    asked = {name: Asked(ask, clock) for name, ask in programs.items()}
    if warm:
        for it in asked.values():
            it.once(counted=False)
    while left := [it for it in asked.values() if not it.is_done(rounds)]:
        for it in left:
            it.once()
    answers = set().union(*(it.answers for it in asked.values())) - {None}
    if len(answers) > 1:
        raise Differ(f"{what}: " + "; ".join(f"{name} found {', '.join(map(str, sorted(it.answers)))}" for name, it in asked.items() if None not in it.answers))
    return next(iter(answers), None), {name: Times(tuple(it.seconds)) for name, it in asked.items()}
