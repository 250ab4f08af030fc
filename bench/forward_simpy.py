#!/usr/bin/env python3
"""forward_simpy.py FILE SEED TIME [WARM]

Simulates a network in SimPy 2, Debian's python3-simpy, as its user would: each event is a process
that waits while it has nothing to do, and else an exponential time. FILE is a network of the
benchmark as TOML. It prints the mean length of the watched queue over TIME units of model time,
after WARM units from the first state, and how many times a process acted.
"""

import argparse
import random
import sys
from collections.abc import Iterator

import on_path  # noqa: F401
from events import Event, events_of, first_state
from networks import WATCHED
from psi_tools.model.networks import Network
from SimPy.Simulation import Process, Simulation, hold, passivate


class Model(Simulation):
    """The network while it is simulated: its state, and the length of a queue over time."""

    def __init__(self, net: Network, total: int | None, watched: int, seed: int) -> None:
        super().__init__()
        self.initialize()
        self.state, self.capacities = first_state(net, total), net.capacities
        self.random, self.watched = random.Random(seed), watched
        self.area = self.since = 0.0
        self.acted = 0
        self.users: list[list[Actor]] = [[] for _ in self.state]
        for event in events_of(net):
            actor = Actor(self, event)
            for queue in set(event.queues):
                self.users[queue].append(actor)
            self.activate(actor, actor.run())

    def add_up(self) -> None:
        """Adds the length of the watched queue since the last change."""
        self.area += self.state[self.watched] * (self.now() - self.since)
        self.since = self.now()

    def change(self, queue: int, by: int) -> None:
        """Changes the length of a queue, and wakes the processes that wait for it."""
        if queue == self.watched:
            self.add_up()
        self.state[queue] += by
        for actor in self.users[queue]:
            if actor.passive():
                self.reactivate(actor)

    def mean(self, warm: float, time: float) -> float:
        """Simulates, and returns the mean length of the watched queue after the warm-up."""
        end = Warm(sim=self)
        self.activate(end, end.run(warm))
        self.simulate(until=warm + time)
        self.area += self.state[self.watched] * (warm + time - self.since)
        return self.area / time


class Warm(Process):
    """The end of the warm-up: what was added up until then is dropped."""

    def run(self, time: float) -> Iterator[tuple[object, ...]]:
        """Waits for the end of the warm-up."""
        yield hold, self, time
        self.sim.since, self.sim.area = self.sim.now(), 0.0


class Actor(Process):
    """The process of an event."""

    def __init__(self, model: Model, event: Event) -> None:
        super().__init__(sim=model)
        self.model, self.event = model, event

    def targets(self) -> list[int]:
        """The targets that get a customer now."""
        state, capacities = self.model.state, self.model.capacities
        free = [queue for queue in self.event.targets if state[queue] < capacities[queue]]
        if not self.event.is_route or not free:
            return free
        return [min(free, key=lambda queue: state[queue])] if self.event.is_shortest else free[:1]

    def is_able(self) -> bool:
        """Whether the event would change something now."""
        event, state = self.event, self.model.state
        serves = all(state[queue] > 0 for queue in event.takes)
        if event.takes and state[event.takes[0]] < event.least or not serves:
            return False
        free = self.targets()
        if not event.is_route:
            return len(free) == len(event.targets)
        return bool(free) or event.leaves and bool(event.takes)

    def act(self) -> None:
        """Moves the customers."""
        targets = self.targets()
        self.model.acted += 1
        for queue in self.event.takes:
            self.model.change(queue, -1)
        for queue in targets:
            self.model.change(queue, 1)

    def run(self) -> Iterator[tuple[object, ...]]:
        """Acts again and again, as long as the simulation lasts."""
        while True:
            if not self.is_able():
                yield passivate, self
                continue
            yield hold, self, self.model.random.expovariate(self.event.rate)
            if self.is_able():
                self.act()


def main() -> int:
    parser = argparse.ArgumentParser(usage=__doc__)
    parser.add_argument("file")
    parser.add_argument("seed", type=int)
    parser.add_argument("time", type=float)
    parser.add_argument("warm", type=float, nargs="?", default=0.0)
    parser.add_argument("--total", type=int)
    parser.add_argument("--watched")
    given = parser.parse_args()
    net = Network.read(given.file)
    name = given.watched or next(reward["queues"][0] for reward in net.table["reward"] if reward["name"] == WATCHED)
    model = Model(net, given.total, net.queues.index(name), given.seed)
    print(model.mean(given.warm, given.time), model.acted)
    return 0


if __name__ == "__main__":
    sys.exit(main())
