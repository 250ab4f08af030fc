"""The models of psi-new: each makes a network of a few numbers, and describes what it models."""

import argparse
import dataclasses
import itertools
import math
from collections.abc import Iterable
from fractions import Fraction
from typing import Any, TypeVar

from psi_tools.errors import PsiError
from psi_tools.model.networks import MOST_EVENTS, MOST_RATE, MOST_TOTAL, Network, Table
from psi_tools.stats.mean_values import means_of

Rate = Fraction
Value = TypeVar("Value")

# The most servers that a queue of the format has; more are events of their own.
MOST_SERVERS = 64


@dataclasses.dataclass
class Made:
    """A network whose rates are fractions yet, and the comment of its file."""

    comment: str
    net: Network = dataclasses.field(default_factory=Network)


def add_servers(made: Made, queue: str, rate: Rate, servers: int, name: str = "serve", **keys: Any) -> None:
    """The service of a queue by some servers. Above 64 each is an event of its own, which takes a
    customer where at least as many are there: such a service ends outside."""
    if servers <= MOST_SERVERS:
        if servers > 1:
            made.net.table["queue"][made.net.queues.index(queue)]["servers"] = servers
        made.net.event(name, "service", rate, source=queue, **keys)
        return
    for least in range(1, servers + 1):
        part = [{"queue": queue, "least": least, "shift": -1}]
        made.net.event(f"{name}-{least}", "guarded", rate, part=part)


def add_full(made: Made, name: str, queue: str, capacity: int) -> None:
    """The reward that is 1 where a queue is full."""
    made.net.reward(name, "above", [queue], level=capacity - 1)


def add_waiting(made: Made, queue: str, servers: int, places: int) -> None:
    """The rewards that are 1 where a queue is full, and how many wait in it."""
    add_full(made, "full", queue, places)
    made.net.reward("waiting", "table", [queue], table=[[max(0, number - servers) for number in range(places + 1)]])


def add_stations(made: Made, names: Iterable[str], places: Iterable[int], rates: Iterable[Rate]) -> None:
    """Queues, each with a service that ends outside."""
    for name, capacity, rate in zip(names, places, rates):
        made.net.queue(name, capacity).event(f"{name}-done", "service", rate, source=name)


def numbered(name: str, count: int) -> list[str]:
    """Names that end with 1, 2, .."""
    return [f"{name}-{number}" for number in range(1, count + 1)]


def by_formula(args: argparse.Namespace, servers: int, places: int, patience: Rate | int = 0) -> str:
    """The values of a queue of some servers and places by the formula for birth and death, as a sentence:
    how many are there on average, and how often it is full. Each who waits gives up at the rate `patience`."""
    numbers = range(1, places + 1)
    deaths = [min(number, servers) * args.service + max(0, number - servers) * patience for number in numbers]
    logs = [*itertools.accumulate((math.log(args.arrival / death) for death in deaths), initial=0.0)]
    most = max(logs)
    weights = [math.exp(log - most) for log in logs]
    total = math.fsum(weights)
    mean = math.fsum(number * weight for number, weight in enumerate(weights)) / total
    message = f" By the formula for birth and death {mean:.6g} are there on average"
    return f"{message}, and it is full for {weights[-1] / total:.6g} of the time."


def single_server(args: argparse.Namespace) -> Made:
    """M/M/1/K"""
    made = Made(
        f"A single server with a waiting room: M/M/1/K with K = {args.places}. Customers come at "
        f"rate {args.arrival} and are served at rate {args.service}; who finds it full is lost. "
        "The rewards: whether it is full, and how many wait."
    )
    made.comment += by_formula(args, 1, args.places)
    made.net.queue("desk", args.places).event("come", "arrival", args.arrival, to=["desk"])
    add_servers(made, "desk", args.service, 1)
    add_waiting(made, "desk", 1, args.places)
    return made


def several_servers(args: argparse.Namespace) -> Made:
    """M/M/c/K"""
    c, places = args.servers, args.places
    if places < c:
        raise PsiError(f"--places is at least --servers, {c}")
    made = Made(
        f"{c} servers with a common waiting room: M/M/c/K with c = {c} and K = {places}. Customers come at rate "
        f"{args.arrival}, each server serves at rate {args.service}, and who finds it full is lost. The rewards: "
        "whether all servers are busy, whether it is full, and how many wait."
    )
    made.comment += by_formula(args, c, places)
    made.net.queue("calls", places).event("ring", "arrival", args.arrival, to=["calls"])
    add_servers(made, "calls", args.service, c, "answer")
    made.net.reward("all-busy", "above", ["calls"], level=c - 1)
    add_waiting(made, "calls", c, places)
    return made


def erlang_loss(args: argparse.Namespace) -> Made:
    """M/M/c/c"""
    c = args.servers
    made = Made(
        f"{c} telephone lines without a place to wait: M/M/c/c, whose loss is Erlang's formula B. Calls come at rate "
        f"{args.arrival} and last for a time of rate {args.service}. The reward: whether a call that comes is lost."
    )
    made.comment += by_formula(args, c, c)
    made.net.queue("lines", c).event("call", "arrival", args.arrival, to=["lines"])
    add_servers(made, "lines", args.service, c, "end")
    add_full(made, "lost", "lines", c)
    return made


def abandonment(args: argparse.Namespace) -> Made:
    """M/M/c/K+M"""
    made = several_servers(args)
    made.comment = (
        f"{args.servers} servers with a common waiting room of customers without patience: M/M/c/K+M, or Erlang A, "
        f"with c = {args.servers} and K = {args.places}. Customers come at rate {args.arrival}, each server serves "
        f"at rate {args.service}, and each who waits gives up at rate {args.patience}. The rewards: whether all "
        "servers are busy, whether it is full, and how many wait; the rate at which customers give up is "
        f"{args.patience} times the mean of waiting."
    )
    made.comment += by_formula(args, args.servers, args.places, args.patience)
    for least in range(args.servers + 1, args.places + 1):
        part = [{"queue": "calls", "least": least, "shift": -1}]
        made.net.event(f"give-up-{least - args.servers}", "guarded", args.patience, part=part)
    return made


def batches(args: argparse.Namespace) -> Made:
    """M^b/M/c/K"""
    made = Made(
        f"Groups of {args.size} who come together at rate {args.arrival} to a room of "
        f"{args.places} places with {args.servers} servers of rate {args.service} each; a group "
        "that finds no room for all of it is lost. A batch isn't monotone, so a longer past, or a "
        "greater split, may be needed. The reward: whether a group would be lost."
    )
    if args.size > args.places or args.servers > min(args.places, MOST_SERVERS):
        raise PsiError("--size and --servers are at most --places, and --servers at most 64")
    made.net.queue("room", args.places).event("group", "batch", args.arrival, to=["room"], size=args.size)
    add_servers(made, "room", args.service, args.servers, "leave")
    made.net.reward("lost", "above", ["room"], level=args.places - args.size)
    return made


def line(args: argparse.Namespace) -> Made:
    """a tandem line with blocking"""
    rates = args.service
    places = as_many(args.places, len(rates), "--places")
    servers = as_many(args.servers or [1], len(rates), "--servers")
    if any(count > min(capacity, MOST_SERVERS) for count, capacity in zip(servers, places)):
        raise PsiError("--servers are at most as many as --places, and at most 64")
    kind = "is lost" if args.lost else "stays, and blocks its server"
    made = Made(
        f"A production line of {len(rates)} stages one behind the other, of rates {listed(rates)} "
        f"for each server, with {listed(places)} places and {listed(servers)} servers. Parts come "
        f"at rate {args.arrival}; one that finds the next stage full {kind}. The rewards: the "
        "parts in all, and whether the first stage is full, when a part that comes is lost."
    )
    names = numbered("stage", len(rates))
    made.net.event("deliver", "arrival", args.arrival, to=[names[0]])
    for place, (name, capacity, count, rate) in enumerate(zip(names, places, servers, rates)):
        to = names[place + 1 : place + 2]
        keys: Table = {"to": to, "full": "lost" if args.lost else "stay"} if to else {}
        made.net.queue(name, capacity, count).event(f"done-{place + 1}", "service", rate, source=name, **keys)
    made.net.reward("parts", "linear", names, weights=[1] * len(names))
    add_full(made, "full", names[0], places[0])
    return made


def overflow(args: argparse.Namespace) -> Made:
    """lines with overflow"""
    lines = args.servers
    if max(lines) > MOST_SERVERS:
        raise PsiError("each of --servers is at most 64")
    made = Made(
        f"Groups of {listed(lines)} telephone lines: a call goes to the first group that has a free line, and is "
        f"lost where none has. Calls come at rate {args.arrival} and last for a time of rate {args.service}. The "
        "rewards: whether the first group is full, and how many groups are."
    )
    names = numbered("group", len(lines))
    made.net.event("call", "arrival", args.arrival, to=[*names])
    for name, count in zip(names, lines):
        made.net.queue(name, count, count).event(f"{name}-end", "service", args.service, source=name)
    add_full(made, "first-full", names[0], lines[0])
    if len({*lines}) == 1:
        made.net.reward("groups-full", "above", names, level=lines[0] - 1)
    else:
        made.net.reward("groups-full", "table", names, table=[[0] * count + [1] for count in lines])
    return made


def shortest_queue(args: argparse.Namespace) -> Made:
    """join the shortest queue"""
    rates = args.service
    made = Made(
        f"Join the shortest of {len(rates)} queues of {args.places} places each: customers come "
        f"at rate {args.arrival}, and the servers' rates are {listed(rates)}. Who finds all full "
        "is lost. The rewards: the customers in all, and the longest queue."
    )
    names = numbered("queue", len(rates))
    made.net.event("come", "index", args.arrival, to=names, table=[[*range(args.places)]] * len(names))
    add_stations(made, names, [args.places] * len(rates), rates)
    made.net.reward("customers", "linear", names, weights=[1] * len(names))
    made.net.reward("longest", "greatest", names)
    return made


def closed(args: argparse.Namespace) -> Made:
    """a closed ring"""
    rates, total = args.service, args.customers
    made = Made(
        f"A closed ring of {len(rates)} queues, in which {total} customers go round for ever; the "
        f"rates are {listed(rates)}. Each queue has room for all of them. It is sampled by `psi "
        f"closed FILE 0 0 {total}` and `psi-many FILE 0 0 1000 --closed {total}`; its means are "
        f"those of mean value analysis, `mean_values.py FILE {total}`."
    )
    if len(rates) < 2:
        raise PsiError("--service has at least two rates")
    names = numbered("queue", len(rates))
    following = [(place + 1) % len(rates) for place in range(len(rates))]
    rows = [[rate * (place == after) for place in range(len(rates))] for rate, after in zip(rates, following)]
    means = means_of(rows, total)
    made.comment += f" They are {listed(f'{mean:.6g}' for mean in means)}."
    for name, rate, after in zip(names, rates, following):
        made.net.queue(name, total).event(f"{name}-done", "service", rate, name, [names[after]], full="stay")
    return made


def breakdowns(args: argparse.Namespace) -> Made:
    """breakdown and repair"""
    made = Made(
        f"A machine that breaks down at rate {args.breaks} and is repaired at rate {args.repair}, with {args.places} "
        f"places for its jobs, which come at rate {args.arrival} and are done at rate {args.service} while it works. "
        "A queue of one place holds whether it is broken. The reward: whether a job that comes is lost."
    )
    made.net.queue("jobs", args.places).queue("broken", 1).event("come", "arrival", args.arrival, to=["jobs"])
    part = [{"queue": "broken", "most": 0}, {"queue": "jobs", "least": 1, "shift": -1}]
    made.net.event("serve", "guarded", args.service, part=part)
    made.net.event("break", "arrival", args.breaks, to=["broken"])
    made.net.event("repair", "service", args.repair, source="broken")
    add_full(made, "full", "jobs", args.places)
    return made


def priority(args: argparse.Namespace) -> Made:
    """preemptive priority"""
    arrivals, services = as_many(args.arrival, 2, "--arrival"), as_many(args.service, 2, "--service")
    places = as_many(args.places, 2, "--places")
    made = Made(
        "One server of two classes, the first of which goes before the second at any time (preemptive priority). "
        f"They come at rates {listed(arrivals)}, are served at rates {listed(services)}, and have {listed(places)} "
        "places. The rewards: whether each class is full."
    )
    for name, rate, capacity in zip(("first", "second"), arrivals, places):
        made.net.queue(name, capacity).event(f"{name}-comes", "arrival", rate, to=[name])
        add_full(made, f"{name}-full", name, capacity)
    made.net.event("serve-first", "service", services[0], source="first")
    part = [{"queue": "first", "most": 0}, {"queue": "second", "least": 1, "shift": -1}]
    made.net.event("serve-second", "guarded", services[1], part=part)
    return made


def fork_join(args: argparse.Namespace) -> Made:
    """fork and join"""
    rates = args.service
    if len(rates) < 2:
        raise PsiError("--service has at least two rates")
    places = as_many(args.places, len(rates), "--places")
    made = Made(
        f"Orders that come at rate {args.arrival} and are parted into {len(rates)} pieces of "
        f"work, each with its own server, of rates {listed(rates)}, and {listed(places)} places; "
        "an order is lost where one of them is full. The reward: the pieces in all."
    )
    names = numbered("part", len(rates))
    made.net.event("order", "fork", args.arrival, to=names)
    add_stations(made, names, places, rates)
    made.net.reward("pieces", "linear", names, weights=[1] * len(names))
    return made


def erlang_service(args: argparse.Namespace) -> Made:
    """M/E_k/1/K"""
    phases = args.phases
    made = Made(
        f"A server whose service has {phases} phases one behind the other: M/E_k/1/K with k = {phases} and K = "
        f"{args.places}. Customers come at rate {args.arrival}; the mean service takes a time of 1 / {args.service}, "
        f"so each phase has {phases} times that rate. The queue phase holds which one is under way. The rewards: "
        "whether it is full, and how many wait."
    )
    made.net.queue("jobs", args.places).queue("phase", phases - 1)
    made.net.event("come", "arrival", args.arrival, to=["jobs"])
    rate = args.service * phases
    part: list[Table] = [{"queue": "jobs", "least": 1}, {"queue": "phase", "most": phases - 2, "shift": 1}]
    made.net.event("next-phase", "guarded", rate, part=part)
    part = [{"queue": "jobs", "least": 1, "shift": -1}]
    part.append({"queue": "phase", "least": phases - 1, "shift": 1 - phases})
    made.net.event("done", "guarded", rate, part=part)
    add_waiting(made, "jobs", 1, args.places)
    return made


def hyperexponential(args: argparse.Namespace) -> Made:
    """M/H_2/1/K"""
    quick, slow = as_many(args.service, 2, "--service")
    share = args.quick
    made = Made(
        f"A server whose service is quick, of rate {quick}, with probability {share}, and slow, of "
        f"rate {slow}, otherwise: M/H_2/1/K with K = {args.places}. Customers come at rate "
        f"{args.arrival}. The queue slow holds the kind of the service under way, which is drawn "
        "where the one before ends. The rewards: whether it is full, and how many wait."
    )
    made.net.queue("jobs", args.places).queue("slow", 1).event("come", "arrival", args.arrival, to=["jobs"])
    ends = {"quick": ({"most": 0}, quick), "slow": ({"least": 1}, slow)}
    for kind, (guard, rate) in ends.items():
        for after, part_of, number in (("quick", share, 0), ("slow", 1 - share, 1)):
            phase: Table = {"queue": "slow", **guard}
            phase |= {"shift": number - (kind == "slow")} if number != (kind == "slow") else {}
            part = [{"queue": "jobs", "least": 1, "shift": -1}, phase]
            made.net.event(f"{kind}-then-{after}", "guarded", rate * part_of, part=part)
    add_waiting(made, "jobs", 1, args.places)
    return made


def rework(args: argparse.Namespace) -> Made:
    """two stages with rework"""
    rates, places = as_many(args.service, 2, "--service"), as_many(args.places, 2, "--places")
    made = Made(
        f"Parts that come at rate {args.arrival} to work, of rate {rates[0]}, and go on to a test, of rate "
        f"{rates[1]}, from which each goes back to work with probability {args.again}; {listed(places)} places. Who "
        "finds no room stays where it is. The rewards: the parts in all, and whether work is full."
    )
    made.net.queue("work", places[0]).queue("test", places[1]).event("come", "arrival", args.arrival, to=["work"])
    made.net.event("worked", "service", rates[0], source="work", to=["test"], full="stay")
    made.net.event("good", "service", rates[1] * (1 - args.again), source="test")
    made.net.event("bad", "service", rates[1] * args.again, source="test", to=["work"], full="stay")
    made.net.reward("parts", "linear", ["work", "test"], weights=[1, 1])
    add_full(made, "full", "work", places[0])
    return made


def as_many(values: list[Value], count: int, option: str) -> list[Value]:
    """As many values as are wanted: one stands for all."""
    if len(values) == 1:
        return values * count
    if len(values) != count:
        raise PsiError(f"{option} has one value, or {count}")
    return values


def listed(values: Iterable[object]) -> str:
    """Values in a sentence."""
    texts = [*map(str, values)]
    return texts[0] if len(texts) == 1 else ", ".join(texts[:-1]) + " and " + texts[-1]


def made_whole(net: Network) -> tuple[Fraction, Fraction]:
    """Makes all rates whole numbers: by a common unit where the format has room for it, else by the
    greatest one that it has. Gives the factor, and by how much of itself a rate is off at most."""
    events = net.table["event"]
    rates: list[Fraction] = [Fraction(event["rate"]) for event in events]
    total = sum(rate * net.servers_of(event) for rate, event in zip(rates, events))
    if sum(map(net.servers_of, events)) > MOST_EVENTS:
        raise PsiError(f"there would be more than {MOST_EVENTS:,} events, counted over servers")
    exact = Fraction(math.lcm(*(rate.denominator for rate in rates)))
    exact /= math.gcd(*(int(rate * exact) for rate in rates))
    most = Fraction(min(MOST_TOTAL / total, MOST_RATE / max(rates)))
    factor = exact if exact <= most else most
    off: Fraction = Fraction(0)
    # Rounding may bring the sum above its bound.
    while True:
        numbers = [max(1, round(rate * factor)) for rate in rates]
        whole = sum(number * net.servers_of(event) for number, event in zip(numbers, events))
        if whole <= MOST_TOTAL and max(numbers) <= MOST_RATE:
            break
        factor *= Fraction(999, 1000)
    for event, rate, number in zip(events, rates, numbers):
        off = max(off, abs(number / (rate * factor) - 1))
        event["rate"] = number
    return factor, off
