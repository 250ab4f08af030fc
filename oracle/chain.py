"""python3 -m oracle.chain NET

Solves the balance equations of a small network by state elimination (Grassmann, Taksar and Heyman 1985),
without a subtraction, and prints as CSV how many states can be reached, the mean of each queue and of each
reward, and how often each queue holds each number of customers.
"""

import sys
import tomllib

from oracle.plain_network import Network, State


def moves_of(net: Network) -> tuple[list[State], list[dict[int, float]]]:
    """The states that are reached from the empty one, and for each the rates to others."""
    states, place = [(0,) * len(net.caps)], {(0,) * len(net.caps): 0}
    moves: list[dict[int, float]] = []
    for state in states:
        rates: dict[int, float] = {}
        for event in net.events:
            after = event.after(state)
            if after not in place:
                place[after] = len(states)
                states.append(after)
            if after != state:
                rates[place[after]] = rates.get(place[after], 0) + event.rate
        moves.append(rates)
    return states, moves


def stationary(moves: list[dict[int, float]]) -> list[float]:
    """The stationary distribution, by the elimination of one state after the other, the last first."""
    into = [{start: rates[end] for start, rates in enumerate(moves) if end in rates} for end in range(len(moves))]
    for last in range(len(moves) - 1, 0, -1):
        out = {end: rate for end, rate in moves[last].items() if end < last}
        whole = sum(out.values())
        for start, rate in into[last].items():
            if start < last:
                into[last][start] = rate / whole
                for end, other in out.items():
                    if end != start:
                        more = moves[start].get(end, 0) + rate * other / whole
                        moves[start][end] = into[end][start] = more
    weights = [1.0]
    for state in range(1, len(moves)):
        weights.append(sum(weights[start] * rate for start, rate in into[state].items() if start < state))
    total = sum(weights)
    return [weight / total for weight in weights]


def main() -> None:
    with open(sys.argv[1], "rb") as file:
        net = Network(tomllib.load(file))
    states, moves = moves_of(net)
    shares = stationary(moves)
    print(f"item,name,value\nstates,-,{len(states)}")
    for place, queue in enumerate(net.queues):
        print(f"mean,{queue['name']},{sum(state[place] * share for state, share in zip(states, shares))}")
    for reward in net.rewards:
        print(f"mean,{reward.name},{sum(reward.value(state) * share for state, share in zip(states, shares))}")
    for place, queue in enumerate(net.queues):
        for number in range(queue["capacity"] + 1):
            share = sum(share for state, share in zip(states, shares) if state[place] == number)
            print(f"share-{number},{queue['name']},{share}")


if __name__ == "__main__":
    main()
