"""python3 -m oracle.forward_laws RATE SERVICE CAPACITY STEPS..

Forward runs of M/M/1/K in plain Python: a step is a random word, whose number modulo the least power
of two that isn't below the sum of the rates tells whether one comes, is served, or neither.
"""

import sys

# The share of the words that move so, and what they make of each number.
Move = tuple[float, list[int]]


def moves_of(rate: int, service: int, room: int) -> list[Move]:
    """What a step may make of each number, with its share of the words."""
    modulus = 1
    while modulus < rate + service:
        modulus *= 2
    numbers = range(room + 1)
    return [
        (rate / modulus, [min(number + 1, room) for number in numbers]),
        (service / modulus, [max(number - 1, 0) for number in numbers]),
        (1 - (rate + service) / modulus, [*numbers]),
    ]


def law_after(moves: list[Move], begin: int, steps: int) -> list[float]:
    """The law of the number after that many steps."""
    law = [float(number == begin) for number in range(len(moves[0][1]))]
    for _ in range(steps):
        following = [0.0] * len(law)
        for share, after in moves:
            for number, probability in enumerate(law):
                following[after[number]] += share * probability
        law = following
    return law


def worst(moves: list[Move], law: list[float], steps: int) -> float:
    """How far the law after that many steps is from another at most, over all beginnings."""
    return max(
        sum(abs(one - other) for one, other in zip(law_after(moves, begin, steps), law)) / 2
        for begin in range(len(law))
    )


def law_of_meeting(moves: list[Move], steps: int = 5_000) -> list[float]:
    """The law of the number at which the least and the greatest run are one for the first time."""
    last = len(moves[0][1]) - 1
    apart, met = {(0, last): 1.0}, [0.0] * (last + 1)
    for _ in range(steps):
        following: dict[tuple[int, int], float] = {}
        for (low, high), probability in apart.items():
            for share, after in moves:
                pair = after[low], after[high]
                if pair[0] == pair[1]:
                    met[pair[0]] += share * probability
                else:
                    following[pair] = following.get(pair, 0) + share * probability
        apart = following
    return met


def main() -> None:
    """Prints how many of 100 runs meet in each state, and how far the worst of the laws is off after each
    number of steps."""
    rate, service, capacity, *steps = map(int, sys.argv[1:])
    moves = moves_of(rate, service, capacity)
    for state, share in enumerate(law_of_meeting(moves)):
        print(f"meets-at-{state} {100 * share:.0f}")
    weights = [(rate / service) ** number for number in range(capacity + 1)]
    law = [weight / sum(weights) for weight in weights]
    for number in steps:
        print(f"off-{number} {worst(moves, law, number):.3f}")


if __name__ == "__main__":
    main()
