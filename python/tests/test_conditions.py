"""Conditions on samples: what they mean, beside Python's own evaluation, and what is refused."""

import itertools
import random

import pytest

from psi_tools.errors import PsiError
from psi_tools.model.conditions import FORM, MOST_CHARACTERS, MOST_DEPTH, Condition, column_of
from psi_tools.model.networks import Network

NET = (
    Network()
    .queue("a", 3)
    .queue("b", 4)
    .queue("far-away", 2)
    .queue("if", 1)
    .reward("cost", "linear", ["a", "b"], weights=[2, -3])
    .reward("a", "above", ["b"], level=1)
    .reward("high-1", "above", ["a"], level=1)
)
NAMES = ("a", "b", "cost")


def numbers(dice: random.Random, depth: int) -> str:
    """A number of a condition, as text."""
    if not depth or dice.random() < 0.3:
        return dice.choice([*NAMES, str(dice.randrange(5))])
    if dice.random() < 0.2:
        return dice.choice("-+") + f"({numbers(dice, depth - 1)})"
    left, right = numbers(dice, depth - 1), numbers(dice, depth - 1)
    return f"({left} {dice.choice('+-*')} {right})" if dice.random() < 0.5 else f"{left} {dice.choice('+-*')} {right}"


def conditions(dice: random.Random, depth: int) -> str:
    """A condition, as text."""
    kind = dice.random() if depth else 1
    if kind < 0.2:
        return f"not {conditions(dice, depth - 1)}"
    if kind < 0.6:
        parts = [f"({conditions(dice, depth - 1)})" for _ in range(dice.randrange(2, 4))]
        return dice.choice((" and ", " or ")).join(parts)
    comparisons = [dice.choice(("==", "!=", "<", "<=", ">", ">=")) for _ in range(dice.choice((1, 1, 2)))]
    text = numbers(dice, 2)
    for comparison in comparisons:
        text += f" {comparison} {numbers(dice, 2)}"
    return text


def test_a_condition_means_what_it_means_in_python() -> None:
    dice, many, seen = random.Random(56), 0, set()
    for _ in range(300):
        text = conditions(dice, 3)
        if not any(name in text for name in NAMES):
            continue
        many += 1
        condition, code = Condition(NET, text), compile(text, "text", "eval")
        for a, b, cost in itertools.product(range(4), range(5), (-9, 0, 2)):
            wanted = bool(eval(code, {"__builtins__": {}}, {"a": a, "b": b, "cost": cost}))
            values = {"queue.a": a, "queue.b": b, "reward.cost": cost}
            assert condition.holds([values[column] for column in condition.columns]) == wanted, text
            seen.add(wanted)
    assert many > 250
    assert seen == {False, True}


@pytest.mark.parametrize(
    "text, columns",
    [
        ("a == 0 and b >= 3", ["queue.a", "queue.b"]),
        ("b < a <= b", ["queue.b", "queue.a"]),
        (" a==0 ", ["queue.a"]),
        ("'far-away' > 0 and a < 2", ["queue.far-away", "queue.a"]),
        ('"if" == 1', ["queue.if"]),
        ("'reward.a' == 1 and a == 0", ["reward.a", "queue.a"]),
        ("'high-1' == 1", ["reward.high-1"]),
        ("'queue.a' == a", ["queue.a"]),
        ("(a\t== 0)", ["queue.a"]),
        ("a == 0 # b", ["queue.a"]),
        ("a == 99999999999999999999", ["queue.a"]),
        ("+".join(["a"] * MOST_DEPTH) + " > 7", ["queue.a"]),
        ("(" * 90 + "a" + ")" * 90 + " == 0", ["queue.a"]),
    ],
)
def test_columns_are_those_that_are_named(text: str, columns: list[str]) -> None:
    assert Condition(NET, text).columns == columns


@pytest.mark.parametrize(
    "text",
    [
        *("", " ", "\t", "#", "# a == 0", "a == 0;", "a = 0", "a == ", "== 0", "a b", "a === 0", "(a == 0", "a == 0)"),
        *("a", "1", "a + 1", "a and b == 0", "not a", "(a == 0) + 1 > 0", "(a == 0) == (b == 0)", "a == (b == 0)"),
        *("1 == 1", "not 0 < 1", "True", "None", "a == True", "a == None", "a is 0", "a in b", "a not in b"),
        "a == ...",
        *("a == 1.5", "a == 1e3", "a == 1j", "a / 2 == 1", "a // 2 == 1", "a % 2 == 1", "a ** 2 == 1", "~a == 1"),
        *("a << 9 == 1", "a >> 1 == 1", "a | b == 1", "a & b == 1", "a ^ b == 1", "a @ b == 1"),
        *("9**9**9**9 > a", "a ** 9999999999 > 0", f"a == {'9' * 21}", f"a == {'9' * 1999}", f"a < 0x{'f' * 400}"),
        *("a.b == 0", "a.__class__ == 0", "().__class__ == a", "queue.a == 0", "a[0] == 0", "a['b'] == 0", "a[:] == 0"),
        *("a() == 0", "print(a) == 0", "__import__('os').system('true') == a", "open('net.toml') == a"),
        "eval('a') == 0",
        *("[a for a in b] == a", "{a} == 0", "{a: b} == 0", "(a, b) == 0", "[a] == 0", "a, b", "(x for x in b) == a"),
        *("lambda: a == 0", "(lambda: 0)() == a", "a if b else a == 0", "a == 0 if b else a == 1", "(a := 3) == 3"),
        *("*a == 0", "yield a", "await a == 0", "f'{a}' == 0", "b'a' == 0", "f'{a}' == a", "'a' 'zz' == 0"),
        *("c == 0", "A == 0", "__builtins__ == 0", "'__class__' == 0", "'' == 0", "'a b' == 0", "'queue.cost' == 0"),
        *("'reward.b' == 0", "far-away > 0", "if == 1", "'a\\x00' == 0", "a == 0\x00", "a == 0\nb == 0", "a == 0\r"),
        "\ta",
        *("а == 0", "ａ == 0", "a == ０", "a ≥ 0", "a == 0 ∧ b == 0", "𝒂 == 0", "a\u200b == 0", "'ａ' == 0"),
        "\ufeffa == 0",
        *("a == 0 " * 9, "not " * 400 + "a == 0", "-" * 900 + "a == 0", "(" * 900 + "a == 0" + ")" * 900),
        *("-(" * 150 + "a" + ")" * 150 + " == 0", "a+" * 900 + "a == 0", "a == 0" + " " * MOST_CHARACTERS),
        *("0x == a", "1for a in b", "1_ == a", "a == 01", "0o9 == a", "a == 1if b", "\\ == a", "a == 0 \\", "`a` == 0"),
        *("import os", "del a", "assert a", "pass", "a: int == 0", "$a == 0", "a == 0 && b == 0", "!a"),
    ],
)
def test_what_is_no_condition_is_refused(text: str) -> None:
    with pytest.raises(PsiError) as fault:
        Condition(NET, text)
    message = str(fault.value)
    assert fault.value.status == 2
    assert message.isprintable() and len(message) < 400


def test_messages_say_what_is_wrong() -> None:
    for text, message in (
        ("a ** 2 > 1", f"the condition has `a ** 2` where it can't stand: {FORM}"),
        ("a.b == 0", f"the condition has `a.b` where it can't stand: {FORM}"),
        ("c == 0", "the network has no queue and no reward c"),
        ("1 == 1", "the condition names no queue and no reward"),
        ("-" * 900 + "a == 0", f"the condition is nested more than {MOST_DEPTH} deep"),
        ("a" * 2_001, "the condition has more than 2,000 characters"),
        ("ａ == 0", "the condition has characters that no name, number or operator has"),
    ):
        with pytest.raises(PsiError) as fault:
            Condition(NET, text)
        assert str(fault.value) == message


def test_a_name_is_that_of_a_queue_first() -> None:
    assert column_of(NET, "a") == "queue.a"
    assert column_of(NET, "a", is_reward=True) == "reward.a"
    assert column_of(NET, "reward.a") == column_of(NET, "reward.a", is_reward=True) == "reward.a"
    assert column_of(NET, "queue.a", is_reward=True) == "queue.a"
    for name, is_reward in (("b", True), ("reward.b", False), ("queue.cost", False), ("stream", False), (".a", False)):
        with pytest.raises(PsiError, match="^the network has no "):
            column_of(NET, name, is_reward)
