"""Numbers that are known exactly, or to lie in a small interval; and intervals as reports have them."""

from __future__ import annotations

from collections.abc import Iterable, Sequence
from fractions import Fraction
from math import lcm
from typing import NamedTuple, Union


class Tie(Exception):
    """A value is not known well enough to be compared: it has to be solved exactly."""


class Quantity(NamedTuple):
    """What is linear in some base fields: for each of them a numerator, and how far that may be off; and the one
    denominator."""

    numerators: Sequence[int]
    denominator: int
    radii: Sequence[int]

    def floats(self) -> list[float]:
        return [numerator / self.denominator for numerator in self.numerators]


class Value(NamedTuple):
    """A number from low/denominator to high/denominator, which are the same where it is known."""

    low: int
    high: int
    denominator: int


class Interval(NamedTuple):
    """Two ends as a report tells them."""

    low: int
    high: int


NOTHING = Interval(0, 0)


def magnitude(interval: Interval) -> Interval:
    """The interval of the absolute value."""
    return Interval(max(interval.low, -interval.high, 0), max(-interval.low, interval.high))


def value(quantity: Quantity, coefficients: Iterable[int]) -> Value:
    """The value of a quantity at the coefficients of a step."""
    factors = list(coefficients)
    centre = sum(factor * number for factor, number in zip(factors, quantity.numerators))
    radius = sum(abs(factor) * number for factor, number in zip(factors, quantity.radii))
    return Value(centre - radius, centre + radius, quantity.denominator)


def absolute(exact: Value) -> Value:
    low, high, denominator = exact
    if low >= 0:
        return exact
    return Value(-high, -low, denominator) if high <= 0 else Value(0, max(-low, high), denominator)


def over_one_denominator(exact: Value, number: Union[int, Fraction]) -> tuple[int, int, int]:
    """The two ends and the number, a whole one or a fraction, times one factor."""
    low, high, denominator = exact
    if isinstance(number, Fraction):
        return low * number.denominator, high * number.denominator, number.numerator * denominator
    return low, high, number * denominator


def at_least(exact: Value, number: Union[int, Fraction]) -> bool:
    low, high, limit = over_one_denominator(exact, number)
    if low >= limit or high < limit:
        return low >= limit
    raise Tie


def at_most(exact: Value, number: Union[int, Fraction]) -> bool:
    low, high, limit = over_one_denominator(exact, number)
    if high <= limit or low > limit:
        return high <= limit
    raise Tie


def sum_of_squares(first: Value, second: Value) -> Value:
    """The sum of the squares of two values, as a value."""
    first, second = absolute(first), absolute(second)
    denominator = lcm(first.denominator, second.denominator)
    factor, other = denominator // first.denominator, denominator // second.denominator
    low = (first.low * factor) ** 2 + (second.low * other) ** 2
    high = (first.high * factor) ** 2 + (second.high * other) ** 2
    return Value(low, high, denominator**2)


def total(parts: Sequence[tuple[int, Value]]) -> Value:
    """The sum of (factor, value), factors being at least 0, as a value."""
    denominator = lcm(1, *(exact.denominator for _, exact in parts))
    low = sum(factor * exact.low * (denominator // exact.denominator) for factor, exact in parts)
    high = sum(factor * exact.high * (denominator // exact.denominator) for factor, exact in parts)
    return Value(low, high, denominator)


def rounded_down(exact: Value) -> int:
    low, high, denominator = exact
    if low // denominator != high // denominator:
        raise Tie
    return low // denominator


def rounded_up(exact: Value) -> int:
    low, high, denominator = exact
    return -rounded_down(Value(-high, -low, denominator))


def approximately(exact: Value) -> float:
    return (exact.low + exact.high) / (2 * exact.denominator)
