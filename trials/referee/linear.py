"""Linear systems of resistance networks, solved exactly or within a proved radius.

A system has `size` nodes, conductances, and some right-hand sides: of each node the sum over its conductances g of
g·(x - x of the other end) is its right-hand side. Each node has a way to earth. Nothing here is taken from the method of
the program.
"""

from __future__ import annotations

import heapq
from collections.abc import Callable, Sequence
from decimal import Context, Decimal, localcontext
from fractions import Fraction
from math import lcm
from typing import NamedTuple, Optional, TypeVar

PRIME = 2**1279 - 1
BALL_BITS = 640
BALL_DIGITS = 260
Number = TypeVar("Number", Fraction, Decimal, float)
# A matrix of whole numbers: for each row its entries by their columns.
Matrix = list[dict[int, int]]
# What a node hands to its neighbours when it is taken out, as (neighbour, weight).
Shares = list[tuple[int, Number]]


class Conductance(NamedTuple):
    """A positive conductance between two nodes, or from one to earth."""

    start: int
    end: Optional[int]
    siemens: Fraction


class Solved(NamedTuple):
    """The numerators of each solution and their one denominator, and for each how far a numerator may be off."""

    numerators: list[list[int]]
    denominator: int
    radii: list[int]


class Fractions(NamedTuple):
    """Numerators over one denominator."""

    numerators: list[int]
    denominator: int


def eliminate(
    weights: list[dict[int, Number]], earths: list[Number], sides: list[list[Number]], zero: Number
) -> list[list[Number]]:
    """Solves the system without a subtraction, so that no digit is lost in it; one solution for each right-hand side.

    `weights` has for each node the conductances to others by node, `earths` those to earth. Both are used up.
    """
    size = len(weights)
    heap = [(len(weights[node]), node) for node in range(size)]
    heapq.heapify(heap)
    done = [False] * size
    order: list[tuple[int, Shares[Number], Number]] = []
    while heap:
        degree, node = heapq.heappop(heap)
        if done[node] or degree != len(weights[node]):
            continue
        done[node] = True
        row = list(weights[node].items())
        pivot = sum((weight for _, weight in row), earths[node])
        order.append((node, row, pivot))
        if pivot == 0:
            raise ZeroDivisionError("a component without earth")
        take_out(node, row, pivot, weights, earths, sides)
        for other, _ in row:
            heapq.heappush(heap, (len(weights[other]), other))
    return [solve_back(order, side, zero) for side in sides]


def take_out(
    node: int,
    row: Shares[Number],
    pivot: Number,
    weights: list[dict[int, Number]],
    earths: list[Number],
    sides: list[list[Number]],
) -> None:
    """Puts what runs through a node between its neighbours."""
    earth = earths[node]
    for other, weight in row:
        del weights[other][node]
        share = weight / pivot
        if earth != 0:
            earths[other] = earths[other] + share * earth
        for side in sides:
            if side[node] != 0:
                side[other] = side[other] + share * side[node]
        at_other = weights[other]
        for third, its_weight in row:
            if third != other:
                added, there = share * its_weight, at_other.get(third)
                at_other[third] = added if there is None else there + added


def solve_back(order: list[tuple[int, Shares[Number], Number]], side: list[Number], zero: Number) -> list[Number]:
    solution = [zero] * len(order)
    for node, row, pivot in reversed(order):
        total = side[node]
        for other, weight in row:
            if solution[other] != 0:
                total = total + weight * solution[other]
        solution[node] = total / pivot
    return solution


def tables(
    size: int, conductances: Sequence[Conductance], number: Callable[[Fraction], Number]
) -> tuple[list[dict[int, Number]], list[Number]]:
    """The conductances between nodes by node, and to earth, as numbers of a type."""
    zero = number(Fraction(0))
    weights: list[dict[int, Number]] = [{} for _ in range(size)]
    earths = [zero] * size
    for start, end, siemens in conductances:
        conductance = number(siemens)
        if end is None:
            earths[start] = earths[start] + conductance
        else:
            weights[start][end] = weights[start].get(end, zero) + conductance
            weights[end][start] = weights[end].get(start, zero) + conductance
    return weights, earths


def solve_by_fractions(size: int, conductances: Sequence[Conductance], sides: list[list[Fraction]]) -> Solved:
    """The exact solutions."""
    weights, earths = tables(size, conductances, Fraction)
    solutions = eliminate(weights, earths, [list(side) for side in sides], Fraction(0))
    denominator = lcm(1, *(number.denominator for solution in solutions for number in solution))
    numerators = [
        [number.numerator * (denominator // number.denominator) for number in solution] for solution in solutions
    ]
    return Solved(numerators, denominator, [0] * len(sides))


def whole_rows(
    size: int, conductances: Sequence[Conductance], sides: list[list[Fraction]]
) -> tuple[Matrix, list[list[int]]]:
    """The matrix and the right-hand sides, each row multiplied so that all its numbers are whole."""
    factors = [1] * size
    for start, end, conductance in conductances:
        for node in (start,) if end is None else (start, end):
            factors[node] = lcm(factors[node], conductance.denominator)
    for side in sides:
        for node in range(size):
            factors[node] = lcm(factors[node], side[node].denominator)
    matrix: Matrix = [{} for _ in range(size)]

    def add(row: int, column: int, conductance: Fraction) -> None:
        matrix[row][column] = matrix[row].get(column, 0) + int(conductance * factors[row])

    for start, end, conductance in conductances:
        add(start, start, conductance)
        if end is not None:
            add(end, end, conductance)
            add(start, end, -conductance)
            add(end, start, -conductance)
    return matrix, [[int(side[node] * factors[node]) for node in range(size)] for side in sides]


def fraction_of(residue: int, modulus: int) -> Optional[tuple[int, int]]:
    """A fraction of small numbers whose numerator is denominator times residue, but for the modulus, or None."""
    bound = 1 << (max(modulus.bit_length() - 2, 2) // 2)
    older, newer, older_factor, factor = modulus, residue % modulus, 0, 1
    while newer > bound:
        quotient = older // newer
        older, newer = newer, older - quotient * newer
        older_factor, factor = factor, older_factor - quotient * factor
    if factor < 0:
        newer, factor = -newer, -factor
    return None if factor == 0 or factor > bound else (newer, factor)


class Lifting:
    """The triangular factors of a whole matrix modulo PRIME, by which digits of solutions to that base are found."""

    def __init__(self, matrix: Matrix) -> None:
        self.size = len(matrix)
        self.rows = [list(row.items()) for row in matrix]
        self.lower: list[tuple[int, list[tuple[int, int]]]] = []
        self.upper: list[tuple[int, list[tuple[int, int]], int]] = []
        self.factorise([{column: number % PRIME for column, number in row.items()} for row in matrix])

    def factorise(self, rest: Matrix) -> None:
        heap = [(len(rest[node]), node) for node in range(self.size)]
        heapq.heapify(heap)
        done = [False] * self.size
        while heap:
            degree, node = heapq.heappop(heap)
            if done[node] or degree != len(rest[node]):
                continue
            done[node] = True
            inverse = pow(rest[node].pop(node), -1, PRIME)
            row = list(rest[node].items())
            steps = []
            for other, _ in row:
                factor = rest[other].pop(node) * inverse % PRIME
                steps.append((other, factor))
                for column, number in row:
                    rest[other][column] = (rest[other].get(column, 0) - factor * number) % PRIME
            self.lower.append((node, steps))
            self.upper.append((node, row, inverse))
            for other, _ in row:
                heapq.heappush(heap, (len(rest[other]), other))

    def digit(self, right_hand: list[int]) -> list[int]:
        """The solution modulo PRIME."""
        side = [number % PRIME for number in right_hand]
        for node, steps in self.lower:
            if side[node]:
                for other, factor in steps:
                    side[other] = (side[other] - factor * side[node]) % PRIME
        solution = [0] * self.size
        for node, row, inverse in reversed(self.upper):
            total = side[node] - sum(number * solution[column] for column, number in row)
            solution[node] = total * inverse % PRIME
        return solution

    def rest_behind(self, side: list[int], digit: list[int]) -> list[int]:
        """What is left of a right-hand side behind a digit, over PRIME."""
        rest = []
        for node in range(self.size):
            quotient, remainder = divmod(
                side[node] - sum(number * digit[column] for column, number in self.rows[node]), PRIME
            )
            assert remainder == 0
            rest.append(quotient)
        return rest

    def is_solution(self, numerators: list[int], denominator: int, side: list[int]) -> bool:
        return all(
            sum(number * numerators[column] for column, number in self.rows[node]) == denominator * side[node]
            for node in range(self.size)
        )

    def solve(self, side: list[int], factor: int) -> Fractions:
        """The solution, `factor` being a likely part of the denominator."""
        if not any(side):
            return Fractions([0] * self.size, 1)
        rest, wanted = [number * factor for number in side], 2
        digits: list[list[int]] = []
        while True:
            while len(digits) < wanted:
                digits.append(self.digit(rest))
                rest = self.rest_behind(rest, digits[-1])
            found = small_fractions(joined(digits), PRIME ** len(digits))
            if found is not None:
                numerators, denominator = found
                if self.is_solution(numerators, denominator * factor, side):
                    return Fractions(numerators, denominator * factor)
            wanted *= 2


def joined(digits: list[list[int]]) -> list[int]:
    """The numbers that lists of digits to the base PRIME are."""
    base = PRIME
    while len(digits) > 1:
        digits = [
            [low + base * high for low, high in zip(digits[place], digits[place + 1])]
            if place + 1 < len(digits)
            else digits[place]
            for place in range(0, len(digits), 2)
        ]
        base *= base
    return digits[0]


def small_fractions(residues: list[int], modulus: int) -> Optional[Fractions]:
    """Numerators over one denominator that are small beside the modulus, or None."""
    bound = 1 << (modulus.bit_length() // 2 + modulus.bit_length() // 4)
    denominator = 1
    for _ in range(500):
        numerators = []
        for residue in residues:
            number = residue * denominator % modulus
            number -= modulus if number > modulus >> 1 else 0
            if abs(number) > bound:
                break
            numerators.append(number)
        else:
            return Fractions(numerators, denominator)
        fraction = fraction_of(number, modulus)
        if fraction is None or fraction[1] == 1:
            return None
        denominator *= fraction[1]
    return None


def solve_by_lifting(size: int, conductances: Sequence[Conductance], sides: list[list[Fraction]]) -> Solved:
    """As `solve_by_fractions`, for larger systems."""
    matrix, whole_sides = whole_rows(size, conductances, sides)
    lifting, factor = Lifting(matrix), 1
    found: list[Fractions] = []
    for side in whole_sides:
        found.append(lifting.solve(side, factor))
        factor = found[-1].denominator if any(side) else factor
    denominator = lcm(1, *(own for _, own in found))
    numerators = [[number * (denominator // own) for number in numerators] for numerators, own in found]
    return Solved(numerators, denominator, [0] * len(sides))


def solve_by_balls(size: int, conductances: Sequence[Conductance], sides: list[list[Fraction]]) -> Solved:
    """Enclosures of the solutions, whose denominator is 2^BALL_BITS."""
    with localcontext(Context(prec=BALL_DIGITS)):

        def number(fraction: Fraction) -> Decimal:
            return Decimal(fraction.numerator) / Decimal(fraction.denominator)

        weights, earths = tables(size, conductances, number)
        rounded = [[number(entry) for entry in side] for side in sides]
        *solutions, walks = eliminate(weights, earths, rounded + [[Decimal(1)] * size], Decimal(0))
        scale = Decimal(2) ** BALL_BITS
        centres = [[int((entry * scale).to_integral_value()) for entry in solution] for solution in solutions]
        bounds = [Fraction(walk).limit_denominator(10**12) if walk < 10**9 else Fraction(int(walk)) for walk in walks]
    greatest = greatest_walk(size, conductances, bounds)
    radii = [
        int(residual(size, conductances, centre, side) * greatest) + 1 for centre, side in zip(centres, sides)
    ]
    assert all(radius < 1 << (BALL_BITS - 300) for radius in radii)
    return Solved(centres, 1 << BALL_BITS, radii)


def greatest_walk(size: int, conductances: Sequence[Conductance], walks: list[Fraction]) -> Fraction:
    """A bound of what right-hand sides of 1 give. The matrix takes `walks` to at least 1/2 at each node, and has no
    positive entry beside its diagonal, so twice `walks` is a bound."""
    taken = [Fraction(0)] * size
    for start, end, conductance in conductances:
        part = conductance * (walks[start] - (walks[end] if end is not None else 0))
        taken[start] += part
        if end is not None:
            taken[end] -= part
    assert min(taken) >= Fraction(1, 2) and min(walks) >= 0
    return 2 * max(walks)


def residual(size: int, conductances: Sequence[Conductance], centre: list[int], side: list[Fraction]) -> int:
    """The greatest residual of a solution over 2^BALL_BITS, in these units and rounded outward."""
    sums, slacks = [0] * size, [0] * size
    for start, end, conductance in conductances:
        drop = centre[start] - (centre[end] if end is not None else 0)
        current = conductance.numerator * drop // conductance.denominator
        sums[start] += current
        slacks[start] += 1
        if end is not None:
            sums[end] -= current
            slacks[end] += 1
    worst = 0
    for node in range(size):
        entry = side[node]
        wanted = (entry.numerator << BALL_BITS) // entry.denominator
        worst = max(worst, abs(wanted - sums[node]) + slacks[node] + 1)
    return worst
