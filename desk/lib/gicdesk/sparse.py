"""A solver in floating-point numbers for networks of resistances: it chooses what is tried, and no number of it is shown."""

import heapq
from collections.abc import Mapping


class Factored:
    """A symmetric matrix whose solutions are known to be single ones, split into triangles; rows with the fewest others first."""

    def __init__(self, rows: Mapping[str, Mapping[str, float]]) -> None:
        left = {key: dict(row) for key, row in rows.items()}
        waiting = [(len(row), key) for key, row in left.items()]
        heapq.heapify(waiting)
        self.columns: list[tuple[str, float, list[tuple[str, float]]]] = []
        while waiting:
            size, key = heapq.heappop(waiting)
            if key not in left or size != len(left[key]):
                continue
            row = left.pop(key)
            pivot = row.pop(key)
            for other, value in row.items():
                target = left[other]
                del target[key]
                for third, entry in row.items():
                    target[third] = target.get(third, 0.0) - entry * value / pivot
                heapq.heappush(waiting, (len(target), other))
            self.columns.append((key, pivot, [(other, value / pivot) for other, value in row.items()]))

    def solved(self, right: Mapping[str, complex]) -> dict[str, complex]:
        """The solution for a right side, of which entries of 0 may be missing."""
        found = {key: right.get(key, 0j) for key, _, _ in self.columns}
        for key, _, column in self.columns:
            value = found[key]
            if value:
                for other, factor in column:
                    found[other] -= factor * value
        for key, pivot, column in reversed(self.columns):
            found[key] = found[key] / pivot - sum(factor * found[other] for other, factor in column)
        return found
