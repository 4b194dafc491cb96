"""The plan: which crate is proved next, and with how many jobs."""

import re
from collections.abc import Container, Iterable, Mapping, Sequence
from dataclasses import dataclass

from crates import Crate, Fault

# More jobs than this help a proof no further.
MOST_JOBS = 4
# What each further job of a proof takes of the memory of the first.
FURTHER_JOB = 0.6
ROW = re.compile(r"(\w+)\s+([0-9]+(?:\.[0-9]+)?)")


def read_table(text: str) -> dict[str, float]:
    """The processor seconds that the proofs of the crates took when they were measured last."""
    found: dict[str, float] = {}
    for line in text.splitlines():
        if line.strip() and not line.startswith("#"):
            row = ROW.fullmatch(line.strip())
            if row is None:
                raise Fault(f"build/seconds.txt has the line '{line}'; expected a crate and its seconds")
            found[row[1]] = float(row[2])
    return found


def weigh(lines: Mapping[str, int], table: Mapping[str, float]) -> dict[str, float]:
    """What each crate weighs: its seconds, or, where it isn't in the table, its lines at the rate of those that are."""
    measured = [name for name in lines if name in table]
    of_lines = sum(lines[name] for name in measured)
    rate = sum(table[name] for name in measured) / of_lines if of_lines else 1.0
    return {name: table[name] if name in table else count * rate for name, count in lines.items()}


def chains(crates: Sequence[Crate], weights: Mapping[str, float]) -> dict[str, float]:
    """For each crate the weight of the longest chain that begins with it and goes up. The lowest crates come first."""
    found = {it.name: 0.0 for it in crates}
    for crate in reversed(crates):
        found[crate.name] += weights[crate.name]
        for name in crate.names:
            found[name] = max(found[name], found[crate.name])
    return found


def longest_chain(crates: Sequence[Crate], weights: Mapping[str, float]) -> list[str]:
    """The crates of the longest chain, the lowest first."""
    best: dict[str, tuple[float, list[str]]] = {}
    for crate in crates:
        nothing: tuple[float, list[str]] = (0.0, [])
        behind = max((best[name] for name in crate.names), default=nothing)
        best[crate.name] = (behind[0] + weights[crate.name], [*behind[1], crate.name])
    return max(best.values())[1] if best else []


@dataclass(frozen=True)
class Start:
    """A crate that is to be proved now, and the jobs that its proof may have."""

    name: str
    jobs: int


def memory_of(jobs: int) -> float:
    """What a proof with this number of jobs takes, in proofs of one job."""
    return 1 + FURTHER_JOB * (jobs - 1)


def starts(
    ready: Iterable[str],
    running: Sequence[Start],
    processors: int,
    proofs: float,
    behind: Mapping[str, float],
    single: Container[str] = (),
) -> list[Start]:
    """Which of the ready crates begin now, in their order. `proofs` is how many proofs of one job the memory holds, and
    `behind` what the longest chain weighs that begins with a crate. A crate has the processors that no other ready crate
    waits for, and the one with the longest chain of all half of them; those in `single` have one job all the same. One is
    always at work, however little there is."""
    left, begun = list(ready), list[Start]()
    while left:
        at_work = [*running, *begun]
        idle = processors - sum(it.jobs for it in at_work)
        room = proofs - sum(memory_of(it.jobs) for it in at_work)
        if at_work and (idle < 1 or room < 1):
            break
        is_longest = all(behind[left[0]] > behind[it.name] for it in at_work)
        share = max(idle // len(left), processors // 2 if is_longest else 1)
        most = 1 if left[0] in single else MOST_JOBS
        jobs = min(most, share, idle, 1 + int((room - 1) / FURTHER_JOB))
        begun.append(Start(left.pop(0), max(jobs, 1)))
    return begun
