"""Shows how a build went: when the proof of each crate began and ended, its processor time, and the longest chain.

usage: times.py TOP           a table of the last build in the checkout TOP
       times.py TOP --seconds the same as a table of processor seconds, as build/seconds.txt keeps it"""

import sys
from collections.abc import Sequence
from dataclasses import dataclass
from pathlib import Path

from builder import TIMES
from crates import PROGRAM, Crate, Fault, below, read_crates
from plan import longest_chain
from snapshot import out_of
from sources import LIST

HEAD = "# Processor seconds of the proof of each crate, as bench/build.sh last measured it; a crate that is missing counts by its lines.\n"


@dataclass(frozen=True)
class Time:
    """The proof of a crate: its seconds from the first beginning of all, its jobs, and its processor seconds."""

    began: float
    ended: float
    jobs: int
    seconds: float


def read_times(text: str) -> dict[str, Time]:
    rows = [line.split() for line in text.splitlines() if line and not line.startswith("#")]
    return {name: Time(float(began), float(ended), int(jobs), float(used)) for name, began, ended, jobs, used in rows}


def clock(seconds: float) -> str:
    return f"{int(seconds) // 60}:{int(seconds) % 60:02}"


def table(times: dict[str, Time]) -> list[str]:
    lines = [f"{'crate':<22}{'began':>8}{'ended':>8}{'took':>8}{'jobs':>6}{'processor':>11}"]
    for name, it in sorted(times.items(), key=lambda row: (row[1].began, row[0])):
        took = clock(it.ended - it.began)
        lines.append(f"{name:<22}{clock(it.began):>8}{clock(it.ended):>8}{took:>8}{it.jobs:>6}{clock(it.seconds):>11}")
    whole, used = max(it.ended for it in times.values()), sum(it.seconds for it in times.values())
    return [*lines, f"{'all':<22}{clock(0):>8}{clock(whole):>8}{clock(whole):>8}{'':>6}{clock(used):>11}"]


def chain(crates: Sequence[Crate], times: dict[str, Time]) -> list[str]:
    """The longest chain by the time that each proof took, and how long each waited once those below it were there."""
    took = {it.name: times[it.name].ended - times[it.name].began if it.name in times else 0.0 for it in crates}
    names = {it.name: it.names for it in crates}
    found = [name for name in longest_chain(crates, took) if name in times]
    lines = [f"the longest chain: {clock(sum(took[name] for name in found))} in {len(found)} crates"]
    for name in found:
        ready = max((times[it].ended for it in names[name] if it in times), default=0.0)
        lines.append(f"  {name:<20}{clock(took[name]):>8}, waited {clock(max(times[name].began - ready, 0.0))}")
    return lines


def main(words: Sequence[str]) -> int:
    if not words or list(words[1:]) not in ([], ["--seconds"]):
        print(__doc__, file=sys.stderr)
        return 2
    top = Path(words[0])
    try:
        times = read_times((out_of(top, PROGRAM) / TIMES).read_text(encoding="utf-8"))
        listed = read_crates((top / LIST).read_text(encoding="utf-8"))
        crates = [*below(listed, PROGRAM), listed[PROGRAM]]
    except (OSError, ValueError, Fault) as error:
        print(f"times.py: {error}", file=sys.stderr)
        return 1
    if not times:
        print("times.py: the last build proved nothing", file=sys.stderr)
        return 1
    if words[1:]:
        print(HEAD + "".join(f"{name} {times[name].seconds:.0f}\n" for name in sorted(times)), end="")
    else:
        print("\n".join([*table(times), "", *chain(crates, times)]))
    return 0


if __name__ == "__main__":
    sys.exit(main(sys.argv[1:]))
