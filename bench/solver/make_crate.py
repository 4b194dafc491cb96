#!/usr/bin/env python3
"""Makes the crate gic_bench in a copy of this repository, from the texts beside this script.

    python3 bench/solver/make_crate.py COPY
"""

from __future__ import annotations

import sys
from pathlib import Path

HERE = Path(__file__).parent
LIBRARIES = (
    "gic_base gic_fixed gic_case gic_case_reader gic_model gic_winding gic_net gic_induce gic_sweep gic_bound gic_stand gic_enclose "
    "gic_effective"
)


def main() -> None:
    copy = Path(sys.argv[1])
    crate = copy / "crates" / "gic_bench"
    (crate / "src").mkdir(parents=True)
    for name in "main", "measures", "slow":
        (crate / "src" / f"{name}.rt").write_text((HERE / f"{name}.txt").read_text())
    for block in (HERE / "proofs.txt").read_text().split("== ")[1:]:
        name, body = block.split("\n", 1)
        folder = crate / "proofs" / name
        folder.mkdir(parents=True)
        uses = "use Rattle.std.proofs.Common.{◌≡◌, length}\n"
        goals = f"use Rattle.gic_bench.proofs.{name.replace('/', '.')}.Given as goal\n\n"
        (folder / "Invariants.antt").write_text(uses + goals + body)
    with (copy / "crates.txt").open("a") as crates:
        crates.write(f"gic_bench: {LIBRARIES}\n")


if __name__ == "__main__":
    main()
