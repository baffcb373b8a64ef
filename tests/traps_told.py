"""What the built ctd-lint tells of traps: the places at which a run may stop by a fault of a value, and its verdict."""

import sys
from dataclasses import dataclass

from results import TOP

sys.path.insert(0, str(TOP / "tools"))
from ctd_findings import said_in  # noqa: E402, F401

# The kinds of traps that stand for each fault of a value.
KINDS = {
    "variable has no value": ["no-value-here", "no-element-here"],
    "wrong type": ["wrong-type-here"],
    "number overflow": ["overflow"],
    "division by zero": ["division-by-zero"],
    "bad exponent": ["bad-exponent"],
    "bad count": ["bad-count"],
    "arrays have different indices": ["other-shape"],
}
TRAP_KINDS = [kind for kinds in KINDS.values() for kind in kinds]
# Where each data file gets a verdict, and the conditions under which.
EVERY = "every data file gets a verdict"
CONDITIONS = {
    EVERY: [],
    f"{EVERY}, if elements have values where they are read": ["no-element-here"],
    f"{EVERY}, if arrays in UNIQUE have values at the same indices": ["other-shape"],
    f"{EVERY}, if elements have values where they are read, and arrays in UNIQUE at the same indices": ["no-element-here", "other-shape"],
}

# The line and the column of a command, and the kind of a trap.
Told = tuple[int, int, str]


@dataclass(frozen=True)
class Report:
    """The traps that are told, and the verdict; no text where the program is refused."""

    traps: frozenset[Told]
    verdicts: str = ""

    def excludes(self, kind: str) -> bool:
        """Whether the verdict says that no run stops by a trap of a kind."""
        return self.verdicts in CONDITIONS and kind not in CONDITIONS[self.verdicts]


def report_of(output: str) -> Report:
    """What the objects for one program tell."""
    said = list(said_in(output))
    traps = frozenset((one.place.line, one.place.column, one.kind) for one in said if one.place and one.kind in TRAP_KINDS)
    return Report(traps, "".join(one.text for one in said if one.rank == "verdict"))
