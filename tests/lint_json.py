"""The form of what ctd-lint writes with --json, and the lines of text that tools/ctd_findings.py makes of it."""

import json
from typing import Any

from traps_told import said_in

# The keys of an object, in their order. All but those of places and relations have a string.
KEYS = ["file", "line", "column", "rank", "kind", "text", "name", "reason", "unclosed", "relations"]
PLACE = ["line", "column"]
# The keys that the objects of a rank have, besides those of a place, and those that they may have.
RANKS = {
    "warning": (["file", "rank", "kind", "text"], ["name"]),
    "note": (["file", "rank", "kind", "text"], ["name"]),
    "risk": (["file", "rank", "kind", "text"], ["reason"]),
    "never": (["file", "rank", "kind"], []),
    "guarantee": (["file", "rank", "text", "relations"], []),
    "verdict": (["file", "rank", "text"], []),
    "error": (["file", "rank", "text"], ["unclosed"]),
}
EVENTS = ["begins", "goes-on", "is-true", "is-false"]
# What never happens where a finding of a kind stands: all of one of these.
MEANT = {
    "unreachable": [["begins"]],
    "always-true": [["is-false"]],
    "range-true": [["is-false"]],
    "repeats-bounds": [["is-false"]],
    "always-false": [["is-true"]],
    "range-false": [["is-true"]],
    "empty-range": [["goes-on"]],
    "wrong-type": [["goes-on"], ["is-true", "is-false"]],
}

# An object of a line.
Said = dict[str, Any]


def is_said(said: Said) -> bool:
    """Whether an object has the keys of its rank, each with a value of its kind, in order."""
    needed, others = RANKS[said["rank"]]
    has_place = said["rank"] not in ("verdict", "error", "guarantee") or "line" in said
    wanted = needed + [key for key in others if key in said] + PLACE * has_place
    numbers = [said, said["unclosed"]] if "unclosed" in said else [said] * has_place
    return (
        list(said) == [key for key in KEYS if key in wanted]
        and all(isinstance(place[key], int) for place in numbers for key in PLACE)
        and all(isinstance(said[key], str) for key in said if key not in [*PLACE, "unclosed", "relations"])
        and all(len(sides) == 3 and all(isinstance(side, str) for side in sides) for sides in said.get("relations", []))
        and list(said.get("unclosed", dict.fromkeys(PLACE))) == PLACE
        and (said["rank"] != "never" or said["kind"] in EVENTS)
    )


def objects_of(output: str) -> list[Said]:
    """The objects of an output, each on a line; a line that has none is a ValueError."""
    objects: list[Said] = [json.loads(line) for line in output.splitlines()]
    for said in objects:
        if not is_said(said):
            raise ValueError(said)
    return objects


def streams_of(output: str) -> tuple[str, str]:
    """What stands as text on standard output and on standard error."""
    said = list(said_in(output))
    out, err = ([f"{line}\n" for one in said if (one.rank == "error") == is_error for line in one.lines()] for is_error in (False, True))
    return "".join(out), "".join(err)


def unmeant(objects: list[Said]) -> list[Said]:
    """The findings of which no object tells what never happens there."""
    never = {(said["file"], said["line"], said["column"], said["kind"]) for said in objects if said["rank"] == "never"}

    def is_told(said: Said) -> bool:
        ways = MEANT.get(said["kind"], [[]])
        return any(all((said["file"], said["line"], said["column"], kind) in never for kind in way) for way in ways)

    return [said for said in objects if said["rank"] in ("warning", "note") and not is_told(said)]
