#!/usr/bin/env python3
"""Prints the rows of tests/tables/ as JSON for the test of the page: name, row (options, program, data), what is wanted (status, out, err),
and stops, true where the run must stop at a limit one step below what the row costs. Rows of which a read fails are left out, since a read
of memory never fails, and so are long rows."""
import json
import sys
from collections.abc import Iterator
from pathlib import Path

TOP = Path(__file__).resolve().parents[2]
sys.path.insert(0, str(TOP / "tests"))
import tables

# The bytes of the longest program and of the longest data of a row that is taken.
LONGEST = 70_000


def cases() -> Iterator[dict]:
    for file in sorted((TOP / "tests" / "tables").glob("*.toml")):
        for name, row in tables.rows_of(file):
            if row.fails:
                continue
            program, data = (tables.bytes_of(text).decode("latin-1") for text in (row.program, row.data))
            if max(len(program), len(data)) > LONGEST:
                continue
            status, out, err = row.wanted()
            wanted = [status, out.decode(), err.decode()]
            limits = [([], False)]
            if row.steps is not None:
                limits += [([f"--max-steps={row.steps}"], False), ([f"--max-steps={row.steps - 1}"], True)]
            for limit, stops in limits:
                yield {"name": name, "row": [[*map(tables.unfolded, row.words), *limit], program, data], "wanted": wanted, "stops": stops}


json.dump(list(cases()), sys.stdout)
