#!/usr/bin/env python3
"""Sees that what ctd-cover does not ask for cannot be, on rows of which it was worked out by hand what cannot; and what of it is asked for all the same.
Without ctd-lint all is asked for.

The last line counts what passed and failed. usage: tests/possible.py [PROGRAM [LINTER]]"""
from __future__ import annotations

import sys
import tempfile
from collections.abc import Iterator
from pathlib import Path
from typing import NamedTuple

from results import TOP, checker_to_test, linter_to_test, print_results

sys.path.insert(0, str(TOP / "tools"))
from ctd_asked import Linter  # noqa: E402
from ctd_companion import Checker  # noqa: E402
from ctd_possible import Possible  # noqa: E402
from ctd_untried import watched_program  # noqa: E402

CHECKER, LINTER = checker_to_test(), linter_to_test()


class Row(NamedTuple):
    """A program, presets, and all that cannot be where data fit: a command with its number among those of its word, and what of it. Of that, what ctd-lint
    does not prove, and so is asked for."""

    program: str
    presets: str
    impossible: list[str]
    asked: list[str] = []  # noqa: RUF012


ROWS = [
    Row("INT(1,9,n) REP(n) END", "", ["REP1 none"]),
    Row("INT(0,9,n) IF(n==0) ELSE REP(n) END END", "", ["REP1 none"]),
    Row("INT(0,9,m) ASSERT(m>0) REP(m) END", "", ["INT1 low", "REP1 none"]),
    Row("SET(i=0) INT(1,9,n) WHILE(i<n) SET(i=i+1) END", "", ["WHILE1 none"]),
    Row("SET(maxt=9) INT(1,maxt,t) REP(t) END", "maxt=1", ["REP1 none", "REP1 more"]),
    Row("SET(left=9) REP(2) INT(1,left,n) SET(left=left-n) REP(n) END END", "", ["REP1 none", "REP1 one", "REP2 none"]),
    # with n=1 no v is left, and none with u=n
    Row("INT(1,9,n) INT(1,n,u) INT(u+1,n,v)", "", ["INT1 low", "INT2 high"], ["INT2 high"]),
    Row("INT(1,9,n) REPI(i,2) INT(1,n,u[i]) INT(u[i]+1,n,v[i]) END", "", ["INT1 low", "REPI1 none", "REPI1 one", "INT2 high"], ["INT2 high"]),
    Row("INT(1,9,n) INT(n,9,m) ASSERT(m<n+2) REP(m-n) END", "", ["REP1 more"]),
    Row("SET(s=0) INT(0,5,n) REP(n) INT(1,2,x) SET(s=s+x) END ASSERT(s>0)", "", ["INT1 low", "REP1 none"], ["INT1 low", "REP1 none"]),
    Row("SET(k=0,r=0) INT(0,5,n) REPI(i,n) SET(r=1,k=k+1) END ASSERT(k>0) ASSERT(r==1)", "", ["INT1 low", "REPI1 none"]),
    Row('REGEX("a|b",s) ASSERT(s=="a")', "", ["REGEX1 word b"], ["REGEX1 word b"]),
    Row('REGEX("add|del",k) IF(k=="delete") EOF END', "", ["IF1 true"], ["IF1 true"]),
    Row('REGEX("pop|popall",k)', "", []),
    Row('REGEX("[a-z]{1,9}",w) ASSERT(STRLEN(w)<=4)', "", ["REGEX1 high"]),
    Row("INT(0,9,a) IF(a<5) ASSERT(a<7) END", "", ["ASSERT1 tight: a<7"]),
    Row("INT(1,9,n) REPI(i,n) IF(i<n) END END", "", ["REPI1 none", "IF1 false"]),
    Row("INT(1,9,n) REPI(i,n) END IF(i==n) END", "", ["REPI1 none", "IF1 false"]),
    Row("SET(a[0]=3) IF(a[0]==3) END", "", ["IF1 false"]),
    # a variable without a value, a division by 0, a count below 0: no data fit
    Row("INT(0,3,k) IF(b[k]==1) END", "", ["INT1 low", "INT1 high", "IF1 true", "IF1 false"]),
    Row("INT(0,9,n) UNSET(n) ASSERT(n<5)", "", ["INT1 low", "INT1 high", "ASSERT1 tight: n<5"]),
    Row("INT(0,9,n) SET(x=9/n)", "", ["INT1 low"], ["INT1 low"]),
    Row("INT(0,9,n) REP(n-1) END", "", ["INT1 low"], ["INT1 low"]),
    Row("INT(0,9,n) ASSERT(n%2==1)", "", ["INT1 low"]),
    Row("INT(0,9,a) ASSERT(a<8 || a<3)", "", ["INT1 high", "ASSERT1 tight: a<3", "ASSERT1 decided by a<3"]),
    Row("INT(0,9,a) ASSERT(!(a>=8 && a>2))", "", ["INT1 high", "ASSERT1 tight: a>2", "ASSERT1 decided by a>2"]),
    Row("INT(0,9,a) IF(a>5 && a>3) END", "", ["IF1 decided by a>3"]),
    Row("REP(3) END", "", ["REP1 none", "REP1 one"]),
    Row("WHILE(!ISEOF) INT(1,9) NEWLINE END", "", []),
    Row('IF(s=="yes") END', 's="yes"', ["IF1 false"], ["IF1 false"]),
    Row("INT(1,9,n) REP(n) END", "n=3", ["REP1 none", "REP1 one"]),
    Row("INT(1,9,n) REP(n,IF(n==1) SPACE END) END", "", ["REP1 none", "IF1 true"], ["IF1 true"]),
    Row("INT(1,5,n) REPI(i,n) INT(0,9,a[i]) END REPI(j,n-1) ASSERT(a[j]<=a[j+1]) END", "", ["REPI1 none"]),
    # where the two are the same, the loop ends, and the assertion fails
    Row("SET(slot=5) INT(1,9,n) WHILE(slot!=0 && slot!=n) SET(slot=slot-1) END ASSERT(slot==0)", "", ["INT1 low", "WHILE1 none", "WHILE1 one", "WHILE1 decided by slot!=n"], ["INT1 low"]),
    Row("INT(1,9,n) SET(i=0) WHILE(i<n && i<20) SET(i=i+1) END", "", ["WHILE1 none", "WHILE1 decided by i<20"]),
    Row("INT(1,9,n) WHILEI(i,i<n && !ISEOF) END", "", []),
    Row("INT(1,20,n) SET(d=0,x=n) WHILE(x>0) SET(x=x/10,d=d+1) END ASSERT(d<3)", "", ["WHILE1 none"]),
    # a name has no value on one of two ways, so what is known of it on the other says nothing of n
    Row('INT(0,1,has) INT(1,100,n) IF(has == 1) INT(2,n,k) END IF(n == 1) STRING("single") END', "", []),
    Row('INT(1,9,n) REPI(i,n-1) SET(node=i+2) END IF(n==1) STRING("x") END', "", []),
    # a loop that is entered many times has a first turn each time
    Row("REP(3) INT(0,2,n) SET(i=0) WHILE(i<n) SET(i=i+1) END END", "", ["REP1 none", "REP1 one"]),
    # the separator of a separator; it runs where the outer loop has two turns, and the inner one too
    Row("INT(1,2,n) REP(n,REP(n,IF(n==1) SPACE END) END) END", "", ["REP1 none", "REP2 none", "REP2 one", "IF1 true"], ["REP2 one", "IF1 true"]),
]

# Programs, and what is known of the bounds of their INTs, worked out by hand.
RANGES = [
    ("INT(1,9,n)", [(1, 1), (9, 9)]),
    ("SET(most=10^9) INT(-most,most)", [(-(10**9), -(10**9)), (10**9, 10**9)]),
    ("INT(1,9,n) INT(-5,2*n,k) INT(n*k,n+1)", [(1, 1), (9, 9), (-5, -5), (2, 18), (-45, 162), (2, 10)]),
    ("INT(0,9,n) IF(n>3) INT(n,9,k) ELSE INT(n-4,0,k) END", [(0, 0), (9, 9), (4, 9), (9, 9), (-4, -1), (0, 0)]),
    # (no number is above the greatest)
    ("INT(0,2^126-1+2^126,n) INT(n,n)", [(0, 0), (2**127 - 1, None), (0, None), (0, None)]),
    ("SET(n=1) REP(2,INT(1,3,n)) INT(2,n+2) END", [(1, 1), (3, 3), (2, 2), (3, 5)]),
    # a REGEX sees 2^20 bytes
    ('REGEX("[0-9]*",n) INT(0,STRLEN(n))', [(0, 0), (0, 2**20)]),
    # no run comes to the second INT, or knows its bound
    ("INT(1,9,n) IF(n>9) INT(n,9) END", [(1, 1), (9, 9), (None, None), (9, 9)]),
    ("INT(k,9) INT(0,k)", [(None, None), (9, 9), (0, 0), (None, None)]),
]


def possible_in(program: str, presets: str, linter: str | None) -> Possible:
    """What ctd-cover knows of a program."""
    options = [f"--define={presets}"] if presets else []
    with tempfile.TemporaryDirectory() as folder:
        path = Path(folder) / "p.ctd"
        path.write_text(program)
        return watched_program(Checker(str(CHECKER), str(path), options), Linter(linter, options))


def ranges_in(program: str) -> list[tuple[int | None, int | None]]:
    """What is known of the bounds of the INTs in a program."""
    watched = possible_in(program, "", str(LINTER)).skeleton.watched
    return [(known.least, known.greatest) for one in watched if one.command.word == "INT" for known in (one.low, one.high)]


def impossible(program: str, presets: str, linter: str | None) -> list[str]:
    """All that ctd-cover calls impossible in a program."""
    possible = possible_in(program, presets, linter)
    numbers: dict[str, int] = {}
    found = []
    for watched in possible.skeleton.watched:
        word = watched.command.word
        numbers[word] = numbers.get(word, 0) + 1
        things = {**watched.things, **watched.ends}
        found += [f"{word}{numbers[word]} {name}" for name, thing in things.items() if not thing.sign and not possible.can_be(thing)]
    return found


def results() -> Iterator[tuple[str, list[str]]]:
    for program, wanted in RANGES:
        found = ranges_in(program)
        yield f"ranges of {program}", [] if found == wanted else [f"{found}, wanted {wanted}"]
    for row in ROWS:
        found, wanted = set(impossible(row.program, row.presets, str(LINTER))), set(row.impossible) - set(row.asked)
        faults = [f"called impossible: {one}" for one in sorted(found - wanted)] + [f"asked for: {one}" for one in sorted(wanted - found)]
        yield f"{row.program} {row.presets}", faults
        without = impossible(row.program, row.presets, None)
        yield f"{row.program} {row.presets} without ctd-lint", [f"called impossible: {one}" for one in without]


if __name__ == "__main__":
    sys.exit(print_results("possible", results()))
