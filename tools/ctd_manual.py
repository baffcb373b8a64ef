"""What the words of the language do, in the manual's words."""
from __future__ import annotations

import re
from dataclasses import dataclass
from functools import lru_cache

# The tables of docs/LANGUAGE.md: commands, and tests with words.
COMMANDS = r"""
| `SPACE`, `NEWLINE` | takes one space, one line feed |
| `EOF` | requires the end of the data; every program ends with an implicit `EOF` |
| `INT(min,max)`, `INT(min,max,var)` | takes an integer from min to max, and stores it in a variable if one is given |
| `STRING(e)` | takes exactly the bytes of the string e |
| `REGEX("pattern")`, `REGEX("pattern",var)` | takes a match of a regular expression, and stores it as a string if a variable is given |
| `ASSERT(test)` | requires the test to be true; takes nothing |
| `SET(var=e,..)` | assigns values to variables, from left to right |
| `UNSET(name,..)` | removes all values of these names, with indices or without |
| `REP(count) .. END`, `REP(count,separator) .. END` | repeats its commands `count` times and runs the separator between repetitions |
| `REPI(var,count) .. END`, `REPI(var,count,separator) .. END` | as `REP`, and the variable counts the repetitions from 0 |
| `WHILE(test) .. END`, `WHILE(test,separator) .. END` | repeats its commands as long as the test is true |
| `WHILEI(var,test) .. END`, `WHILEI(var,test,separator) .. END` | as `WHILE`, and the variable counts from 0 |
| `IF(test) .. END`, `IF(test) .. ELSE .. END` | runs the first list where the test is true, otherwise the second |
"""
TESTS = r"""
| `MATCH(e)` | the next byte of the data is one of the bytes of the string e; false at the end of the data |
| `ISEOF` | the end of the data is reached |
| `UNIQUE(a,b,..)` | the tuples (a[i], b[i], ..) are all different |
| `INARRAY(e,name)` | one of the values of the name, at whatever indices, equals e; an integer and a string are different, which is no fault |
"""
FUNCTIONS = r"""
| `STRLEN(e)` | the length of a string in bytes |
"""
ROW = re.compile(r"\| (.*) \| (.*) \|")
FORM = re.compile(r"`([A-Z]+)([^`]*)`")
# What stands in a form for something else: all small letters in it.
PART = re.compile(r'"[a-z]+"|[a-z]+')


@dataclass(frozen=True)
class Entry:
    """A word: the ways to write it, and a sentence without its beginning that says what it does."""

    word: str
    forms: tuple[str, ...]
    meaning: str

    @property
    def markdown(self) -> str:
        return f"{', '.join(f'`{form}`' for form in self.forms)}: {self.meaning}"


@lru_cache(maxsize=None)
def manual() -> dict[str, Entry]:
    """The entry of each word, but for ELSE and END."""
    entries: dict[str, Entry] = {}
    for table, beginning in [(COMMANDS, ""), (TESTS, "true where "), (FUNCTIONS, "")]:
        for forms, meaning in ROW.findall(table):
            for word in dict.fromkeys(word for word, _ in FORM.findall(forms)):
                written = tuple(word + rest for one, rest in FORM.findall(forms) if one == word)
                entries[word] = Entry(word, written, beginning + meaning)
    return entries
