"""A second reading of the language: a plain and slow interpreter, written from docs/LANGUAGE.md and README.md alone.

It shares nothing with the crates, and knows nothing of them; its tokens and its parser are those of the companions (tools/ctd_program.py). Where it and the checker answer differently, one of the two is wrong, or the
text is: see tests/fuzz.py. `python3 -m reference WORDS..`, run in tests/, answers as the checker does.

    syntax      tokens are parsed by the grammar as it stands in docs/LANGUAGE.md
    nesting     how deep a program nests
    tree        the commands of a program, from what was parsed
    values      integers and strings, and what operators do with them
    store       variables and presets
    expressions, conditions, commands, loops   what each part of a program does
    patterns, matching                         a part of the patterns of REGEX
    data        what commands take from the data, with and without -w
    run         places, steps, and the run of a program
    words       the command line
    tool        files, streams and the status
"""

import sys
from pathlib import Path

sys.path.insert(0, str(Path(__file__).resolve().parents[2] / "tools"))
