"""The cases of `make bench`: each writes a program and data that fit it, and says which words the checker gets.

At scale 1 the data are of the order of a hundred megabytes, or ten million steps. The random numbers have a fixed seed, so a case is the
same on every machine."""
import os
import random
import string
from dataclasses import dataclass
from pathlib import Path
from typing import BinaryIO, Callable

NUMBERS = b"INT(1,100000000,n) NEWLINE\nREP(n,SPACE) INT(0,1000000000) END NEWLINE\n"

GRAPH = b"""INT(1,1000000,n) SPACE INT(1,1000000,m) SPACE INT(1,m,k) NEWLINE
REPI(i,m)
  INT(1,n,a[i]) SPACE INT(1,n,b[i]) NEWLINE
  IF(i<k) SET(c[i]=a[i],d[i]=b[i]) END
END
ASSERT(UNIQUE(c,d))
"""

WORDS = b'WHILE(!MATCH("\\n"),SPACE) REGEX("[a-z]+",w) END NEWLINE\n'

SHORT_WORDS = b'WHILE(!MATCH("\\n"),SPACE) REGEX("[a-z]+") END NEWLINE\n'

LINES = b'WHILE(!ISEOF) REGEX("[a-z]{1,1000}") NEWLINE END\n'

SMALL_TESTS = b"""INT(1,10000000,t) NEWLINE
REP(t)
  INT(1,10,n) SPACE REGEX("YES|NO",ans) NEWLINE
  REPI(i,n,SPACE) INT(-1000000,1000000,a[i]) ASSERT(i==0 || a[i]>a[i-1]) END NEWLINE
  ASSERT(UNIQUE(a) && !INARRAY(1000001,a) && (ans=="YES" || ans=="NO"))
  UNSET(a)
  STRING("-- end of case") NEWLINE
END
"""

ARITHMETIC = """SET(s=1,t=0,u=0)
REPI(i,%d)
  SET(s=(s*31+i)%%1000003,t=t+s/7-(i-s)*2)
  IF(s%%2==0) SET(u=u+1) END
END
ASSERT(u>=0 && (t<0 || t>=0))
"""

GRID = b"""INT(1,1000,h) SPACE INT(1,1000,w) NEWLINE
REPI(y,h) REPI(x,w,SPACE) INT(0,9,g[y,x]) END NEWLINE END
REPI(y,h) REPI(x,w) IF(y>0) ASSERT(g[y,x]+g[y-1,x]<=18) END END END
"""

MAZE = b"""INT(1,1000,h) SPACE INT(1,1000,w) NEWLINE
SET(walls=0)
REPI(y,h) REPI(x,w) REGEX("[.#]",c[y,x]) END NEWLINE END
REPI(y,h) REPI(x,w) IF(c[y,x]=="#") SET(walls=walls+1) END END END
ASSERT(walls<=h*w)
"""

WORD_LIST = b"""INT(1,1000000,n) NEWLINE
REPI(i,n) REGEX("[a-z]+",word[i]) NEWLINE END
ASSERT(UNIQUE(word))
"""

NAMES = b"""INT(1,1000000,n) NEWLINE
REP(n) REGEX("[a-z]+",name) SPACE INT(1,1000000,age[name]) NEWLINE ASSERT(age[name]>0) END
"""

TREE = b"""INT(2,1000000,n) NEWLINE
SET(depth[1]=0)
REPI(i,n-1,SPACE) INT(1,i+1,p) SET(depth[i+2]=depth[p]+1) END NEWLINE
"""

PRESET_BOUND = b"""SET(maxn=10)
INT(1,1000000,n) NEWLINE
REP(n) INT(1,maxn,x) SPACE INT(x,maxn,y) NEWLINE END
"""

PERMUTATION = b"""INT(1,1000000,n) NEWLINE
REPI(i,n,SPACE) INT(1,n,p[i]) END NEWLINE
ASSERT(UNIQUE(p))
"""

TOKENS = b"""WHILE(!ISEOF)
  IF(MATCH("0123456789-")) INT(-1000,1000) ELSE IF(MATCH("(")) STRING("()") ELSE REGEX("[a-z]+") END END
  NEWLINE
END
"""

BRANCH = b"IF(k<0) INT(1,n,a[i]) SPACE ASSERT(a[i]>a[i-1]) NEWLINE END\n"


@dataclass
class Case:
    """A case: its name, what writes it, and the most that its time may be of the C program's, and its memory in MB.

    A case without a limit of time has no C program beside it."""

    name: str
    write: Callable[["Files", float, random.Random], None]
    most_ratio: float | None
    most_megabytes: float


@dataclass
class Files:
    """Where a case stands: its program, its data and the checker's options."""

    base: Path

    @property
    def program(self) -> Path:
        return self.base.with_suffix(".ctd")

    @property
    def data(self) -> Path:
        return self.base.with_suffix(".in")

    @property
    def options(self) -> list[str]:
        return self.base.with_suffix(".opts").read_text().split()

    def set_options(self, options: str) -> None:
        self.base.with_suffix(".opts").write_text(options)

    def start(self, program: bytes, options: str = "") -> BinaryIO:
        """Writes the program and the options, and opens the data for writing."""
        self.program.write_bytes(program)
        self.set_options(options)
        return self.data.open("wb")


def chunks(n: int, size: int = 100_000):
    while n > 0:
        yield min(n, size)
        n -= size


def integers(files: Files, scale: float, rng: random.Random) -> None:
    n = max(1, int(10_000_000 * scale))
    with files.start(NUMBERS) as data:
        data.write(b"%d\n" % n)
        before = ""
        for count in chunks(n):
            data.write((before + " ".join(str(rng.randint(0, 1_000_000_000)) for _ in range(count))).encode())
            before = " "
        data.write(b"\n")


def graph(files: Files, scale: float, rng: random.Random) -> None:
    edges, unique = max(1, int(1_000_000 * scale)), max(1, int(200_000 * scale))
    with files.start(GRAPH) as data:
        data.write(b"1000000 %d %d\n" % (edges, unique))
        seen: dict[tuple[int, int], None] = {}
        while len(seen) < edges:
            seen[rng.randint(1, 1_000_000), rng.randint(1, 1_000_000)] = None
        data.write("".join(f"{a} {b}\n" for a, b in seen).encode())


def other_preset(files: Files, scale: float, rng: random.Random) -> None:
    """The graph, with a preset of a name that it does not use."""
    graph(files, scale, rng)
    files.set_options("-D zz=1")


def words(files: Files, scale: float, rng: random.Random) -> None:
    pool = ["".join(rng.choices(string.ascii_lowercase, k=rng.randint(1, 12))) for _ in range(5000)]
    with files.start(WORDS) as data:
        data.write(" ".join(rng.choices(pool, k=max(1, int(1_000_000 * scale)))).encode() + b"\n")


def short_words(files: Files, scale: float, rng: random.Random) -> None:
    """Words of one to four letters, 20 MB of them: many windows of which each passes little."""
    pool = ["".join(rng.choices(string.ascii_lowercase, k=rng.randint(1, 4))) for _ in range(5000)]
    with files.start(SHORT_WORDS) as data:
        before = ""
        for count in chunks(max(1, int(5_700_000 * scale))):
            data.write((before + " ".join(rng.choices(pool, k=count))).encode())
            before = " "
        data.write(b"\n")


def long_string(files: Files, scale: float, rng: random.Random) -> None:
    n = max(1, int(200 * scale))
    text = bytes(rng.choices(string.ascii_lowercase.encode(), k=500_000))
    with files.start(b'SET(s="%s")\nREP(%d) STRING(s) END NEWLINE\n' % (text, n)) as data:
        for _ in range(n):
            data.write(text)
        data.write(b"\n")


def lines(files: Files, scale: float, rng: random.Random) -> None:
    text = bytes(rng.choices(string.ascii_lowercase.encode(), k=3000))
    with files.start(LINES) as data:
        for count in chunks(max(1, int(100_000 * scale)), 1000):
            starts = [rng.randint(0, 1500) for _ in range(count)]
            data.write(b"".join(text[at : at + rng.randint(1, 1000)] + b"\n" for at in starts))


def turns(scale: float) -> int:
    """How often the loop of the arithmetic runs, with three and a half steps a turn."""
    return max(1, int(2_857_142 * scale))


def arithmetic(files: Files, scale: float, _rng: random.Random) -> None:
    files.start((ARITHMETIC % turns(scale)).encode()).close()


def blanks(files: Files, scale: float, rng: random.Random) -> None:
    n = max(1, int(7_000_000 * scale))
    kinds = [" ", " ", "  ", "\t", " \t ", "    ", " \r", "\x0b\x0c"]
    with files.start(NUMBERS, "-w") as data:
        data.write(b" \t%d \r\n" % n)
        for count in chunks(n - 1):
            data.write("".join(str(rng.randint(0, 1_000_000_000)) + rng.choice(kinds) for _ in range(count)).encode())
        data.write(b"7 \r\n  ")


def small_tests(files: Files, scale: float, rng: random.Random) -> None:
    n = max(1, int(200_000 * scale))
    with files.start(SMALL_TESTS) as data:
        data.write(b"%d\n" % n)
        for _ in range(n):
            values = sorted(rng.sample(range(-1_000_000, 1_000_001), rng.randint(1, 10)))
            row = " ".join(map(str, values))
            data.write(f"{len(values)} {rng.choice(['YES', 'NO'])}\n{row}\n-- end of case\n".encode())


def grid(files: Files, scale: float, rng: random.Random) -> None:
    side = max(1, int(1000 * scale**0.5))
    with files.start(GRID) as data:
        data.write(b"%d %d\n" % (side, side))
        for _ in range(side):
            data.write(" ".join(rng.choices("0123456789", k=side)).encode() + b"\n")


def maze(files: Files, scale: float, rng: random.Random) -> None:
    side = max(1, int(1000 * scale**0.5))
    with files.start(MAZE) as data:
        data.write(b"%d %d\n" % (side, side))
        for _ in range(side):
            data.write("".join(rng.choices(".#", k=side)).encode() + b"\n")


def word_list(files: Files, scale: float, rng: random.Random) -> None:
    n = max(1, int(300_000 * scale))
    words = {"".join(rng.choices(string.ascii_lowercase, k=10)) for _ in range(n)}
    with files.start(WORD_LIST) as data:
        data.write(b"%d\n" % len(words) + "".join(word + "\n" for word in sorted(words, key=lambda word: word[::-1])).encode())


def names(files: Files, scale: float, rng: random.Random) -> None:
    n = max(1, int(300_000 * scale))
    with files.start(NAMES) as data:
        data.write(b"%d\n" % n)
        for _ in range(n):
            data.write("".join(rng.choices(string.ascii_lowercase, k=8)).encode() + b" %d\n" % rng.randint(1, 1_000_000))


def tree(files: Files, scale: float, rng: random.Random) -> None:
    n = max(2, int(1_000_000 * scale))
    with files.start(TREE) as data:
        data.write(b"%d\n" % n + " ".join(str(rng.randint(1, i + 1)) for i in range(n - 1)).encode() + b"\n")


def pinned_element(files: Files, scale: float, rng: random.Random) -> None:
    """The tree, with the depth of its root given by a preset."""
    tree(files, scale, rng)
    files.set_options("-D depth[1]=0")


def preset_bound(files: Files, scale: float, rng: random.Random) -> None:
    """Pairs of numbers up to a bound that a preset gives."""
    n = max(1, int(1_000_000 * scale))
    with files.start(PRESET_BOUND, "-D maxn=100000") as data:
        data.write(b"%d\n" % n)
        for _ in range(n):
            x = rng.randint(1, 100_000)
            data.write(b"%d %d\n" % (x, rng.randint(x, 100_000)))


def permutation(files: Files, scale: float, rng: random.Random) -> None:
    n = max(1, int(1_000_000 * scale))
    row = list(range(1, n + 1))
    rng.shuffle(row)
    with files.start(PERMUTATION) as data:
        data.write(b"%d\n" % n + " ".join(map(str, row)).encode() + b"\n")


def tokens(files: Files, scale: float, rng: random.Random) -> None:
    pool = ["()", "word", "x", "-17", "999", "0"]
    with files.start(TOKENS) as data:
        data.write("".join(word + "\n" for word in rng.choices(pool, k=max(1, int(1_000_000 * scale)))).encode())


def program(files: Files, scale: float, _rng: random.Random) -> None:
    """A program of a megabyte, of which nearly nothing is run, and no data."""
    files.start(b"SET(k=0)\n" + BRANCH * max(1, int(1_000_000 * scale) // len(BRANCH))).close()


CASES = [
    Case("integers", integers, 2.0, 6),
    Case("graph", graph, 3.0, 90),
    Case("words", words, 5.0, 6),
    Case("short-words", short_words, 7.0, 6),
    Case("long-string", long_string, 1.5, 6),
    Case("lines", lines, 2.7, 10),
    Case("arithmetic", arithmetic, 10.0, 6),
    Case("blanks", blanks, 1.4, 6),
    Case("small-tests", small_tests, 4.2, 6),
    Case("grid", grid, None, 60),
    Case("maze", maze, None, 100),
    Case("word-list", word_list, None, 60),
    Case("names", names, None, 300),
    Case("tree", tree, None, 100),
    Case("permutation", permutation, None, 100),
    Case("other-preset", other_preset, None, 90),
    Case("preset-bound", preset_bound, None, 6),
    Case("pinned-element", pinned_element, None, 100),
    Case("tokens", tokens, None, 6),
    Case("program", program, None, 20),
]


def write(case: Case, folder: Path, scale: float) -> Files:
    """The files of a case, which are written where they are not there yet."""
    files = Files(folder / case.name)
    done = folder / (case.name + ".done")
    if not done.exists():
        os.makedirs(folder, exist_ok=True)
        case.write(files, scale, random.Random(case.name))
        done.touch()
    return files
