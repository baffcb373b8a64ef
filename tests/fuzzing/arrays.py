"""Generated programs, as texts, in which arrays are filled, read, compared and unset, and numbers are counted and compared. Most reads are where
values are, or one beside that."""

from collections.abc import Callable
from random import Random

PRESETS = ["n=2", "i=1", "k=0,j=2", "a[0]=1", "a[1]=5,b[1]=2", "k=1,g[0,0]=1", "a=3", "m=2,a[2]=9", 's="x"']
HEADS = [
    "INT(1,4,n) SPACE INT(0,3,m) SPACE SET(k=0)",
    "INT(0,4,n) SPACE INT(1,n+1,m) SPACE INT(0,m,k) SPACE",
    "INT(1,3,n) SPACE SET(m=n,k=1)",
    "INT(1,4,n) SPACE INT(1,n,m) SPACE SET(k=m)",
]
MORE_HEADS = ['REGEX("[xy]*",s) SPACE', 'SET(s="x")', "SET(i=0,j=0)"]
COMPARISONS = ["<", "<=", ">", ">=", "==", "!="]
FIXED = ["0", "1", "2", "3", "-1"]
COUNTS = ["n", "n", "m", "n+1", "n-1", "n-k", "2", "3", "2*n"]
# Blocks in blocks: each loop in a loop multiplies what the analysis takes.
MOST_DEPTH = 2


class ArrayPrograms:
    """Makes programs. Their names: the numbers n, m and k and the counters, the string s, the arrays a, b and c of one index, and g of two."""

    def __init__(self, random: Random) -> None:
        self.random = random
        self.names = ["n", "m", "k"]
        self.depth = 0
        kinds: dict[Callable[[], str], int] = {
            self.integer: 12,
            self.integer_in_array: 12,
            self.word: 4,
            self.number_set: 8,
            self.step: 5,
            self.element_set: 15,
            self.pushed: 3,
            self.key_set: 4,
            self.unset: 4,
            self.probe: 12,
            self.growth: 3,
            self.choice: 8,
            self.loop: 18,
        }
        self.kinds = [kind for kind, weight in kinds.items() for _ in range(weight)]

    def chance(self, share: float) -> bool:
        return self.random.random() < share

    def one(self, *texts: str) -> str:
        return self.random.choice(texts)

    def program(self) -> str:
        """Numbers, arrays that are filled, and then some commands."""
        parts = [self.one(*HEADS)]
        if self.chance(0.5):
            parts.append(self.one(*MORE_HEADS))
        parts += [self.filled(name) for name in self.random.sample("abc", self.random.randrange(3))]
        parts += [self.command() for _ in range(self.random.randint(1, 3))]
        return " ".join(parts)

    def filled(self, name: str) -> str:
        """A loop that fills an array, or the array of two indices."""
        return self.one(
            f"REPI(i,n) INT(0,n,{name}[i]) SPACE END",
            f"REPI(i,n) SET({name}[i+1]=i+1) END",
            f"REPI(i,n) INT(1,n,{name}[i]) SPACE SET(b[i]=i) END",
            f"REPI(i,n+1) SET({name}[i]=0) END",
            "REPI(i,n) REPI(j,m) SET(g[i,j]=j) END END",
        )

    def name(self) -> str:
        return self.random.choice(self.names)

    def array(self) -> str:
        return self.one("a", "a", "a", "b", "b", "c")

    def index(self) -> str:
        share = self.random.random()
        if share < 0.5:
            return self.name()
        if share < 0.7:
            return self.name() + self.one("+1", "-1", "-1", "+2", "-2", "+0")
        if share < 0.8:
            return self.one("0", "1", "2", "-1")
        if share < 0.9:
            return f"{self.array()}[{self.name()}]"
        return self.one("n-1-i", "2*n", "n/2", "k%n", "n-k", "s", '"x"', "n+m", "i+j", "m*2-1")

    def element(self) -> str:
        if self.chance(0.25):
            return f"g[{self.index()},{self.index()}]"
        return f"{self.array()}[{self.index()}]"

    def number(self) -> str:
        share = self.random.random()
        if share < 0.35:
            return self.name()
        if share < 0.55:
            return self.element()
        if share < 0.7:
            return self.name() + self.one("+1", "-1", "+2", "-3")
        if share < 0.8:
            return self.one(*FIXED)
        if share < 0.9:
            return self.one(f"9/({self.name()}-{self.name()})", f"9/{self.name()}", f"2^({self.name()}-1)", "9/STRLEN(s)", f"({self.name()}-1)^2")
        return self.one("n-k", "n+m", "2*n", "k%n", "n/2", "m-1", "n%2", "k*2", "k*k")

    def test(self) -> str:
        share = self.random.random()
        if share < 0.6:
            return f"{self.number()}{self.one(*COMPARISONS)}{self.number()}"
        if share < 0.8:
            return f"({self.test()} {self.one('&&', '||')} {self.test()})"
        if share < 0.85:
            return f"!({self.test()})"
        if share < 0.87:
            return f"STRLEN(s){self.one(*COMPARISONS)}{self.one(*FIXED)}"
        if share < 0.93:
            return f"UNIQUE({self.one('a,b', 'a', 'b,c', 'a,c', 'g,a')})"
        return f"INARRAY({self.one('s', 'k', 'n')},{self.array()})"

    def command(self) -> str:
        return self.random.choice(self.kinds)()

    def commands(self, most: int = 3) -> str:
        self.depth += 1
        text = " ".join(self.command() for _ in range(self.random.randint(1, most)))
        self.depth -= 1
        return text

    def integer_of(self, target: str) -> str:
        return f"INT({self.one('0', '0', '1', '-1')},{self.one('n', '3', '2', 'n-1', 'm', '4', self.name())},{target}) SPACE"

    def integer(self) -> str:
        return self.integer_of(self.name())

    def integer_in_array(self) -> str:
        return self.integer_of(self.element())

    def word(self) -> str:
        return f'REGEX("[xy]",{self.one("s", "s", self.element())}) SPACE'

    def number_set(self) -> str:
        return f"SET({self.name()}={self.number()})"

    def step(self) -> str:
        """A number that is counted by hand."""
        name = self.name()
        return f"SET({name}={name}{self.one('+1', '-1', '+2')})"

    def element_set(self) -> str:
        return f"SET({self.element()}={self.number()})"

    def pushed(self) -> str:
        """An array that grows at an index that is counted by hand."""
        name = self.name()
        return f"SET({self.array()}[{name}]={self.number()},{name}={name}+1)"

    def key_set(self) -> str:
        """A value that is put into one array, and is an index of another."""
        key = self.one("s", "k", '"x"')
        return f"SET({self.array()}[{key}]=1,{self.array()}[{self.index()}]={key})"

    def unset(self) -> str:
        return f"UNSET({self.one('a', 'b', 'a,b', 'g', 'c', 'k', 's,c')})"

    def probe(self) -> str:
        """A test that lets the run go on in both cases, or one that may close a branch."""
        if self.chance(0.1):
            return f"ASSERT({self.test()})"
        return f"ASSERT({self.test()} || 1==1)" if self.chance(0.6) else f"IF({self.test()}) SPACE END"

    def growth(self) -> str:
        """A number that grows fast in a few turns."""
        name = self.name()
        return f"SET({name}=1) REP({self.one('3', 'n', '20')}) SET({name}={name}*{self.one('10', '2', name, 'm')}) END"

    def choice(self) -> str:
        if self.depth == MOST_DEPTH:
            return self.integer()
        otherwise = " ELSE " + self.one(self.commands(), "ASSERT(1==0)") if self.chance(0.5) else ""
        return f"IF({self.test()}) {self.commands()}{otherwise} END"

    def loop(self) -> str:
        """One of the four loops, mostly over a counter."""
        if self.depth == MOST_DEPTH:
            return self.integer()
        share = self.random.random()
        count = self.one(*COUNTS, self.name())
        if share < 0.55:
            return self.counted(self.one("i", "j", "i", "k"), count)
        if share < 0.7:
            return f"REP({count}) {self.commands()} END"
        name = self.one("k", "m", "n")
        if share < 0.85:
            return f"SET({name}={self.one('0', '1')}) WHILE({name}<{self.one('n', 'm', '3')}) {self.commands(2)} SET({name}={name}+1) END"
        return f"WHILEI({self.one('i', 'j')},{name}<{self.one('3', '5', 'm')}) {self.commands(2)} SET({name}={name}+1) END"

    def counted(self, counter: str, count: str) -> str:
        """A loop with a counter, which mostly fills an array first."""
        self.names += [counter, counter]
        fill = self.one(
            "",
            "",
            f"SET({self.array()}[{counter}]={self.number()}) ",
            f"INT(0,n,{self.array()}[{counter}{self.one('', '+1', '-1')}]) SPACE ",
            f"SET(a[{counter}]={counter},b[{counter}{self.one('', '', '+1')}]={counter}) ",
            f"INT(1,n,g[{self.name()},{counter}]) SPACE ",
        )
        text = f"REPI({counter},{count}{self.one('', '', ',SPACE')}) {fill}{self.commands(2)} END"
        del self.names[-2:]
        return text
