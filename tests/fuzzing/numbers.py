"""Generated programs, as texts, that compute with numbers from the data, in loops, branches and arrays, with variables that may have no value."""

from random import Random

HEAD = ("a", "b", "c")
NAMES = (*HEAD, "x", "y", "n", "k", "x", "n", "v[a]", "v[x]", "v[1]", "v[i]", "w[a,x]")
TARGETS = ("x", "y", "n", "k", "x", "n", "a", "v[a]", "v[x]", "v[v[1]]", "w[a,x]")
COMPARISONS = ("<", ">", "<=", ">=", "==", "!=")


class NumberPrograms:
    """Makes programs. Their names: a, b and c with values, x, y, n, k and i mostly with one, and the arrays v and w."""

    def __init__(self, random: Random) -> None:
        self.random = random
        self.loops = 0

    def chance(self, share: float) -> bool:
        return self.random.random() < share

    def one(self, *texts: str) -> str:
        return self.random.choice(texts)

    def program(self) -> str:
        """Numbers from the data, assignments to some of the names, and then commands."""
        head = "".join(f"INT({self.one('0', '1')},{self.one('3', '5')},{name}) SPACE " for name in HEAD)
        firsts = [f"{name}={self.expression(1)}" for name in ("x", "y", "n", "k", "i", "v[1]") if self.chance(0.6)]
        return f"{head}SET(i=0{''.join(f',{one}' for one in firsts)}) {self.body(3)}"

    def expression(self, depth: int = 2) -> str:
        if depth == 0 or self.chance(0.4):
            return self.one(*NAMES, *map(str, range(5)))
        left, right = self.expression(depth - 1), self.expression(depth - 1)
        return self.one(f"{left}+{right}", f"{left}-({right})", f"{left}*2", f"({left})*({right})", f"({left})/2", f"({left})%3", f"({left})/({right})", f"-{left}")

    def test(self, depth: int = 2) -> str:
        if depth and self.chance(0.4):
            left, right = self.test(depth - 1), self.test(depth - 1)
            return self.one(f"({left})&&({right})", f"{left}||{right}", f"!({left})")
        return f"{self.expression(1)}{self.one(*COMPARISONS)}{self.expression(1)}"

    def body(self, depth: int) -> str:
        return " ".join(self.command(depth) for _ in range(self.random.randint(1, 3)))

    def command(self, depth: int) -> str:
        if depth == 0 or self.chance(0.45):
            return self.simple_command()
        if self.chance(0.45):
            return f"IF({self.test()}) {self.body(depth - 1)}{self.one('', f' ELSE {self.body(depth - 1)}')} END"
        return self.loop(self.body(depth - 1))

    def simple_command(self) -> str:
        target = self.one(*TARGETS)
        return self.one(
            f"SET({target}={self.expression()})",
            f"SET({target}={self.expression()},y={target}+1)",
            f"INT({self.expression(1)},{self.expression(1)},{target}) SPACE",
            f"INT({self.one('0', '1', '2')},{self.expression(1)},{target}) SPACE",
            f"ASSERT({self.test()})",
            f"UNSET({self.one('x', 'y', 'n', 'k', 'v')})" if self.chance(0.3) else f"SET({target}={self.one('0', '1', '2')})",
        )

    def loop(self, body: str) -> str:
        self.loops += 1
        separator = self.one("", "", f",SET(y={self.expression(1)})", f",IF({self.test(1)}) SET(x=1) END", f",INT(0,{self.expression(0)})")
        counter = f"t{self.loops}"
        return self.one(
            f"REP({self.expression(1)}{separator}) {body} END",
            f"REPI({self.one('i', 'k')},{self.expression(1)}{separator}) {body} END",
            f"SET({counter}=0) WHILE({counter}<4&&({self.test(1)}){separator}) SET({counter}={counter}+1) {body} END",
            f"WHILEI({counter},{counter}<{self.expression(0)}{separator}) {body} END",
        )
