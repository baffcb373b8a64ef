#!/usr/bin/env python3
"""Times the programs of docs/COOKBOOK.md on data that are made for them, and prints the processor seconds of a run.

The programs are those that stand in the document, with a larger limit. The data have a fixed seed, so they are the same on every machine."""
import argparse
import math
import random
import re
import resource
import subprocess
import sys
import tempfile
from collections.abc import Callable
from pathlib import Path

TOP = Path(__file__).resolve().parent.parent
sys.path.insert(0, str(TOP / "tests"))

from markdown_blocks import blocks  # noqa: E402

COOKBOOK = TOP / "docs/COOKBOOK.md"
SIZES = [10**5, 10**6]
Pairs = list[tuple[int, int]]


def seeded(size: int) -> random.Random:
    return random.Random(f"cookbook {size}")


def line(*numbers: int) -> str:
    return " ".join(map(str, numbers)) + "\n"


def with_pairs(head: str, pairs: Pairs) -> bytes:
    return (head + "".join(line(*pair) for pair in pairs)).encode()


def letters(size: int, alphabet: str = "abcdefghijklmnopqrstuvwxyz") -> str:
    return "".join(seeded(size).choices(alphabet, k=size))


def permutation(size: int) -> bytes:
    numbers = list(range(1, size + 1))
    seeded(size).shuffle(numbers)
    return (line(size) + line(*numbers)).encode()


def sorted_numbers(size: int) -> bytes:
    return (line(size) + line(*sorted(seeded(size).sample(range(10**9), size)))).encode()


def sorted_words(size: int) -> bytes:
    source = seeded(size)
    words = {"".join(source.choices("abcdefghijklmnopqrstuvwxyz", k=8)) for _ in range(size)}
    return (line(len(words)) + "".join(word + "\n" for word in sorted(words))).encode()


def parents(size: int) -> bytes:
    source = seeded(size)
    return (line(size) + line(*(source.randint(1, node) for node in range(1, size)))).encode()


def tree_edges(size: int) -> Pairs:
    """The edges of a random tree, in any order and each either way round."""
    source = seeded(size)
    edges = [(source.randint(1, node), node + 1) for node in range(1, size)]
    source.shuffle(edges)
    return [(v, u) if source.random() < 0.5 else (u, v) for u, v in edges]


def tree(size: int) -> bytes:
    return with_pairs(line(size), tree_edges(size))


def connected(size: int) -> bytes:
    edges = [*tree_edges(size), (1, size)]
    return with_pairs(line(size, len(edges)), edges)


def different_edges(size: int) -> bytes:
    """About as many edges as nodes, all different, each with its smaller node first."""
    source, nodes = seeded(size), size + 1
    edges = {(1, 2)}
    while len(edges) < min(size, nodes * (nodes - 1) // 2):
        u, v = source.sample(range(1, nodes + 1), 2)
        edges.add((min(u, v), max(u, v)))
    order = sorted(edges)
    source.shuffle(order)
    return with_pairs(line(nodes, len(order)), order)


def bipartite(size: int) -> bytes:
    source, nodes = seeded(size), max(size, 2)
    half = nodes // 2
    edges = [(source.randint(1, half), source.randint(half + 1, nodes)) for _ in range(size)]
    return with_pairs(line(nodes, size), edges)


def rooted_tree(size: int) -> bytes:
    """The parents of the nodes of a random tree, whose names are shuffled, with weights; 0 for the root."""
    source, order = seeded(size), list(range(1, size + 1))
    source.shuffle(order)
    lines = {order[0]: "0\n"}
    for place in range(1, size):
        lines[order[place]] = line(order[source.randrange(place)], source.randint(1, 10**9))
    return (line(size) + "".join(lines[node] for node in range(1, size + 1))).encode()


def bipartite_simple(size: int) -> bytes:
    """As many edges as are asked for, between two halves of the nodes, all different, each either way round."""
    source, nodes = seeded(size), size + 2
    half, edges = nodes // 2, set[tuple[int, int]]()
    while len(edges) < size:
        edges.add((source.randint(1, half), source.randint(half + 1, nodes)))
    order = [(v, u) if source.random() < 0.5 else (u, v) for u, v in sorted(edges)]
    source.shuffle(order)
    return with_pairs(line(nodes, size), order)


def acyclic(size: int) -> bytes:
    source, nodes = seeded(size), size + 1
    order = list(range(1, nodes + 1))
    source.shuffle(order)
    places = [sorted(source.sample(range(nodes), 2)) for _ in range(size)]
    return with_pairs(line(nodes, size), [(order[first], order[second]) for first, second in places])


def side_of(size: int) -> int:
    """The side of a square of about so many entries."""
    return max(2, math.isqrt(size))


def grid(size: int) -> bytes:
    side = side_of(size)
    cells = "S" + letters(side * side - 1, ".#")
    return (line(side, side) + "".join(cells[side * row : side * (row + 1)] + "\n" for row in range(side))).encode()


def reachable(size: int) -> bytes:
    """A grid with walls, but none in the first column and the last row, in which the start and the goal are at the ends."""
    side = side_of(size)
    walls = letters(side * side, "...#")
    rows = ["." + walls[side * row + 1 : side * (row + 1)] for row in range(side - 1)]
    rows[0] = "S" + rows[0][1:]
    return (line(side, side) + "\n".join([*rows, "." * (side - 1) + "G"]) + "\n").encode()


def polygon(size: int) -> bytes:
    """Points with different x, and y at random."""
    source, count = seeded(size), max(size, 3)
    return with_pairs(line(count), [(x, source.randint(-(10**9), 10**9)) for x in range(count)])


def matrix(size: int) -> bytes:
    side, source = side_of(size), seeded(size)
    values = [[0] * side for _ in range(side)]
    for row in range(side):
        for column in range(row):
            values[row][column] = values[column][row] = source.randint(1, 10**6)
    return (line(side) + "".join(line(*row) for row in values)).encode()


def total(size: int) -> bytes:
    """Test cases of ten numbers or fewer, and a last one with the numbers that are left; at most 1,000 of them."""
    source, text, cases, left = seeded(size), "", 0, size
    while left > 0:
        count = min(left, 10) if cases < 999 else left
        text += line(count) + line(*source.sample(range(10**9), count))
        cases, left = cases + 1, left - count
    return (line(cases) + text).encode()


def sentinel(size: int) -> bytes:
    source = seeded(size)
    return with_pairs("", [(source.randint(1, 1000), source.randint(1, 1000)) for _ in range(size)] + [(0, 0)])


def optional(size: int) -> bytes:
    source = seeded(size)
    return (line(size) + "".join(source.choice(["add ann 42\n", "remove bob\n", "list\n"]) for _ in range(size))).encode()


def times(size: int) -> bytes:
    source, text = seeded(size), line(size)
    for _ in range(size):
        start, end = sorted(source.sample(range(24 * 60), 2))
        text += f"{start // 60:02}:{start % 60:02} {end // 60:02}:{end % 60:02}\n"
    return text.encode()


def alphabet(size: int) -> bytes:
    """Words of ten letters or fewer."""
    source = seeded(size)
    return ("acgt\n" + line(size) + "".join(letters_of(source, source.randint(1, 10)) for _ in range(size))).encode()


def letters_of(source: random.Random, length: int) -> str:
    return "".join(source.choices("acgt", k=length)) + "\n"


def brackets(size: int) -> bytes:
    source, text, stack = seeded(size), "", ""
    for left in range(2 * ((size + 1) // 2), 0, -1):
        if stack and (len(stack) == left or source.random() < 0.5):
            text, stack = text + stack[-1], stack[:-1]
        else:
            pair = source.choice(["()", "[]", "{}"])
            text, stack = text + pair[0], stack + pair[1]
    return (line(len(text)) + text + "\n").encode()


def palindrome(size: int) -> bytes:
    half = letters((size + 1) // 2)
    return (line(size) + half + half[: size // 2][::-1] + "\n").encode()


def decimals(size: int) -> bytes:
    source = seeded(size)
    return (line(size) + "".join(f"{source.randint(0, 999)}.{source.randint(0, 999999):06}\n" for _ in range(size))).encode()


def long_string(size: int) -> bytes:
    return (line(size) + letters(size) + "\n").encode()


def long_line(size: int) -> bytes:
    return (letters(size) + "\n").encode()


# The files of the cookbook, each with what makes data of a size for it.
IDIOMS: dict[str, Callable[[int], bytes]] = {
    "permutation_unique.ctd": permutation,
    "permutation.ctd": permutation,
    "sorted.ctd": sorted_numbers,
    "sorted_words.ctd": sorted_words,
    "parents.ctd": parents,
    "tree.ctd": tree,
    "rooted_tree.ctd": rooted_tree,
    "connected.ctd": connected,
    "edges_unique.ctd": different_edges,
    "edges.ctd": different_edges,
    "bipartite.ctd": bipartite,
    "bipartite_simple.ctd": bipartite_simple,
    "acyclic.ctd": acyclic,
    "grid.ctd": grid,
    "reachable.ctd": reachable,
    "matrix.ctd": matrix,
    "polygon.ctd": polygon,
    "total.ctd": total,
    "sentinel.ctd": sentinel,
    "optional.ctd": optional,
    "times.ctd": times,
    "alphabet.ctd": alphabet,
    "brackets.ctd": brackets,
    "palindrome.ctd": palindrome,
    "decimals.ctd": decimals,
    "long_string.ctd": long_string,
    "long_line.ctd": long_line,
}


def programs() -> dict[str, str]:
    """The programs of the cookbook by the names of their files."""
    return {block.file: block.text() for block in blocks(COOKBOOK) if block.file is not None}


def seconds_of_children() -> float:
    """The processor seconds of all runs up to now."""
    usage = resource.getrusage(resource.RUSAGE_CHILDREN)
    return usage.ru_utime + usage.ru_stime


def seconds_of_run(checker: Path, program: Path, data: Path) -> float:
    """The processor seconds of a run, which has to accept the data."""
    before = seconds_of_children()
    done = subprocess.run([checker, program, data], capture_output=True, check=False)
    if (done.stdout, done.returncode) != (b"testdata ok!\n", 0):
        raise SystemExit(f"{program.name}: {done.stdout + done.stderr!r}, status {done.returncode}")
    return seconds_of_children() - before


def rounded(seconds: float) -> str:
    """Seconds with two digits, as the document has them."""
    return "less than 0.01 s" if seconds < 0.01 else f"{float(f'{seconds:.1e}'):.2f} s" if seconds < 1 else f"{seconds:.1f} s"


def write(name: str, found: list[float]) -> None:
    """Puts the costs of a program into the document."""
    cost = f"`{name}` takes {rounded(found[0])} at 100,000 and {rounded(found[1])} at 1,000,000."
    text, count = re.subn(rf"`{re.escape(name)}` takes .*\.", cost, COOKBOOK.read_text())
    if count != 1:
        raise SystemExit(f"the document has {count} costs of {name}")
    COOKBOOK.write_text(text)


def main() -> None:
    parser = argparse.ArgumentParser(description=__doc__)
    parser.add_argument("--checker", type=Path, default=TOP / "crates/checktestdata/out/checktestdata")
    parser.add_argument("--runs", type=int, default=3, help="the least of so many runs is taken")
    parser.add_argument("--write", action="store_true", help="put the costs into the document")
    options = parser.parse_args()
    texts = programs()
    with tempfile.TemporaryDirectory() as folder:
        for name, make in IDIOMS.items():
            program, data, found = Path(folder, name), Path(folder, "data"), []
            program.write_text(texts[name].replace("maxn=100000", "maxn=10000000"))
            for size in SIZES:
                data.write_bytes(make(size))
                found.append(min(seconds_of_run(options.checker.resolve(), program, data) for _ in range(options.runs)))
            print(f"{name:<24}" + "".join(f"{seconds:10.3f}" for seconds in found), flush=True)
            if options.write:
                write(name, found)


if __name__ == "__main__":
    main()
