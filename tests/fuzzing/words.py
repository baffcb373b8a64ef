"""Words of the command line for generated cases."""

from random import Random

from .case import DATA, PROGRAM, Source
from .expressions import ARRAY_NAMES, NUMBER_NAMES, TEXT_ARRAY_NAMES, TEXT_NAMES, TEXTS, Scope
from .spelling import literal

BAD_PRESETS = ["", "n=1 ", 's="', 's="\\400"', *"n n= n=05 n=1, ,n=1 n=+1 N=1 a[]=1 a[i]=1 n=--1 a[1=2 n=1.5 a[1,]=2 a[00]=1".split()]
BAD_STEPS = ["", " 5", *"x -1 +5 18446744073709551616 1e3 0x10".split()]
ODD_WORDS = [
    b"",
    b"\xff",
    *b"-x --lines -g --generate -h --help -V --version -q --quiet -w third folder -- - -D -qw -wg -wDn=1 -D=n=1 --max-steps".split(),
    *b"--max-steps=5 --quiet=1 --define= --def=n=1 -Dn=1 -q= --help=1 -wh -Dh --- --=1 -1 -gV".split(),
]


def presets(random: Random) -> tuple[str, Scope]:
    """A text for -D, and the variables that it gives values; now and then it is a bad one."""
    scope = Scope()
    if random.random() < 0.04:
        return random.choice(BAD_PRESETS), scope
    return ",".join(preset(random, scope) for _ in range(random.choice((1, 1, 2, 3)))), scope


def preset(random: Random, scope: Scope) -> str:
    """A variable and its value."""
    share = random.random()
    is_text = random.random() < 0.25
    if share < 0.1 and scope.numbers:
        # of two for one variable the last counts
        target = scope.numbers[0]
    elif share < 0.4:
        target = [random.choice(TEXT_NAMES if is_text else [*NUMBER_NAMES, "i"])]
    else:
        target = [random.choice(TEXT_ARRAY_NAMES if is_text else ARRAY_NAMES)]
        if share < 0.9:
            target += ["[", index(random), *([",", index(random)] if share < 0.5 else []), "]"]
    (scope.texts if is_text else scope.numbers).append(target)
    scope.arrays.append(target[0])
    return f"{''.join(target)}={value(random, is_text)}"


def index(random: Random) -> str:
    return value(random, True) if random.random() < 0.03 else random.choice(("0", "0", "1", "1", "2", "-0", "-1", '"x"', '"a"', '""'))


def value(random: Random, is_text: bool) -> str:
    """A numeral or a string literal."""
    if random.random() < 0.03:
        is_text = not is_text
    if not is_text:
        return random.choice(("0", "1", "2", "3", "5", "-1", "-3", "10", "-0", "170141183460469231731687303715884105727"))
    # words are UTF-8, and hold no zero byte
    text = random.choice([text for text in TEXTS if text.isascii() and "\0" not in text])
    return literal(random, text)


def words(random: Random, steps: int | None, whitespace_ok: bool, define: str | None, source: Source) -> tuple[bytes, ...]:
    """The words for these settings, in some order."""
    options: list[list[bytes]] = []
    if whitespace_ok:
        options.append([random.choice((b"-w", b"--whitespace-ok"))])
    if random.random() < 0.02:
        options.append([random.choice((b"-q", b"--quiet"))])
    if define is not None:
        options.append(define_option(random, define.encode("utf-8")))
    if steps is not None:
        text = str(steps) if random.random() < 0.995 else random.choice(BAD_STEPS)
        options.append([b"--max-steps=" + text.encode()])
    files = [[PROGRAM]]
    if source in (Source.FILE, Source.FOLDER):
        files.append([DATA])
    elif random.random() < 0.5:
        files.append([b"-"])
    random.shuffle(options)
    if random.random() < 0.1:
        # options may stand behind the files
        options = [*files, *options] if random.random() < 0.5 else [files[0], *options, *files[1:]]
        files = []
    return tuple(word for group in [*options, *files] for word in group)


def define_option(random: Random, text: bytes) -> list[bytes]:
    """The option -D, in one or two words."""
    if text and random.random() < 0.25:
        return [b"-D" + text]
    if random.random() < 0.3:
        return [b"--define=" + text]
    return [random.choice((b"-D", b"--define")), text]


def changed_words(random: Random, given: tuple[bytes, ...]) -> tuple[bytes, ...]:
    """These words with one or two changes."""
    changed = [*given]
    for _ in range(random.choice((1, 1, 2))):
        at = random.randrange(len(changed) + 1)
        match random.randrange(5):
            case 0 | 1 | 2:
                changed.insert(at, random.choice(ODD_WORDS))
            case 3:
                del changed[at : at + 1]
            case 4:
                changed[at:at] = changed[at : at + 1]
    return tuple(changed)
