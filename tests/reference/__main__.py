"""Answers as the checker does: python3 -m reference WORDS.."""

import os
import sys

from .tool import File, answer


def open_file(name: str | None) -> File | None:
    """Reads a file, or standard input. A folder can be opened and not read."""
    try:
        if name is None:
            return File(sys.stdin.buffer.read())
        if os.path.isdir(name):
            return File(b"", fails=True)
        with open(name, "rb") as file:
            return File(file.read())
    except OSError:
        return None


def main() -> int:
    found = answer([os.fsencode(word) for word in sys.argv[1:]], open_file)
    sys.stdout.buffer.write(found.out)
    sys.stdout.flush()
    sys.stderr.buffer.write(found.err)
    return found.status


if __name__ == "__main__":
    sys.exit(main())
