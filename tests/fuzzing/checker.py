"""The built checker, run on cases."""

import os
import signal
import socket
from pathlib import Path

from reference.tool import Answer

from .case import Case, Source

OUT_OF_TIME = 120
SOCKET_ROOM = 4 << 20
KILLED = -1
NO_VARIABLES: dict[str, str] = {}


class Checker:
    """The checker, with a folder for its files that the process works in."""

    def __init__(self, program: Path, folder: Path) -> None:
        self.program = os.fspath(program)
        os.chdir(folder)
        os.mkdir("folder")
        self.streams = [os.open(name, os.O_RDWR | os.O_CREAT) for name in ("out", "err")]
        self.pid = 0
        signal.signal(signal.SIGALRM, lambda number, frame: os.kill(self.pid, signal.SIGKILL))

    def answer(self, case: Case) -> Answer:
        """What the checker answers. It is killed where it takes too long, which no answer of the reference is like."""
        write_program(case)
        if case.source is Source.FOLDER:
            Path("data").unlink(missing_ok=True)
            os.symlink("folder", "data")
            found = self.run(case)
            os.unlink("data")
            return found
        write("data", case.data)
        return self.run(case)

    def run(self, case: Case) -> Answer:
        """Runs the checker on the files as they stand."""
        for stream in self.streams:
            os.ftruncate(stream, 0)
            os.lseek(stream, 0, os.SEEK_SET)
        actions: list[tuple[int, ...] | tuple[int, int, str, int, int]] = [
            (os.POSIX_SPAWN_DUP2, self.streams[0], 1),
            (os.POSIX_SPAWN_DUP2, self.streams[1], 2),
        ]
        failing = None
        if case.source is Source.FAILING_INPUT:
            failing = failing_input(case.data)
            actions.append((os.POSIX_SPAWN_DUP2, failing.fileno(), 0))
        else:
            name = "data" if case.source is Source.INPUT else os.devnull
            actions.append((os.POSIX_SPAWN_OPEN, 0, name, os.O_RDONLY, 0))
        self.pid = os.posix_spawn(self.program, [b"checktestdata", *case.words], NO_VARIABLES, file_actions=actions)
        signal.setitimer(signal.ITIMER_REAL, OUT_OF_TIME)
        _, status = os.waitpid(self.pid, 0)
        signal.setitimer(signal.ITIMER_REAL, 0)
        if failing:
            failing.close()
        code = os.WEXITSTATUS(status) if os.WIFEXITED(status) else KILLED
        return Answer(code, *[read_whole(stream) for stream in self.streams])


def write_program(case: Case) -> None:
    """Writes the program of a case to the folder that the process works in, or sees that there is none."""
    if case.program is None:
        Path("program").unlink(missing_ok=True)
    else:
        write("program", case.program)


def write(name: str, content: bytes) -> None:
    file = os.open(name, os.O_WRONLY | os.O_CREAT | os.O_TRUNC)
    written = 0
    while written < len(content):
        written += os.write(file, content[written:])
    os.close(file)


def read_whole(stream: int) -> bytes:
    return os.pread(stream, os.fstat(stream).st_size, 0)


def failing_input(data: bytes) -> socket.socket:
    """A socket that gives these data, and of which the next read fails: the other end is closed and has not read all."""
    ours, theirs = socket.socketpair()
    ours.setsockopt(socket.SOL_SOCKET, socket.SO_SNDBUF, SOCKET_ROOM)
    theirs.send(b"unread")
    ours.sendall(data)
    ours.close()
    return theirs
