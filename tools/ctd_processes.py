"""The commands that a companion starts: each has a group of processes of its own, a bound for its time and for what it writes, and ends with the companion."""
from __future__ import annotations

import contextlib
import os
import selectors
import shutil
import signal
import subprocess
import tempfile
import time
from collections.abc import Iterator, Sequence
from dataclasses import dataclass
from pathlib import Path
from typing import IO, Any

# How many bytes a command may write to each of its streams, and how many are read at once.
ROOM = 1 << 26
BLOCK = 65536
# How often it is seen whether a command has ended, in seconds, where what it left behind still holds its streams.
POLL = 0.1
# The variable of the environment by which Linux shows who belongs to a companion, and to those that it has started.
MARK = "CHECKTESTDATA_COMPANION"
# How long something that is about to start may hide from a look at all processes, in seconds.
HIDDEN = 0.05
# Signals that may be sent to all processes of a terminal or a service.
SIGNALS = ("SIGHUP", "SIGINT", "SIGTERM", "SIGQUIT")


class TooMuchWritten(Exception):
    """A command has written more than there is room for."""


@dataclass(frozen=True)
class Ran:
    """How a command ended: its status, which is below 0 for a signal, and what it wrote to both streams."""

    status: int
    out: bytes
    err: bytes


class Watcher:
    """A process beside this one, which ends the groups of commands and removes the temporary files of this one once it is gone. It reads from a pipe that
    ends with this process, so no way to end that can pass it by."""

    def __init__(self) -> None:
        self.process = 0
        self.pipe = -1

    def begin(self) -> None:
        """Starts it, where the system can; before there are threads. From now on temporary files, also of commands, have a folder of their own."""
        if not hasattr(os, "fork"):
            return
        folder = ""
        with contextlib.suppress(OSError):
            # (without it fewer things can be done, but many)
            folder = tempfile.tempdir = os.environ["TMPDIR"] = tempfile.mkdtemp(prefix="checktestdata-")
        mark = "" if MARK in os.environ else f"{os.getpid()}-{time.time_ns()}"
        reading, writing = (not_standard(one) for one in os.pipe())
        self.process = os.fork()
        if self.process == 0:
            try:
                watch(reading, folder, mark)
            finally:
                os._exit(0)
        os.close(reading)
        self.pipe = writing
        os.environ.setdefault(MARK, mark)

    def tell(self, group: int, is_there: bool) -> None:
        """Tells it that a group is there, or is no more. (A watcher that is gone itself cannot be told.)"""
        if self.pipe >= 0:
            with contextlib.suppress(OSError):
                os.write(self.pipe, b"%d\n" % (group if is_there else -group))

    def end(self) -> None:
        """Ends it, with the temporary files."""
        if self.pipe >= 0:
            os.close(self.pipe)
            self.pipe = -1
            with contextlib.suppress(OSError):
                os.waitpid(self.process, 0)


WATCHER = Watcher()


def not_standard(descriptor: int) -> int:
    """A descriptor in place of this one that is none of a standard stream, should one of these be closed."""
    from fcntl import F_DUPFD_CLOEXEC, fcntl

    moved = fcntl(descriptor, F_DUPFD_CLOEXEC, 3)
    os.close(descriptor)
    return moved


def watch(reading: int, folder: str, mark: str) -> None:
    """What the watcher does: it holds nothing but its pipe, and hears no signal that means the companion."""
    os.setsid()
    for name in SIGNALS:
        signal.signal(getattr(signal, name), signal.SIG_IGN)
    with contextlib.suppress(OSError):
        for descriptor in map(int, os.listdir("/dev/fd")):
            if descriptor != reading:
                with contextlib.suppress(OSError):
                    os.close(descriptor)
    groups: set[int] = set()
    told = b""
    while block := os.read(reading, BLOCK):
        *lines, told = (told + block).split(b"\n")
        for number in map(int, lines):
            (groups.add if number > 0 else groups.discard)(abs(number))
    for group in groups:
        kill_group(group)
    # (a command may have begun without being told of; and one may have left its group)
    while mark and (kill_marked(mark) or groups):
        groups.clear()
        time.sleep(HIDDEN)
    if folder:
        shutil.rmtree(folder, ignore_errors=True)


def kill_group(number: int) -> None:
    """Ends all processes of a group. (One that has none is no fault, nor is one of processes that have ended and are not waited for.)"""
    with contextlib.suppress(ProcessLookupError, PermissionError):
        os.killpg(number, signal.SIGKILL)


def kill_marked(mark: str) -> bool:
    """Ends all processes that have a mark, on Linux. Gives whether there was one."""
    wanted, found = f"{MARK}={mark}".encode(), False
    for path in Path("/proc").glob("[0-9]*/environ"):
        with contextlib.suppress(OSError):
            if wanted in path.read_bytes().split(b"\0"):
                os.kill(int(path.parent.name), signal.SIGKILL)
                found = True
    return found


def kill(process: subprocess.Popen[bytes]) -> None:
    """Ends a command, and what it started where the system has groups of processes."""
    if hasattr(os, "killpg"):
        kill_group(process.pid)
    else:
        process.kill()


@contextlib.contextmanager
def started(words: Sequence[str], **given: Any) -> Iterator[subprocess.Popen[bytes]]:
    """A command at work. It has ended behind the block: by itself where the block does, and where that raises, it is ended. What it left behind is
    ended too. Raises OSError."""
    process = subprocess.Popen(words, start_new_session=True, **given)
    WATCHER.tell(process.pid, True)
    try:
        yield process
        process.wait()
    finally:
        kill(process)
        # (closes its streams, and waits)
        with process:
            pass
        WATCHER.tell(process.pid, False)


def run_command(words: Sequence[str], data: int | IO[bytes] = subprocess.DEVNULL, seconds: float | None = None, room: int = ROOM, **given: Any) -> Ran:
    """Runs a command to its end, with data on its standard input. Raises OSError, subprocess.TimeoutExpired where it takes longer than so many seconds,
    and TooMuchWritten."""
    due = None if seconds is None else time.monotonic() + seconds
    with started(words, stdin=data, stdout=subprocess.PIPE, stderr=subprocess.PIPE, **given) as process:
        try:
            out, err = written_by(process, due, room)
            process.wait(None if due is None else max(0.0, due - time.monotonic()))
        except subprocess.TimeoutExpired as late:
            raise subprocess.TimeoutExpired(words, seconds or 0) from late
    return Ran(process.returncode, out, err)


def written_by(process: subprocess.Popen[bytes], due: float | None, room: int) -> tuple[bytes, bytes]:
    """What a command writes to both streams, until both end or it does. Raises subprocess.TimeoutExpired and TooMuchWritten."""
    assert process.stdout and process.stderr
    if os.name == "nt":
        return process.communicate(timeout=None if due is None else max(0.0, due - time.monotonic()))
    written = {process.stdout: bytearray(), process.stderr: bytearray()}
    has_ended = False
    with selectors.DefaultSelector() as waiting:
        for stream in written:
            waiting.register(stream, selectors.EVENT_READ)
        while waiting.get_map():
            if due is not None and time.monotonic() >= due:
                raise subprocess.TimeoutExpired(process.args, 0)
            ready = waiting.select(POLL if due is None else min(POLL, due - time.monotonic()))
            if has_ended and not ready:
                # (something that left the group still holds a stream)
                break
            for key, _ in ready:
                block = os.read(key.fd, BLOCK)
                written[key.fileobj] += block  # type: ignore[index]
                if not block:
                    waiting.unregister(key.fileobj)
                elif len(written[key.fileobj]) > room:  # type: ignore[index]
                    raise TooMuchWritten
            if not has_ended and process.poll() is not None:
                has_ended = True
                kill(process)
    return bytes(written[process.stdout]), bytes(written[process.stderr])
