"""Runs the program for somebody at a terminal: says on standard error how far a long run is, and what its status means.

usage: tools/attend.py IGNORED FROM PROGRAM WORDS..

IGNORED are the signals that are ignored, as /proc/PID/status has them, and FROM is the folder that whoever started it stands in.

To whoever started it this is the program: it has its standard input, its output and its signals, stops and goes on with it, and
ends as it ends. What the program writes comes through here, so that a refusal is seen, and the line on the terminal is cleared
first. Where it can't be passed on, the program is told so, or else its status for that is taken. A text that the program is given by
a pipe comes through here too, so that the line that a refusal blames can be shown.
"""
from __future__ import annotations

import ctypes
import fcntl
import os
import resource
import select
import signal
import stat
import sys
import time
from collections.abc import Sequence
from typing import NoReturn

sys.path.insert(0, os.path.dirname(os.path.abspath(__file__)))
from progress import progress_of
from refusals import STATUSES, explanation, shown
from words import what_is_read

OUTPUT_FAILED, NOT_STARTED = 5, 70
LOOK_AFTER, FIRST_AFTER, EACH = 0.25, 1.0, 0.5
# A pipe that can take bytes can take so many.
PIECE, LARGE_PIECE = select.PIPE_BUF, 1 << 16
LONGEST_REFUSAL = 64
LONGEST_TEXT = (1 << 20) + 1
SET_DEATH_SIGNAL = 1
CLEAR = "\r\033[K"
IGNORED_BY_PYTHON = {signal.SIGPIPE, signal.SIGXFSZ}
# What can't be caught, what this process needs for itself, and what ends or stops no program.
NOT_HANDED_ON = {signal.SIGKILL, signal.SIGSTOP, signal.SIGCHLD, signal.SIGTTIN, signal.SIGTTOU, signal.SIGCONT, signal.SIGWINCH,
                 signal.SIGURG, *IGNORED_BY_PYTHON}


class Terminal:
    """Standard error: a line that is written anew, and lines that stay."""

    def __init__(self) -> None:
        self.is_shown, self.has_lines = False, os.environ.get("TERM", "dumb") != "dumb"

    def is_in_front(self) -> bool:
        try:
            return os.tcgetpgrp(2) == os.getpgrp()
        except OSError:
            return False

    def show(self, first: str, parts: Sequence[str], last: str) -> None:
        """Writes the line anew, with as many of its parts as there is room for, where it has any and this is in front."""
        room = self.columns() - 1
        for it in parts:
            if len(f"{first}, {it}, {last}") > room:
                break
            first = f"{first}, {it}"
        if self.has_lines and self.is_in_front() and len(f"{first}, {last}") <= room:
            self.write(f"{CLEAR}{first}, {last}")
            self.is_shown = True

    def clear(self) -> None:
        if self.is_shown:
            self.write(CLEAR)
            self.is_shown = False

    def say(self, text: str) -> None:
        self.clear()
        self.write(f"sccl: {text}\n")

    def columns(self) -> int:
        try:
            return os.get_terminal_size(2).columns or 80
        except OSError:
            return 80

    def write(self, text: str) -> None:
        try:
            os.write(2, text.encode("utf-8", "replace"))
        except OSError:
            self.has_lines = False


class Input:
    """What the program reads. A file can be read again, and where it stands in the file is left as it is; what comes by a pipe is
    passed on, and as much of it kept as a text may have."""

    def __init__(self, is_read: bool) -> None:
        self.start: int | None = None
        self.kept, self.pending, self.is_known = bytearray(), b"", False
        self.reader: int | None = None
        self.writer: int | None = None
        kind = os.fstat(0).st_mode if is_open(0) else 0
        if stat.S_ISREG(kind):
            self.start = os.lseek(0, 0, os.SEEK_CUR)
        elif is_read and (stat.S_ISFIFO(kind) or stat.S_ISSOCK(kind)):
            self.reader, self.writer = pipe()
            os.set_blocking(self.writer, False)

    def text(self) -> bytes | None:
        """What was read, as far as that is known; None where it is not."""
        if self.start is None:
            return bytes(self.kept) if self.is_known else None
        try:
            return os.pread(0, LONGEST_TEXT, self.start)
        except OSError:
            return None

    def waits_for(self) -> tuple[list[int], list[int]]:
        """The lists of what is to be read and written next."""
        if self.writer is None:
            return [], []
        return [0] * (not self.pending), [self.writer] * bool(self.pending)

    def read(self) -> None:
        try:
            self.pending = os.read(0, LARGE_PIECE)
        except OSError:
            self.pending = b""
        self.is_known = True
        self.kept += self.pending[: LONGEST_TEXT - len(self.kept)]
        if not self.pending:
            self.close()

    def write(self) -> None:
        assert self.writer is not None
        try:
            self.pending = self.pending[os.write(self.writer, self.pending):]
        except BlockingIOError:
            pass
        except OSError:
            self.close()

    def close(self) -> None:
        """The program is given no more."""
        if self.writer is not None:
            os.close(self.writer)
        self.writer, self.pending = None, b""


class Output:
    """Takes what the program writes, and passes it on."""

    def __init__(self) -> None:
        """Standard output may be closed, and then the program's is."""
        self.head, self.pending, self.has_failed = b"", b"", False
        self.reader: int | None = None
        self.writer: int | None = None
        if is_open(1):
            self.reader, self.writer = pipe()

    def waits_for(self) -> tuple[list[int], list[int]]:
        """The lists of what is to be read and written next."""
        return [self.reader] if self.reader is not None and not self.pending else [], [1] * bool(self.pending)

    def read(self) -> None:
        assert self.reader is not None
        self.pending = os.read(self.reader, PIECE)
        self.head += self.pending[: LONGEST_REFUSAL - len(self.head)]
        if not self.pending:
            self.close()

    def write(self) -> None:
        try:
            self.pending = self.pending[os.write(1, self.pending):]
        except OSError:
            self.has_failed, self.pending = True, b""
            self.close()

    def close(self) -> None:
        if self.reader is not None:
            os.close(self.reader)
        self.reader = None

    def is_done(self) -> bool:
        return self.reader is None and not self.pending


class Run:
    """A run of the program, from its beginning to its end."""

    def __init__(self, ignored: int, origin: str, program: str, words: list[str]) -> None:
        self.origin, self.words, self.terminal, self.output = origin, words, Terminal(), Output()
        self.input = Input(bool(what_is_read(words)))
        self.status: int | None = None
        self.came: list[int] = []
        self.late: int | None = None
        self.progress = progress_of(words, self.input.text())
        self.is_waiting_told = self.is_found_told = False
        if signal.getsignal(signal.SIGINT) != signal.SIG_IGN:
            signal.signal(signal.SIGINT, signal.SIG_DFL)
        parent, self.start = os.getpid(), time.monotonic()
        self.pid = os.fork()
        if not self.pid:
            become(ignored, [program, *words], (self.input.reader, self.output.writer), parent)
        for it in (self.input.reader, self.output.writer):
            if it is not None:
                os.close(it)
        if not is_in(signal.SIGXFSZ, ignored):
            signal.signal(signal.SIGXFSZ, signal.SIG_DFL)
        self.woken = self.take_signals()

    def take_signals(self) -> int:
        """From now on signals come as bytes too; the answer is where."""
        reader, writer = pipe()
        for it in (reader, writer):
            os.set_blocking(it, False)
        signal.set_wakeup_fd(writer, warn_on_full_buffer=False)
        signal.signal(signal.SIGCHLD, lambda *_: None)
        signal.signal(signal.SIGTTOU, signal.SIG_IGN)
        for it in signal.valid_signals() - NOT_HANDED_ON:
            if signal.getsignal(it) != signal.SIG_IGN:
                signal.signal(it, lambda number, _: self.came.append(number))
        return reader

    def attend(self) -> NoReturn:
        """Waits for the end, and ends likewise."""
        next_line = self.start + LOOK_AFTER
        while self.status is None or not self.output.is_done():
            (reader, writer), (other, more) = self.output.waits_for(), self.input.waits_for()
            wait = 0 if self.late else max(0, next_line - time.monotonic())
            readers, writers, _ = select.select([*reader, *other, self.woken], [*writer, *more], [], wait)
            if self.late and not readers and not writers:
                self.die(self.late)
            self.turn(readers, writers)
            if time.monotonic() >= next_line:
                self.tell()
                next_line = time.monotonic() + (EACH if time.monotonic() >= self.start + FIRST_AFTER else FIRST_AFTER - LOOK_AFTER)
        if os.WIFSIGNALED(self.status):
            self.die(os.WTERMSIG(self.status))
        self.tell_of_found()
        self.terminal.clear()
        self.end(OUTPUT_FAILED if self.output.has_failed else os.WEXITSTATUS(self.status))

    def turn(self, readers: list[int], writers: list[int]) -> None:
        """Sees what has come: signals, the program's end or stop, output, input."""
        drain(self.woken)
        self.look()
        while self.came:
            self.hand_on(self.came.pop(0))
        if self.output.reader in readers or 1 in writers:
            self.terminal.clear()
            self.output.write() if 1 in writers else self.output.read()
        if self.input.writer is not None and 0 in readers:
            self.input.read()
        elif self.input.writer in writers:
            self.input.write()

    def look(self) -> None:
        """Sees whether the program has ended, or was stopped: then this process stops too, and lets it go on when it does."""
        pid, status = os.waitpid(self.pid, os.WNOHANG | os.WUNTRACED) if self.status is None else (0, 0)
        if pid and os.WIFSTOPPED(status):
            self.terminal.clear()
            os.kill(os.getpid(), signal.SIGSTOP)
            self.forget_stop()
            os.kill(self.pid, signal.SIGCONT)
        elif pid:
            self.status = status
            self.input.close()
            self.late = os.WTERMSIG(status) if os.WIFSIGNALED(status) else None

    def forget_stop(self) -> None:
        """The key that stopped the program came here too: it is not to stop it again. (A signal's handler has run once this begins.)"""
        self.came = [it for it in self.came if it != signal.SIGTSTP]

    def hand_on(self, number: int) -> None:
        """A signal is the program's; where that has ended, it ends this process too once nobody takes its output."""
        if self.status is None:
            os.kill(self.pid, number)
        else:
            self.late = number

    def tell(self) -> None:
        """Says what there is to say of a run that takes longer."""
        if self.status is not None:
            return
        if self.is_waiting():
            self.tell_of_waiting()
            return
        self.tell_of_found()
        seconds = int(time.monotonic() - self.start)
        if self.progress and seconds >= FIRST_AFTER:
            self.terminal.show(f"sccl: {self.words[0]}", self.progress.told(self.pid), lasted(seconds))

    def is_waiting(self) -> bool:
        """Whether the program waits for standard input: it is in the system call `read` (0), of file 0."""
        try:
            with open(f"/proc/{self.pid}/syscall") as file:
                return file.read().split()[:2] == ["0", "0x0"]
        except OSError:
            return is_open(0) and os.isatty(0) and self.progress is not None and not self.progress.told(self.pid)

    def tell_of_waiting(self) -> None:
        if not self.is_waiting_told and self.terminal.is_in_front():
            self.is_waiting_told = True
            end = ", which control-D ends" if os.isatty(0) else ""
            self.terminal.say(f"{shown(' '.join(self.words[:1]))} waits for {what_is_read(self.words) or 'a text'} on standard input{end}")

    def tell_of_found(self) -> None:
        text = self.progress.found_before() if self.progress and not self.is_found_told else ""
        if text:
            self.is_found_told = True
            self.terminal.say(text)

    def die(self, number: int) -> NoReturn:
        self.terminal.clear()
        if number == signal.SIGINT and self.progress and self.progress.left():
            self.terminal.say(self.progress.left())
        die(number)

    def end(self, status: int) -> NoReturn:
        """Whatever goes wrong in telling of it, the status is the program's."""
        try:
            if status in STATUSES:
                text, columns = self.input.text(), self.terminal.columns()
                self.terminal.say(explanation(status, self.words, self.output.head, place_of_output(self.origin), text, columns))
        finally:
            os._exit(status)


def become(ignored: int, words: list[str], streams: tuple[int | None, int | None], parent: int) -> NoReturn:
    """In the new process: becomes the program, as if it were started alone but for its input and output. It ends where its parent does."""
    try:
        ctypes.CDLL(None).prctl(SET_DEATH_SIGNAL, signal.SIGKILL)
        for it in IGNORED_BY_PYTHON:
            if not is_in(it, ignored):
                signal.signal(it, signal.SIG_DFL)
        for number, stream in enumerate(streams):
            if stream is not None:
                os.dup2(stream, number)
        if os.getppid() == parent:
            os.execv(words[0], words)
    except OSError:
        os.write(2, f"sccl: {words[0]} can't be started\n".encode("utf-8", "surrogateescape"))
    finally:
        os._exit(NOT_STARTED)


def is_in(number: int, signals: int) -> bool:
    return bool(signals >> (number - 1) & 1)


def die(number: int) -> NoReturn:
    """Ends by a signal, and leaves the dumping of memory to the program."""
    resource.setrlimit(resource.RLIMIT_CORE, (0, resource.getrlimit(resource.RLIMIT_CORE)[1]))
    if number != signal.SIGKILL:
        signal.signal(number, signal.SIG_DFL)
    os.kill(os.getpid(), number)
    os._exit(128 + number)


def is_open(number: int) -> bool:
    try:
        os.fstat(number)
    except OSError:
        return False
    return True


def pipe() -> list[int]:
    """A pipe whose ends are no standard stream, also where one of those is closed."""
    ends = os.pipe()
    moved = [fcntl.fcntl(it, fcntl.F_DUPFD_CLOEXEC, 3) for it in ends]
    for it in ends:
        os.close(it)
    return moved


def drain(number: int) -> None:
    try:
        while os.read(number, PIECE):
            pass
    except BlockingIOError:
        pass


def lasted(seconds: int) -> str:
    """A time, in minutes and seconds."""
    return f"{seconds // 60}:{seconds % 60:02}"


def place_of_output(origin: str) -> str:
    """Where standard output goes, in words, as seen from the folder `origin`."""
    if is_open(1) and os.isatty(1):
        return "above"
    if is_open(1) and stat.S_ISREG(os.fstat(1).st_mode):
        return f"in {shown(os.path.relpath(os.readlink('/proc/self/fd/1'), os.path.realpath(origin)))}"
    return "on standard output"


if __name__ == "__main__":
    Run(int(sys.argv[1], 16), sys.argv[2], sys.argv[3], sys.argv[4:]).attend()
