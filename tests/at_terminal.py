"""Runs words as a shell at a terminal does, one of its own: they are its foreground, and standard error is the terminal.

usage: tests/at_terminal.py [--columns N] [--input FILE] [--output FILE] [--when FILE ACT | --seen TEXT ACT].. WORDS..

Standard input and standard output are the terminal too where no FILE is named for them. Once the FILE behind --when is there,
or the terminal got the TEXT behind --seen, the ACT is done: `enter`, `interrupt`, `quit` and `stop` press a key, `close` closes the
terminal, and `kill`, `terminate` and `hangup` are signals to the process alone. What was stopped goes on soon. What the terminal got is
printed, and the status is that of the words, or 128 and the number of the signal that ended them, which then stands last.
"""
from __future__ import annotations

import fcntl
import os
import pty
import select
import signal
import struct
import sys
import termios
import time
from typing import NoReturn

KEYS = {"enter": b"\n", "interrupt": b"\x03", "quit": b"\x1c", "stop": b"\x1a"}
SIGNALS = {"kill": signal.SIGKILL, "terminate": signal.SIGTERM, "hangup": signal.SIGHUP}
LIMIT = 60


def main() -> NoReturn:
    words, files, acts = sys.argv[1:], {}, []
    while words[0].startswith("--"):
        if words[0] in ("--when", "--seen"):
            acts.append(words[:3])
            words = words[3:]
        else:
            files[words[0]] = words[1]
            words = words[2:]
    reader, writer = os.pipe()
    pid, terminal = pty.fork()
    if not pid:
        os.close(reader)
        shell(words, files, writer)
    os.close(writer)
    got, status = watch(terminal, reader, int(b"".join(iter(lambda: os.read(reader, 1), b"\n"))), acts)
    os.waitpid(pid, 0)
    sys.stdout.buffer.write(got + (b"" if os.WIFEXITED(status) else b"(signal %d)" % os.WTERMSIG(status)))
    sys.stdout.flush()
    sys.exit(os.WEXITSTATUS(status) if os.WIFEXITED(status) else 128 + os.WTERMSIG(status))


def shell(words: list[str], files: dict[str, str], writer: int) -> NoReturn:
    """In the session of the terminal: starts the words in front, has them go on where they were stopped, tells them where the
    terminal is closed, and tells of their end."""
    for it in (signal.SIGTTOU, signal.SIGINT, signal.SIGQUIT):
        signal.signal(it, signal.SIG_IGN)
    fcntl.ioctl(2, termios.TIOCSWINSZ, struct.pack("4H", 50, int(files.get("--columns", 200)), 0, 0))
    pid = os.fork()
    if not pid:
        start(words, files)
    in_front(pid)
    signal.signal(signal.SIGHUP, lambda *_: os.killpg(pid, signal.SIGHUP))
    os.write(writer, b"%d\n" % pid)
    status = None
    while status is None:
        _, found = os.waitpid(pid, os.WUNTRACED)
        if os.WIFSTOPPED(found):
            time.sleep(0.3)
            os.write(2, b"(stopped)")
            os.killpg(pid, signal.SIGCONT)
        else:
            status = found
    os.write(writer, b"%d\n" % status)
    os._exit(0)


def start(words: list[str], files: dict[str, str]) -> NoReturn:
    os.setpgid(0, 0)
    os.tcsetpgrp(2, os.getpid())
    for it in (signal.SIGTTOU, signal.SIGHUP, signal.SIGINT, signal.SIGQUIT, signal.SIGPIPE, signal.SIGXFSZ):
        signal.signal(it, signal.SIG_DFL)
    for number, flag, how in ((0, "--input", os.O_RDONLY), (1, "--output", os.O_WRONLY | os.O_CREAT | os.O_TRUNC)):
        if flag in files:
            os.dup2(os.open(files[flag], how, 0o666), number)
    os.execvp(words[0], words)


def in_front(pid: int) -> None:
    try:
        os.setpgid(pid, pid)
    except OSError:
        pass
    os.tcsetpgrp(2, pid)


def watch(terminal: int | None, reader: int | None, pid: int, acts: list[list[str]]) -> tuple[bytes, int]:
    """Gathers what the terminal gets, does what is due, and gives both once the words have ended."""
    got, until = b"", time.monotonic() + LIMIT
    status: int | None = None
    while terminal is not None or status is None:
        if time.monotonic() > until:
            sys.exit("no end")
        if acts and is_due(acts[0], got):
            terminal = act(terminal, pid, acts.pop(0)[2])
        found = select.select([it for it in (terminal, reader) if it is not None], [], [], 0.02)[0]
        if terminal is not None and terminal in found:
            try:
                got += os.read(terminal, 65536)
            except OSError:
                terminal = None
        elif reader is not None and reader in found:
            status = int(os.read(reader, 16))
            reader = None
    return got, status


def is_due(it: list[str], got: bytes) -> bool:
    return it[1].encode() in got if it[0] == "--seen" else os.path.exists(it[1])


def act(terminal: int | None, pid: int, what: str) -> int | None:
    """Gives the terminal, where it is still there. (Once it is closed only signals can follow.)"""
    if what == "close":
        assert terminal is not None
        os.close(terminal)
        return None
    if what in KEYS:
        assert terminal is not None
        os.write(terminal, KEYS[what])
    else:
        os.kill(pid, SIGNALS[what])
    return terminal


main()
