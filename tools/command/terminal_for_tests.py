"""A command in a pseudo-terminal, as a person has it, for tests."""
from __future__ import annotations

import fcntl
import os
import pty
import select
import subprocess
import termios
import time
from typing import Dict, List, NamedTuple, Optional

# So long a test waits at most for what it looks for, in seconds. It says nothing of how fast anything is.
PATIENCE = 120
INTERRUPT, END_OF_FILE = b"\x03", b"\x04"


class Seen(NamedTuple):
    """What came of a command: its status, what the terminal showed, and standard output where that was no terminal."""

    status: int
    screen: str
    output: str


def environment(more: Optional[Dict[str, str]] = None) -> Dict[str, str]:
    """The environment of a terminal that has colours."""
    return {**{name: value for name, value in os.environ.items() if name != "NO_COLOR"}, "TERM": "xterm", **(more or {})}


def take_terminal() -> None:
    """Makes standard error the terminal that a new session is controlled by."""
    fcntl.ioctl(2, termios.TIOCSCTTY, 0)


class Terminal:
    """A command whose standard error is a terminal; its input is one too unless a file is given, its output unless it is piped."""

    def __init__(self, words: List[str], folder: str, path: Optional[str] = None, is_piped: bool = False, more: Optional[Dict[str, str]] = None) -> None:
        self.master, slave = pty.openpty()
        self.screen = b""
        given = open(path, "rb") if path else None
        how = {"cwd": folder, "env": environment(more), "start_new_session": True, "preexec_fn": take_terminal}
        output = subprocess.PIPE if is_piped else slave
        self.process = subprocess.Popen(words, stdin=given or slave, stdout=output, stderr=slave, **how)  # type: ignore[call-overload]
        os.close(slave)
        if given:
            given.close()

    def read(self) -> bool:
        """Reads on; whether there was something to read."""
        if not select.select([self.master], [], [], 0.1)[0]:
            return False
        try:
            self.screen += os.read(self.master, 1 << 16)
        except OSError:  # (the other side is closed)
            return False
        return True

    def wait_for(self, text: bytes) -> None:
        """Waits until the terminal has shown this."""
        end = time.monotonic() + PATIENCE
        while text not in self.screen:
            self.read()
            if self.process.poll() is not None and not self.read():
                raise AssertionError(f"{text!r} never came: {self.screen!r}")
            if time.monotonic() > end:
                self.process.kill()
                raise AssertionError(f"{text!r} hasn't come: {self.screen!r}")

    def type(self, keys: bytes) -> None:
        """Types keys."""
        os.write(self.master, keys)

    def end(self) -> Seen:
        """Waits for the end."""
        end = time.monotonic() + PATIENCE
        while self.process.poll() is None:
            self.read()
            if time.monotonic() > end:
                self.process.kill()
        while self.read():
            pass
        output = self.process.stdout.read() if self.process.stdout else b""
        if self.process.stdout:
            self.process.stdout.close()
        os.close(self.master)
        status = self.process.returncode
        return Seen(status if status >= 0 else 128 - status, self.screen.decode(errors="replace").replace("\r\n", "\n"), output.decode())
