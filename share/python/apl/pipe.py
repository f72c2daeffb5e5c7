"""The program that serves a session, and the pipes to it."""
from __future__ import annotations

import json
import resource
import signal
import subprocess
import threading
import time
from contextlib import suppress
from types import FrameType
from typing import Any, Callable, Dict, List, Optional, Sequence

from apl.errors import Died, Refused

# A second KeyboardInterrupt ends the program, where it comes so many seconds after the first.
PATIENCE = 1.0


class Keyboard:
    """Keeps a KeyboardInterrupt of the main thread back while it is entered: it is noted, and raised at the end.

    A second one, PATIENCE seconds after the first or later, calls `give_up`. A handler that isn't Python's own stays."""

    def __init__(self, give_up: Callable[[], None]) -> None:
        self.struck, self.give_up, self.is_set = 0.0, give_up, False

    def __enter__(self) -> Keyboard:
        if threading.current_thread() is threading.main_thread() and signal.getsignal(signal.SIGINT) is signal.default_int_handler:
            self.is_set = True
            signal.signal(signal.SIGINT, self.strike)
        return self

    def strike(self, _number: int, _frame: Optional[FrameType]) -> None:
        """Notes a KeyboardInterrupt."""
        now = time.monotonic()
        if self.struck and now - self.struck >= PATIENCE:
            self.give_up()
        self.struck = self.struck or now

    def __exit__(self, kind: Optional[type], *_: object) -> None:
        if self.is_set:
            signal.signal(signal.SIGINT, signal.default_int_handler)
        if self.struck and not (kind and issubclass(kind, (KeyboardInterrupt, Died))):
            raise KeyboardInterrupt


class Pipe:
    """A process of the program, which answers one request after the other.

    kept is the workspace that Died tells where the process ends, and end is why it has, "" until then."""

    def __init__(self, program: str, memory: Optional[int]) -> None:
        self.kept: Optional[bytes] = None
        self.end = ""
        self.turn, self.is_asking = threading.RLock(), False
        # a session of its own, so that a terminal's interrupt goes to Python alone
        self.process = subprocess.Popen([program, "--serve"], stdin=subprocess.PIPE, stdout=subprocess.PIPE, stderr=subprocess.PIPE,
                                        start_new_session=True)
        try:
            with suppress(ProcessLookupError):
                if memory is not None:
                    resource.prlimit(self.process.pid, resource.RLIMIT_AS, (memory, memory))
        except BaseException:
            self.close()
            raise

    def ask(self, key: str, asked: object) -> Dict[str, Any]:
        """Makes a request, and returns its answer. Raises Refused where that is a refusal."""
        return self.told(self.send(request(key, asked))[0], f"{asked!r}" if key in ("listing", "value") else "")

    def told(self, answer: bytes, about: str = "") -> Dict[str, Any]:
        """Returns what an answer has, and asks again where memory was out for it. Raises Refused where it is another refusal."""
        if answer == b'{"refused":"answer"}\n':
            [answer] = self.send(request("advance", 0))
        return read(answer, about)

    def send(self, *requests: bytes) -> List[bytes]:
        """Sends small requests, or one of any size, and returns the answers. Raises Died where the program ends."""
        with Keyboard(self.process.kill), self.turn:
            if self.is_asking:
                raise RuntimeError("a signal handler may call nothing but interrupt")
            self.is_asking = True
            try:
                answers = self.exchange(requests)
            except BaseException:
                # a request is sent in part or an answer read in part: no further request would meet its answer
                self.close("a signal handler raised an exception while a request was answered")
                raise
            finally:
                self.is_asking = False
        if not answers[-1].endswith(b"\n"):
            raise self.died()
        return answers

    def exchange(self, requests: Sequence[bytes]) -> List[bytes]:
        """Writes requests and reads as many lines, of which the last is cut short where the process ends."""
        assert self.process.stdin and self.process.stdout
        try:
            self.process.stdin.write(b"".join(it + b"\n" for it in requests))
            self.process.stdin.flush()
            return [self.process.stdout.readline() for _ in requests]
        except (OSError, ValueError):
            return [b""]

    def died(self) -> Died:
        """Returns what tells how the process ended."""
        with suppress(subprocess.TimeoutExpired):
            self.process.wait(PATIENCE)
        error = b""
        with suppress(OSError, ValueError):
            if self.process.poll() is not None and self.process.stderr:
                error = self.process.stderr.read()
        self.close(f"the program {ended(self.process.poll() or 0)}: {error.decode(errors='replace').strip()}".rstrip(": "))
        return Died(self.end, self.kept)

    def close(self, end: str = "the session is closed") -> None:
        """Ends the process. end is what is told of that from then on."""
        self.end = self.end or end
        self.process.kill()
        self.process.wait()
        for pipe in (self.process.stdin, self.process.stdout, self.process.stderr):
            with suppress(OSError):
                if pipe:
                    pipe.close()


def ended(status: int) -> str:
    """Returns how a process ended, by its status or, below 0, by the signal that killed it."""
    if status >= 0:
        return f"has ended with status {status}"
    with suppress(ValueError):
        return f"was killed by {signal.Signals(-status).name}"
    return f"was killed by signal {-status}"


def request(key: str, asked: object) -> bytes:
    """Returns a request as it is sent."""
    return json.dumps({key: asked}).encode()


def read(answer: bytes, about: str = "") -> Dict[str, Any]:
    """Returns what an answer has. Raises Refused, about what was asked, where it is a refusal, and Died where it is none."""
    try:
        found: Dict[str, Any] = json.loads(answer)
    except ValueError:
        raise Died(f"the program isn't apl: it answers {answer[:60]!r}", None) from None
    if "refused" in found:
        raise Refused(found["refused"], found.get("number", 0), about=about)
    return found
