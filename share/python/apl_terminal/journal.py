"""The journal of a workspace: the lines that were typed since it was saved, on the disk before each is run.

The machine is a function of its lines, so whoever plays them again comes to the same state. A journal is a file of records, a line each: a
checksum of all records through this one, a blank, and an object of JSON. The first is the head. The others are

    {"line": L}           L is typed
    {"steps": N}          the line before was interrupted when it had made N steps; null: it ended by itself
    {"undone": true}      the line before was refused, and changed nothing
    {"workspace": W}      what stands now: the lines before needn't be played
    {"saving": D, "to": F}    the workspace is to be saved in the file F, which then has the digest D

A record that is cut short at the end was never done: the line in it wasn't run. While a terminal has the journal, its file is locked.
"""
from __future__ import annotations

import fcntl
import json
import os
import zlib
from contextlib import suppress
from dataclasses import dataclass, field
from typing import Dict, List, Optional, Sequence, Union

from apl.commands import reason
from apl.files import digest, stands, sync

HEAD, VERSION = "apl-journal", 1
WORKSPACE = b'{"workspace":'


class Busy(Exception):
    """Another terminal has the journal."""


class Foreign(Exception):
    """The file is no journal."""


@dataclass
class Typed:
    """A line that was typed. has_ended is whether the journal tells that it ended, and steps the count at which it was interrupted."""

    line: str
    has_ended: bool = False
    steps: Optional[int] = None


@dataclass
class Past:
    """What a journal tells. base is the digest of the file that the lines follow, None for none; workspace is what stands before the lines
    in its place, if anything does; is_whole tells whether the journal could be read to its end."""

    base: Optional[str] = None
    workspace: Optional[bytes] = None
    lines: List[Typed] = field(default_factory=list)
    is_whole: bool = True

    @property
    def is_empty(self) -> bool:
        """Whether there is nothing to play again."""
        return not self.lines and self.workspace is None

    def take(self, body: bytes) -> None:
        """Notes a record. Raises ValueError, LookupError or TypeError where it is none."""
        record = json.loads(body)
        if "line" in record:
            self.lines.append(Typed(str(record["line"])))
        elif "steps" in record:
            self.lines[-1].has_ended, self.lines[-1].steps = True, record["steps"]
        elif "undone" in record:
            self.lines.pop()
        elif "workspace" in record:
            self.workspace, self.lines = body[len(WORKSPACE):-1], []
        elif digest_of(record["to"]) == record["saving"]:
            self.base, self.workspace, self.lines = record["saving"], None, []


def digest_of(path: str) -> Optional[str]:
    """Returns the digest of a file in hexadecimal digits, None where there is none that can be read."""
    with suppress(OSError):
        found = digest(path)
        return found.hex() if found else None
    return None


def read(data: bytes) -> Past:
    """Returns what the bytes of a journal tell, as far as they are whole. Raises Foreign where they are no journal's."""
    past, check = Past(), 0
    for number, row in enumerate(data.split(b"\n")[:-1]):
        check = zlib.crc32(row[9:], check)
        try:
            if row[:9] != b"%08x " % check:
                raise ValueError
            if number:
                past.take(row[9:])
            else:
                past.base = begun(row[9:])
        except (ValueError, LookupError, TypeError):
            if not number:
                raise Foreign from None
            past.is_whole = False
            break
    if data and b"\n" not in data:
        raise Foreign
    return past


def begun(head: bytes) -> Optional[str]:
    """Returns the digest that the head of a journal tells. Raises as `Past.take` where it is none of this version."""
    record = json.loads(head)
    if record[HEAD] != VERSION:
        raise ValueError
    base: Optional[str] = record["base"]
    return base


class Journal:
    """The journal of a workspace, which this terminal has.

    Records that can't be written wait in memory, and `fault` is why; the next record tries again."""

    def __init__(self, path: str) -> None:
        """Takes the journal of this path, which is made where there is none. Raises Busy, Foreign, or OSError."""
        self.path, self.check, self.waiting, self.fault = path, 0, b"", ""
        self.descriptor = taken(path)
        try:
            with open(path, "rb") as file:
                data = file.read()
            self.past = read(data)
        except BaseException:
            os.close(self.descriptor)
            raise
        self.length = data.rfind(b"\n") + 1
        for row in data[:self.length].splitlines():
            self.check = zlib.crc32(row[9:], self.check)

    def begin(self, base: Optional[str], lines: Sequence[Typed] = (), workspace: Optional[bytes] = None) -> None:
        """Begins anew, for what follows the file of this digest: the workspace that stands then, and lines that are typed already."""
        self.past = Past(base, workspace, [*lines])
        self.check, self.waiting, self.length = 0, b"", 0
        rows = [self.row({HEAD: VERSION, "base": base})]
        rows += [] if workspace is None else [self.row(WORKSPACE + workspace + b"}")]
        for it in lines:
            rows += [self.row({"line": it.line}), self.row({"steps": it.steps})]
        data = b"".join(rows)
        try:
            self.replace(data)
            self.length, self.fault = len(data), ""
        except OSError as error:
            # what stood there follows another file; to cut it takes no room
            with suppress(OSError):
                os.ftruncate(self.descriptor, 0)
            self.waiting, self.fault = data, reason(error)

    def replace(self, data: bytes) -> None:
        """Has the file hold these bytes, whole or not at all."""
        fresh = f"{self.path}-new"
        with suppress(FileNotFoundError):
            os.unlink(fresh)
        descriptor = os.open(fresh, os.O_RDWR | os.O_CREAT | os.O_EXCL | os.O_CLOEXEC, 0o600)
        try:
            with suppress(OSError):
                fcntl.flock(descriptor, fcntl.LOCK_EX | fcntl.LOCK_NB)
            write(descriptor, data, 0)
            os.rename(fresh, self.path)
        except BaseException:
            os.close(descriptor)
            os.unlink(fresh)
            raise
        os.close(self.descriptor)
        self.descriptor = descriptor
        sync(os.path.dirname(self.path))

    def typed(self, line: str) -> None:
        """Notes a line, on the disk when this returns, or `fault` tells why not."""
        self.past.lines.append(Typed(line))
        self.append({"line": line})

    def ended(self, steps: Optional[int]) -> None:
        """Notes how the last line ended."""
        self.past.lines[-1].has_ended, self.past.lines[-1].steps = True, steps
        self.append({"steps": steps}, is_synced=steps is not None)

    def undone(self) -> None:
        """Notes that the last line changed nothing."""
        self.past.lines.pop()
        self.append({"undone": True})

    def stands(self, workspace: bytes) -> None:
        """Notes what stands now, in place of what was typed."""
        self.past.workspace, self.past.lines = workspace, []
        self.append(WORKSPACE + workspace + b"}")

    def saving(self, as_hex: str, to: str) -> None:
        """Notes that a file is to be saved."""
        self.append({"saving": as_hex, "to": to})

    def row(self, record: Union[bytes, Dict[str, object]]) -> bytes:
        """Returns a record as the file has it behind those before."""
        body = record if isinstance(record, bytes) else json.dumps(record, ensure_ascii=False).encode(errors="replace")
        self.check = zlib.crc32(body, self.check)
        return b"%08x %s\n" % (self.check, body)

    def append(self, record: Union[bytes, Dict[str, object]], is_synced: bool = True) -> None:
        """Writes a record behind those that stand, and those that wait before it."""
        self.waiting += self.row(record)
        try:
            write(self.descriptor, self.waiting, self.length, is_synced)
        except OSError as error:
            self.fault = reason(error)
            with suppress(OSError):
                os.ftruncate(self.descriptor, self.length)
            return
        self.length += len(self.waiting)
        self.waiting, self.fault = b"", ""

    def release(self) -> None:
        """Leaves the file as it is to others."""
        os.close(self.descriptor)

    def remove(self) -> None:
        """Removes the file, whose lines are saved or came to nothing."""
        with suppress(OSError):
            os.unlink(self.path)
        os.close(self.descriptor)


def set_aside(path: str) -> str:
    """Gives a file a name that none has, and returns it."""
    number = 1
    while os.path.lexists(f"{path}-{number}"):
        number += 1
    os.rename(path, f"{path}-{number}")
    return f"{path}-{number}"


def write(descriptor: int, data: bytes, start: int, is_synced: bool = True) -> None:
    """Writes bytes at a place of a file, to the disk where they are to be synced."""
    at = 0
    while at < len(data):
        at += os.pwrite(descriptor, data[at:], start + at)
    if is_synced:
        os.fsync(descriptor)


def taken(path: str) -> int:
    """Opens the file of a journal, which is made where there is none, and locks it. Raises Busy or OSError."""
    while True:
        descriptor = os.open(path, os.O_RDWR | os.O_CREAT | os.O_CLOEXEC | os.O_NOFOLLOW, 0o600)
        try:
            fcntl.flock(descriptor, fcntl.LOCK_EX | fcntl.LOCK_NB)
        except BlockingIOError:
            os.close(descriptor)
            raise Busy from None
        except OSError:
            # a file system without locks
            pass
        if stands(descriptor, path):
            return descriptor
        os.close(descriptor)



def compact(value: object) -> bytes:
    """Returns JSON on one line, as a workspace's file has it."""
    return json.dumps(value, ensure_ascii=False, separators=(",", ":"), sort_keys=True).encode()
