"""Files in which workspaces are saved, by the rules of `apl --save`."""
import fcntl
import os
import stat
from contextlib import contextmanager, suppress
from hashlib import sha256
from itertools import count
from typing import Iterator, Optional, Tuple

from apl.errors import NotSaved

TRIES = 1_000


def save_file(path: str, data: bytes, known: Optional[bytes]) -> None:
    """Has a file hold these bytes, whole or not at all.

    They are written to a new file beside it, to the disk, which then takes its name. The file keeps its mode, and its owner and group
    where the user may give them; a new one has mode 600 less the umask's bits. path goes through no links. known is the digest of what it
    is to hold until then, None where that is no matter. Raises NotSaved or OSError, and then the file holds what it held.
    """
    folder, name = os.path.split(path)
    with locked(os.path.join(folder, f".{name}.apl-lock")):
        descriptor, fresh = made(os.path.join(folder, f".{name}.apl-new-"))
        try:
            with os.fdopen(descriptor, "wb") as file:
                give(file.fileno(), path)
                file.write(data)
                file.flush()
                os.fsync(file.fileno())
            if known is not None and digest(path) not in (None, known):
                raise NotSaved("another program has changed the file")
            os.rename(fresh, path)
        except BaseException:
            os.unlink(fresh)
            raise
        sync(folder)


def made(start: str) -> Tuple[int, str]:
    """Makes a file that only this user may read, under the first name that begins so and that no file has."""
    for number in count(1):
        with suppress(FileExistsError):
            fresh = f"{start}{number}"
            return os.open(fresh, os.O_WRONLY | os.O_CREAT | os.O_EXCL | os.O_CLOEXEC, 0o600), fresh
    raise AssertionError


def give(descriptor: int, path: str) -> None:
    """Gives a file the rights, group and owner of the one that stands at a path, if one does. Raises OSError where that one may not be
    written or is no regular file. Where the group can't be kept, the new one gets no rights that all others hadn't."""
    try:
        old = os.lstat(path)
    except FileNotFoundError:
        return
    if not stat.S_ISREG(old.st_mode):
        raise OSError(f"{path} is no regular file")
    os.close(os.open(path, os.O_RDWR | os.O_CLOEXEC))
    mode = old.st_mode & 0o777
    try:
        os.fchown(descriptor, -1, old.st_gid)
    except OSError:
        mode = mode & 0o707 | (mode & 0o007) << 3
    with suppress(OSError):
        os.fchown(descriptor, old.st_uid, -1)
    os.fchmod(descriptor, mode)


def digest(path: str) -> Optional[bytes]:
    """Returns the digest of what a file holds, or None where none stands there."""
    try:
        with open(path, "rb") as file:
            return sha256(file.read()).digest()
    except FileNotFoundError:
        return None


def sync(folder: str) -> None:
    """Has the disk know which names a folder holds, where it can be opened for that."""
    try:
        descriptor = os.open(folder, os.O_RDONLY | os.O_CLOEXEC)
    except OSError:
        return
    try:
        os.fsync(descriptor)
    finally:
        os.close(descriptor)


@contextmanager
def locked(path: str) -> Iterator[None]:
    """Holds the lock of this path, which a run of `apl --save` holds until it has saved. Raises NotSaved where another holds it."""
    descriptor, is_made = lock(path)
    try:
        yield
    finally:
        if is_made and stands(descriptor, path):
            os.unlink(path)
        os.close(descriptor)


def lock(path: str) -> Tuple[int, bool]:
    """Locks the file of this path, and returns its descriptor, and whether it was made for that."""
    for _ in range(TRIES):
        descriptor, is_made = opened(path)
        try:
            fcntl.flock(descriptor, fcntl.LOCK_EX | fcntl.LOCK_NB)
        except BlockingIOError:
            os.close(descriptor)
            raise NotSaved("another program is to save in the file") from None
        except OSError:
            # a file system without locks
            pass
        if stands(descriptor, path):
            return descriptor, is_made
        os.close(descriptor)
    raise NotSaved("its lock changes all the time")


def opened(path: str) -> Tuple[int, bool]:
    """Opens a file, which is made where it isn't there, and returns whether it was made."""
    while True:
        with suppress(FileExistsError):
            return os.open(path, os.O_WRONLY | os.O_CREAT | os.O_EXCL | os.O_CLOEXEC), True
        with suppress(FileNotFoundError):
            return os.open(path, os.O_RDONLY | os.O_CLOEXEC | os.O_NOFOLLOW), False


def stands(descriptor: int, path: str) -> bool:
    """Whether an open file still has this path."""
    try:
        return os.path.samestat(os.fstat(descriptor), os.lstat(path))
    except FileNotFoundError:
        return False
