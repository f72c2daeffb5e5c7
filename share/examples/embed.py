"""Holds an APL session in a Python program: each call gives the workspace that the next one begins with.

    bin/check-embedding FOLDER && python3 share/examples/embed.py FOLDER/libapl.so"""
import ctypes
import sys

FINE, BUFFER = 0, 9


class Sizes(ctypes.Structure):
    _fields_ = [("transcript", ctypes.c_size_t), ("workspace", ctypes.c_size_t)]


class Refused(Exception):
    """A call's number, and what was written before it was refused."""

    def __init__(self, number, transcript):
        super().__init__(f"refused: {number}")
        self.number, self.transcript = number, transcript


class Apl:
    """A session, which is the bytes of its workspace. The library tells its version, a day as the number YYYYMMDD."""

    def __init__(self, library, workspace=b""):
        loaded = ctypes.CDLL(library)
        self.version = loaded.apl_version()
        self.call = loaded.apl_play
        self.call.restype = ctypes.c_uint32
        read, room = [ctypes.c_char_p, ctypes.c_size_t], [ctypes.c_char_p, ctypes.c_size_t]
        self.call.argtypes = [*read, *read, ctypes.c_uint64, *room, *room, ctypes.POINTER(Sizes)]
        self.workspace = workspace

    def play(self, lines, steps=1_000_000):
        """Plays lines, and returns what they write. Raises Refused, and leaves the workspace as it is, where they aren't played."""
        typed, sizes = lines.encode(), Sizes(1024, 1024)
        number = BUFFER
        while number == BUFFER:
            transcript = ctypes.create_string_buffer(sizes.transcript + 1)
            after = ctypes.create_string_buffer(sizes.workspace + 1)
            number = self.call(self.workspace, len(self.workspace), typed, len(typed), steps,
                               transcript, sizes.transcript, after, sizes.workspace, ctypes.byref(sizes))
        written = transcript.raw[:sizes.transcript].decode()
        if number != FINE:
            raise Refused(number, written)
        self.workspace = after.raw[:sizes.workspace]
        return written


def main():
    session = Apl(sys.argv[1])
    print(session.play("∇R←MEAN V\nR←(+/V)÷⍴V\n∇\nMEAN 4 6 8\n"), end="")
    print("-- a fault leaves the statement half done")
    print(session.play("T←10×MEAN 1 2\n"), end="")
    print("-- which another session, begun with the same bytes, goes on with")
    session = Apl(sys.argv[1], session.workspace)
    print(session.play(")SI\nR←2\n→2\nT\n"), end="")
    print("-- a damaged workspace")
    try:
        Apl(sys.argv[1], session.workspace[1:]).play("1\n")
    except Refused as refused:
        print(refused)


main()
