"""A WebAssembly module with 64-bit memory becomes one with 32-bit memory, which every engine runs.

Each address stays a number of 64 bits up to the instruction that uses it, which takes its lower 32: the addresses of a memory of at most 4 GiB
have no others. So the module's functions keep their types. What the module holds that isn't known here is refused."""
from collections.abc import Iterator

I32, I64, F32, F64 = 0x7F, 0x7E, 0x7D, 0x7C
GET, SET, WRAP, EXTEND_S, EXTEND_U = b"\x20", b"\x21", b"\xa7", b"\xac", b"\xad"
LOADS = range(0x28, 0x36)
# The type of what each store takes.
STORES = {0x36: I32, 0x37: I64, 0x38: F32, 0x39: F64, 0x3A: I32, 0x3B: I32, 0x3C: I64, 0x3D: I64, 0x3E: I64}
MEMORY_SIZE, MEMORY_GROW, MORE, COPY, FILL, SATURATING = 0x3F, 0x40, 0xFC, 10, 11, range(8)
# Instructions by what follows them: a block's type or a number with a sign, a number, nothing.
SIGNED, NUMBERED = (0x02, 0x03, 0x04, 0x41, 0x42), (0x0C, 0x0D, 0x10, 0x20, 0x21, 0x22, 0x23, 0x24)
BARE = {0x00, 0x01, 0x05, 0x0B, 0x0F, 0x1A, 0x1B, *range(0x45, 0xC5)}
BRANCH_TABLE, SELECT, F32_CONST, F64_CONST = 0x0E, 0x1C, 0x43, 0x44
TYPES, IMPORTS, FUNCTIONS, TABLE, MEMORY, START, ELEMENTS, CODE, DATA = 1, 2, 3, 4, 5, 8, 9, 10, 11
PAGES = 1 << 16
# A place of a temporary, by its type and number, in a list of code.
Temporary = tuple[int, int]


class NotLowered(Exception):
    """A module holds what this script doesn't know."""


def number(n: int) -> bytes:
    """Returns a number from 0 as a module holds it: seven bits a byte, the lowest first."""
    out = bytearray()
    while True:
        n, low = n >> 7, n & 127
        out.append(low | (128 if n else 0))
        if not n:
            return bytes(out)


class Reader:
    """Bytes of a module, read from the start."""

    def __init__(self, data: bytes, at: int = 0) -> None:
        self.data, self.at = data, at

    def byte(self) -> int:
        self.at += 1
        return self.data[self.at - 1]

    def number(self) -> int:
        found = shift = 0
        while True:
            b = self.byte()
            found |= (b & 127) << shift
            shift += 7
            if b < 128:
                return found

    def take(self, count: int) -> bytes:
        self.at += count
        return self.data[self.at - count : self.at]

    def signed(self) -> bytes:
        """Passes a number with a sign, and returns its bytes."""
        begin = self.at
        while self.byte() >= 128:
            pass
        return self.data[begin : self.at]


def passed(r: Reader, op: int) -> None:
    """Passes what follows an instruction that has no address."""
    if op in SIGNED:
        r.signed()
    elif op in NUMBERED:
        r.number()
    elif op == BRANCH_TABLE:
        for _ in range(r.number() + 1):
            r.number()
    elif op == SELECT:
        r.take(r.number())
    elif op in (F32_CONST, F64_CONST):
        r.take(4 if op == F32_CONST else 8)
    elif op not in BARE:
        raise NotLowered(f"the instruction 0x{op:x}")


def two_addresses(op: bytes, last: bytes) -> list[bytes | Temporary]:
    """Returns an instruction of three operands, the topmost and the lowest of which are addresses or counts; before the middle one stands `last`."""
    top, middle = (I32, 0), (I32, 1)
    return [WRAP, SET, top, last, SET, middle, WRAP, GET, middle, GET, top, op]


def lowered_instruction(r: Reader) -> list[bytes | Temporary]:
    """Returns the next instruction, lowered."""
    begin, op = r.at, r.byte()
    if op in LOADS or op in STORES:
        align, offset = r.number(), r.number()
        if offset >= 1 << 32:
            raise NotLowered("an offset beyond 32 bits")
        # Anew, since the linker leaves a place of ten bytes for an offset.
        access = bytes([op]) + number(align) + number(offset)
        if op in LOADS:
            return [WRAP, access]
        value = (STORES[op], 0)
        return [SET, value, WRAP, GET, value, access]
    if op in (MEMORY_SIZE, MEMORY_GROW):
        whole = bytes([op, r.byte()])
        return [whole, EXTEND_U] if op == MEMORY_SIZE else [WRAP, whole, EXTEND_S]
    if op == MORE:
        which = r.number()
        if which == COPY:
            r.take(2)
            return two_addresses(r.data[begin : r.at], WRAP)
        if which == FILL:
            r.take(1)
            return two_addresses(r.data[begin : r.at], b"")
        if which not in SATURATING:
            raise NotLowered(f"the instruction 0xfc {which}")
    else:
        passed(r, op)
    return [r.data[begin : r.at]]


def lowered_function(code: bytes, parameters: int) -> bytes:
    """Returns the body of a function, lowered: its values are kept in temporaries behind its own where an address lies below them."""
    r = Reader(code)
    groups = [(r.number(), r.byte()) for _ in range(r.number())]
    first = parameters + sum(count for count, _ in groups)
    parts: list[bytes | Temporary] = []
    while r.at < len(code):
        parts += lowered_instruction(r)
    temporaries = sorted({it for it in parts if isinstance(it, tuple)})
    places = {it: number(first + n) for n, it in enumerate(temporaries)}
    groups += [(1, kind) for kind, _ in temporaries]
    head = number(len(groups)) + b"".join(number(count) + bytes([kind]) for count, kind in groups)
    return head + b"".join(places[it] if isinstance(it, tuple) else it for it in parts)


def lowered_memory(body: bytes) -> bytes:
    """Returns the section of the one memory, of at most 4 GiB."""
    r = Reader(body)
    if r.byte() != 1 or (flags := r.byte()) not in (4, 5):
        raise NotLowered("a memory that isn't one of 64 bits")
    least = r.number()
    return bytes([1, 1]) + number(least) + number(min(r.number(), PAGES) if flags == 5 else PAGES)


def lowered_data(body: bytes) -> bytes:
    """Returns the section of the data that the memory begins with."""
    r = Reader(body)
    count = r.number()
    out = number(count)
    for _ in range(count):
        if r.take(2) != bytes([0, 0x42]):
            raise NotLowered("data without a place")
        place = r.signed()
        r.byte()
        out += bytes([0, 0x41]) + place + b"\x0b"
        size = r.number()
        out += number(size) + r.take(size)
    return out


def sections(module: bytes) -> Iterator[tuple[int, bytes]]:
    """Yields the sections of a module, each with its number, without notes."""
    r = Reader(module, 8)
    while r.at < len(module):
        kind = r.byte()
        body = r.take(r.number())
        if kind != 0:
            yield kind, body


def counts_of_parameters(types: bytes, functions: bytes) -> list[int]:
    """Returns how many parameters each function has."""
    r, counts = Reader(types), []
    for _ in range(r.number()):
        r.byte()
        counts.append(len(r.take(r.number())))
        r.take(r.number())
    r = Reader(functions)
    return [counts[r.number()] for _ in range(r.number())]


def lowered_code(body: bytes, parameters: list[int]) -> bytes:
    """Returns the section of the functions' bodies."""
    r = Reader(body)
    count = r.number()
    out = bytearray(number(count))
    for it in parameters[:count]:
        code = lowered_function(r.take(r.number()), it)
        out += number(len(code)) + code
    return bytes(out)


def lowered(module: bytes) -> bytes:
    """Returns the module with 32-bit memory. It imports nothing, begins with no call, and calls no function by its number in a table."""
    known, out = dict(sections(module)), bytearray(module[:8])
    for kind, body in sections(module):
        if kind in (IMPORTS, START, ELEMENTS):
            raise NotLowered({IMPORTS: "the module imports something", START: "a first call"}.get(kind, "a table that is used"))
        if kind == TABLE:
            continue
        if kind == MEMORY:
            body = lowered_memory(body)
        elif kind == CODE:
            body = lowered_code(body, counts_of_parameters(known[TYPES], known[FUNCTIONS]))
        elif kind == DATA:
            body = lowered_data(body)
        out += bytes([kind]) + number(len(body)) + body
    return bytes(out)
