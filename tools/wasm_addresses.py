"""Narrows the addresses of a WebAssembly module from 64 bits to 32, as all browsers have memories with addresses of 32 bits.

Pointers stay numbers of 64 bits. Where one is used as an address, its upper half is cut off. A module that touches only memory that
it has works as before. What the module may have is what the toolchain's linker writes for an engine: one memory, one table of
functions, and segments at constant places. Anything else is refused.
"""
import dataclasses

MAGIC = b"\0asm\1\0\0\0"
TYPES, IMPORTS, FUNCTIONS, TABLES, MEMORIES, ELEMENTS, CODE, DATA = 1, 2, 3, 4, 5, 9, 10, 11
CUSTOM = 0
HAS_MOST, HAS_WIDE_ADDRESSES = 1, 4
MOST_PAGES = 65536

I32, I64, F32, F64 = 0x7F, 0x7E, 0x7D, 0x7C
END, CALL_INDIRECT, LOCAL_GET, LOCAL_SET = 0x0B, 0x11, 0x20, 0x21
MEMORY_SIZE, MEMORY_GROW, I32_CONST, I64_CONST = 0x3F, 0x40, 0x41, 0x42
PREFIX, MEMORY_COPY, MEMORY_FILL = 0xFC, 10, 11
WRAP, EXTEND_SIGNED, EXTEND_UNSIGNED = b"\xa7", b"\xac", b"\xad"
LOADS, STORES = range(0x28, 0x36), range(0x36, 0x3F)
# Of each store the type of the value.
STORED = dict(zip(STORES, (I32, I64, F32, F64, I32, I32, I64, I64, I64)))
# What stands after an instruction: a count of numbers; a list of numbers; a count of bytes.
NUMBERS = {0x02: 1, 0x03: 1, 0x04: 1, 0x0C: 1, 0x0D: 1, 0x10: 1, 0x20: 1, 0x21: 1, 0x22: 1, 0x23: 1, 0x24: 1, 0x41: 1, 0x42: 1, 0xD2: 1}
BYTES = {0x43: 4, 0x44: 8}
BRANCH_TABLE, TYPED_SELECT = 0x0E, 0x1C
PLAIN = {0x00, 0x01, 0x05, 0x0B, 0x0F, 0x1A, 0x1B, *range(0x45, 0xC5)}
ROUNDING = range(8)


class Unknown(Exception):
    """The module has something that the linker doesn't write for an engine."""


class Reader:
    """Bytes that are read from the front."""

    def __init__(self, data):
        self.data, self.place = data, 0

    def is_at_end(self):
        return self.place == len(self.data)

    def take(self, count):
        self.place += count
        return self.data[self.place - count:self.place]

    def byte(self):
        return self.take(1)[0]

    def number_bytes(self):
        """The bytes of a number, as they stand."""
        start = self.place
        while self.byte() & 0x80:
            pass
        return self.data[start:self.place]

    def number(self):
        """A number that isn't negative."""
        return sum((byte & 0x7F) << 7 * place for place, byte in enumerate(self.number_bytes()))

    def sized(self):
        """Bytes before which their number stands."""
        return self.take(self.number())


def number(value):
    """The bytes of a number that isn't negative."""
    written = bytearray()
    while value > 0x7F:
        written.append(value & 0x7F | 0x80)
        value >>= 7
    return bytes([*written, value])


def sized(data):
    return number(len(data)) + data


def expect(is_so, what):
    if not is_so:
        raise Unknown(what)


@dataclasses.dataclass
class Body:
    """The body of a function that is written anew: how many locals it had, and those that are put in for addresses."""

    count: int
    spare: dict = dataclasses.field(default_factory=dict)

    def local(self, kind, which=0):
        """The number of a local of a type; there may be several of one."""
        return number(self.spare.setdefault((kind, which), self.count + len(self.spare)))

    def beneath(self, kinds):
        """Instructions that cut addresses below others on the stack. Of each value, from the lowest: its type, and whether it is an
        address."""
        kept = [(kind, self.local(kind, which), is_address) for which, (kind, is_address) in enumerate(kinds)]
        down = b"".join(bytes([LOCAL_SET]) + local for _, local, _ in reversed(kept[1:]))
        up = b"".join(bytes([LOCAL_GET]) + local + (WRAP if is_address else b"") for _, local, is_address in kept[1:])
        return down + (WRAP if kinds[0][1] else b"") + up


def access(code, body, operation):
    """A load or a store."""
    alignment, offset = code.number(), code.number()
    expect(alignment < 64 and offset < 1 << 32, "a memory besides the first, or a far offset")
    instruction = bytes([operation]) + number(alignment) + number(offset)
    if operation in LOADS:
        return WRAP + instruction
    return body.beneath([(I64, True), (STORED[operation], False)]) + instruction


def prefixed(code, body):
    """An instruction of two parts: a rounding, or one on many bytes."""
    which = code.number()
    instruction = bytes([PREFIX]) + number(which)
    if which in ROUNDING:
        return instruction
    if which == MEMORY_COPY:
        return body.beneath([(I64, True), (I64, True), (I64, True)]) + instruction + code.take(2)
    expect(which == MEMORY_FILL, f"the instruction fc {which:x}")
    return body.beneath([(I64, True), (I32, False), (I64, True)]) + instruction + code.take(1)


def instruction(code, body):
    """The next instruction, with 32 bits in its addresses."""
    start, operation = code.place, code.byte()
    if operation in LOADS or operation in STORES:
        return access(code, body, operation)
    if operation == PREFIX:
        return prefixed(code, body)
    if operation == MEMORY_SIZE:
        return bytes([operation]) + code.take(1) + EXTEND_UNSIGNED
    if operation == MEMORY_GROW:
        return WRAP + bytes([operation]) + code.take(1) + EXTEND_SIGNED
    if operation == CALL_INDIRECT:
        return WRAP + bytes([operation]) + code.number_bytes() + code.number_bytes()
    if operation in (BRANCH_TABLE, TYPED_SELECT):
        for _ in range(code.number() + (operation == BRANCH_TABLE)):
            code.number_bytes()
    elif operation not in PLAIN:
        expect(operation in NUMBERS or operation in BYTES, f"the instruction {operation:x}")
        code.take(BYTES.get(operation, 0))
        for _ in range(NUMBERS.get(operation, 0)):
            code.number_bytes()
    return code.data[start:code.place]


def function(data, parameters):
    """The code of a function with a number of parameters."""
    code = Reader(data)
    groups = [(code.number(), code.byte()) for _ in range(code.number())]
    body = Body(parameters + sum(count for count, _ in groups))
    written = bytearray()
    while not code.is_at_end():
        written += instruction(code, body)
    groups += [(1, kind) for kind, _ in body.spare]
    locals_ = b"".join(number(count) + bytes([kind]) for count, kind in groups)
    return number(len(groups)) + locals_ + bytes(written)


def limits(section, most):
    """The least and the most size of a memory or a table, with addresses of 32 bits."""
    flags, least = section.byte(), section.number()
    expect(flags & ~(HAS_MOST | HAS_WIDE_ADDRESSES) == 0, "a memory or a table of another kind")
    most = min(section.number(), most) if flags & HAS_MOST else most
    return bytes([HAS_MOST]) + number(least) + number(most)


def place(section):
    """Where a segment stands, which is constant."""
    expect(section.number() == 0 and section.byte() == I64_CONST, "a segment at no constant place")
    written = section.number_bytes()
    expect(section.byte() == END, "a segment at no constant place")
    return number(0) + bytes([I32_CONST]) + written + bytes([END])


def many(section, item):
    """A list of items, each written anew."""
    count = section.number()
    return number(count) + b"".join(item(section) for _ in range(count))


def functions_of(section):
    """The functions of a segment of a table."""
    return place(section) + many(section, Reader.number_bytes)


def parameter_counts(section):
    """Of each type of a function how many parameters it has."""
    counts = []
    for _ in range(section.number()):
        expect(section.byte() == 0x60, "a type that isn't a function's")
        counts.append(len(section.sized()))
        section.sized()
    return counts


def narrowed(module):
    """The module with addresses of 32 bits."""
    reader, written, parameters, types = Reader(module), bytearray(MAGIC), [], []
    expect(reader.take(len(MAGIC)) == MAGIC, "no module")
    while not reader.is_at_end():
        kind, data = reader.byte(), reader.sized()
        section = Reader(data)
        if kind == CUSTOM:
            continue
        if kind == TYPES:
            types = parameter_counts(section)
        elif kind == FUNCTIONS:
            parameters = iter([types[section.number()] for _ in range(section.number())])
        elif kind == TABLES:
            data = many(section, lambda table: table.take(1) + limits(table, (1 << 32) - 1))
        elif kind == MEMORIES:
            data = many(section, lambda memory: limits(memory, MOST_PAGES))
        elif kind == ELEMENTS:
            data = many(section, functions_of)
        elif kind == CODE:
            data = many(section, lambda code: sized(function(code.sized(), next(parameters))))
        elif kind == DATA:
            data = many(section, lambda segment: place(segment) + sized(segment.sized()))
        written += bytes([kind]) + sized(data)
    return bytes(written)
