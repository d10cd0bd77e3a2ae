#!/usr/bin/env python3
"""Changes a linked module for wasm64 to one whose memory and tables have 32-bit addresses, which every browser knows.

    python3 -m page.module.lower WIDE.wasm OUT.wasm

The program keeps its 64-bit pointers: an address is narrowed where an instruction takes it, and a size widened where one gives
it. What the module imports and exports stays as it is. Its memory must end below 4 GiB, which heap.c sees to. An access past
4 GiB, at which the wide module traps, is not found in the narrow one. A module with what is not known here is refused.
"""
import argparse
import os
from collections.abc import Callable
from typing import TypeVar

from tools import kit

I32, I64, F32, F64 = 0x7F, 0x7E, 0x7D, 0x7C
# An operand that is an address or a size of memory, or a place in a table.
ADDRESS = None
Operands = tuple["int | None", ...]
Read = TypeVar("Read")

LOCAL_GET, LOCAL_SET, I32_CONST, I64_CONST = 0x20, 0x21, 0x41, 0x42
WRAP, EXTEND = b"\xa7", b"\xac"
CALL_INDIRECT, MEMORY_SIZE, MEMORY_GROW, BULK = 0x11, 0x3F, 0x40, 0xFC
END, BRANCH_TABLE, SELECT_OF, F32_CONST, F64_CONST = 0x0B, 0x0E, 0x1C, 0x43, 0x44
FUNCTION_REFERENCE = 0x70

LOADS = range(0x28, 0x36)
STORED = dict(zip(range(0x36, 0x3F), (I32, I64, F32, F64, I32, I32, I64, I64, I64)))
# Instructions by how many numbers follow them.
NUMBERS_AFTER = {
    **dict.fromkeys((0x00, 0x01, 0x05, END, 0x0F, 0x1A, 0x1B, *range(0x45, 0xC5)), 0),
    **dict.fromkeys((0x02, 0x03, 0x04, 0x0C, 0x0D, 0x10, *range(0x20, 0x25), I32_CONST, I64_CONST), 1),
}
BYTES_AFTER = {F32_CONST: 4, F64_CONST: 8}
# Instructions after BULK: how many numbers follow, and what they take. The first eight convert numbers.
OF_BULK: dict[int, tuple[int, Operands]] = {
    **dict.fromkeys(range(8), (0, ())),
    8: (2, (ADDRESS, I32, I32)),  # memory.init
    9: (1, ()),  # data.drop
    10: (2, (ADDRESS, ADDRESS, ADDRESS)),  # memory.copy
    11: (1, (ADDRESS, I32, ADDRESS)),  # memory.fill
}
IS_WIDE, HAS_MOST = 4, 1
CUSTOM, TYPES, IMPORTS, FUNCTIONS, TABLES, MEMORIES, ELEMENTS, CODE, DATA = 0, 1, 2, 3, 4, 5, 9, 10, 11


class NotLowered(Exception):
    """What the module has and this file does not know."""


def number(value: int) -> bytes:
    """An unsigned number as the binary format has it."""
    out = bytearray()
    while value > 0x7F:
        out.append(value & 0x7F | 0x80)
        value >>= 7
    out.append(value)
    return bytes(out)


class Reader:
    """Reads a part of a module from its start."""

    def __init__(self, data: bytes) -> None:
        self.data, self.at = data, 0

    @property
    def is_left(self) -> bool:
        return self.at < len(self.data)

    def byte(self) -> int:
        self.at += 1
        return self.data[self.at - 1]

    def take(self, count: int) -> bytes:
        self.at += count
        return self.data[self.at - count:self.at]

    def number(self) -> int:
        value = shift = 0
        while True:
            byte = self.byte()
            value |= (byte & 0x7F) << shift
            shift += 7
            if byte < 0x80:
                return value

    def raw_number(self) -> bytes:
        """A number as its bytes, be it signed or not."""
        start = self.at
        while self.byte() > 0x7F:
            pass
        return self.data[start:self.at]

    def sized(self) -> bytes:
        """Bytes behind their count."""
        return self.take(self.number())

    def each(self, read: Callable[[], Read]) -> list[Read]:
        """What `read` gives of each element of a vector."""
        return [read() for _ in range(self.number())]


class Function:
    """A function that is written anew. Operands over an address are held in locals of its own while the address is narrowed."""

    def __init__(self, body: bytes, parameters: int) -> None:
        self.body, self.out = Reader(body), bytearray()
        self.locals = self.body.each(lambda: (self.body.number(), self.body.byte()))
        self.first_own = parameters + sum(count for count, _ in self.locals)
        # The number of each own local, by the kind of its operand and the operand's place.
        self.own: dict[tuple[int, int], int] = {}

    def lowered(self) -> bytes:
        while self.body.is_left:
            self.instruction(self.body.byte())
        groups = [*self.locals, *((1, kind) for kind, _ in self.own)]
        return number(len(groups)) + b"".join(number(count) + bytes([kind]) for count, kind in groups) + self.out

    def own_local(self, kind: int, place: int) -> bytes:
        return number(self.first_own + self.own.setdefault((kind, place), len(self.own)))

    def narrow(self, operands: Operands) -> None:
        """Narrows the addresses among the operands on the stack. The lowest operand is one."""
        over = [(it, self.own_local(I32 if it is ADDRESS else it, place)) for place, it in enumerate(operands[1:])]
        for kind, local in reversed(over):
            self.out += (WRAP if kind is ADDRESS else b"") + bytes([LOCAL_SET]) + local
        self.out += WRAP
        for _, local in over:
            self.out += bytes([LOCAL_GET]) + local

    def instruction(self, code: int) -> None:
        if code in NUMBERS_AFTER:
            self.plain(code, NUMBERS_AFTER[code])
        elif code in LOADS or code in STORED:
            self.access(code, (ADDRESS, STORED[code]) if code in STORED else (ADDRESS,))
        elif code in BYTES_AFTER:
            self.out += bytes([code]) + self.body.take(BYTES_AFTER[code])
        elif code == CALL_INDIRECT:
            self.narrow((ADDRESS,))
            self.out += bytes([code]) + number(self.body.number()) + number(self.body.number())
        elif code in (MEMORY_SIZE, MEMORY_GROW):
            self.memory(code)
        elif code == BULK:
            self.bulk(self.body.number())
        else:
            self.listed(code)

    def plain(self, code: int, numbers: int) -> None:
        self.out.append(code)
        for _ in range(numbers):
            self.out += self.body.raw_number()

    def access(self, code: int, operands: Operands) -> None:
        alignment, offset = self.body.number(), self.body.number()
        if alignment > 4 or offset >> 32:
            raise NotLowered(f"an access with alignment {alignment} and offset {offset}")
        self.narrow(operands)
        self.out += bytes([code, alignment]) + number(offset)

    def memory(self, code: int) -> None:
        """The size of the memory, or the size before it grew, which is -1 where it did not grow."""
        if code == MEMORY_GROW:
            self.narrow((ADDRESS,))
        self.plain(code, 1)
        self.out += EXTEND

    def bulk(self, code: int) -> None:
        if code not in OF_BULK:
            raise NotLowered(f"the instruction {BULK:#x} {code}")
        numbers, operands = OF_BULK[code]
        if operands:
            self.narrow(operands)
        self.out.append(BULK)
        self.plain(code, numbers)

    def listed(self, code: int) -> None:
        """An instruction with a list of numbers."""
        if code not in (BRANCH_TABLE, SELECT_OF):
            raise NotLowered(f"the instruction {code:#x}")
        count = self.body.number()
        self.out += bytes([code]) + number(count)
        for _ in range(count + (code == BRANCH_TABLE)):
            self.out += self.body.raw_number()


def sized(data: bytes) -> bytes:
    return number(len(data)) + data


def vector(parts: list[bytes]) -> bytes:
    return number(len(parts)) + b"".join(parts)


def function_type(reader: Reader) -> int:
    """How many parameters a type has."""
    if reader.byte() != 0x60:
        raise NotLowered("a type that is not of a function")
    parameters, _ = reader.sized(), reader.sized()
    return len(parameters)


def check_import(reader: Reader) -> None:
    """A memory or a table that is given to the module would have to be another."""
    reader.sized()
    name = reader.sized()
    if reader.byte() != 0:
        raise NotLowered(f"an import, {name.decode()}, that is not a function")
    reader.number()


def narrow_limits(reader: Reader) -> bytes:
    flags = reader.byte()
    if flags & ~(IS_WIDE | HAS_MOST):
        raise NotLowered(f"limits of kind {flags}")
    numbers = [reader.number() for _ in range(1 + (flags & HAS_MOST))]
    if max(numbers) >> 32:
        raise NotLowered(f"a memory or table of size {max(numbers)}")
    return bytes([flags & HAS_MOST]) + b"".join(map(number, numbers))


def narrow_table(reader: Reader) -> bytes:
    kind = reader.byte()
    if kind != FUNCTION_REFERENCE:
        raise NotLowered(f"a table of kind {kind}")
    return bytes([kind]) + narrow_limits(reader)


def narrow_place(reader: Reader) -> bytes:
    """Where a segment begins: a number that is the same as one of 32 and of 64 bits."""
    if reader.number() or reader.byte() != I64_CONST:
        raise NotLowered("a segment whose place is not a number")
    place = reader.raw_number()
    if place[-1] & 0x40 or Reader(place).number() >> 31 or reader.byte() != END:
        raise NotLowered("a segment whose place is not a number below 2 GiB")
    return bytes([0, I32_CONST]) + place + bytes([END])


def narrow_sections(found: dict[int, bytes]) -> dict[int, bytes]:
    """The sections that have addresses, written anew. `found` holds sections by their kinds."""

    def each(kind: int, read: Callable[[Reader], Read]) -> list[Read]:
        reader = Reader(found.get(kind, b"\0"))
        return reader.each(lambda: read(reader))

    each(IMPORTS, check_import)
    parameters = each(TYPES, function_type)
    bodies = zip(each(CODE, Reader.sized), each(FUNCTIONS, Reader.number))
    return {
        TABLES: vector(each(TABLES, narrow_table)),
        MEMORIES: vector(each(MEMORIES, narrow_limits)),
        ELEMENTS: vector(each(ELEMENTS, lambda it: narrow_place(it) + vector(it.each(it.raw_number)))),
        CODE: vector([sized(Function(body, parameters[kind]).lowered()) for body, kind in bodies]),
        DATA: vector(each(DATA, lambda it: narrow_place(it) + sized(it.sized()))),
    }


def is_of_target(kind: int, data: bytes) -> bool:
    """The section that names the features of wasm64."""
    return kind == CUSTOM and Reader(data).sized() == b"target_features"


def lowered(module: bytes) -> bytes:
    """The bytes of a module for wasm64 as those of one with 32-bit addresses."""
    reader = Reader(module)
    head, sections = reader.take(8), []
    while reader.is_left:
        sections.append((reader.byte(), reader.sized()))
    narrow = narrow_sections(dict(sections))
    kept = [(kind, narrow.get(kind, data)) for kind, data in sections if not is_of_target(kind, data)]
    return head + b"".join(bytes([kind]) + sized(data) for kind, data in kept)


def main() -> None:
    parser = argparse.ArgumentParser(description="Changes a linked module for wasm64 to one with 32-bit addresses.")
    parser.add_argument("wide", metavar="WIDE.wasm")
    parser.add_argument("out", metavar="OUT.wasm")
    asked = parser.parse_args()
    wide, out = asked.wide, asked.out
    if not os.path.isfile(wide):
        kit.stop(f"there is no module {wide}")
    kit.writable(out)
    with open(wide, "rb") as given, open(f"{out}.part", "wb") as narrow:
        try:
            narrow.write(lowered(given.read()))
        except NotLowered as what:
            kit.stop(f"the program's module cannot be changed to one with 32-bit addresses: it has {what}")
    os.replace(f"{out}.part", out)


if __name__ == "__main__":
    main()
