"""Looks up, in the kernel's type information (BTF), the offsets of the members of a structure, and
the number of a function's parameters. Documentation/bpf/btf.rst describes the format.

The recorder needs a few names out of some 10 MB. A search for a name's bytes takes a tenth of a
second, while a walk over all types takes seconds on a slow machine.
"""
from __future__ import annotations

import struct
from collections.abc import Iterator
from dataclasses import dataclass

MAGIC = 0xEB9F
HEADER = struct.Struct("<HBBIIIII")
TYPE = struct.Struct("<III")
MEMBER = struct.Struct("<III")
STRUCTURE, FUNCTION, PROTOTYPE = 4, 12, 13
WORD_BITS = 32


@dataclass(frozen=True)
class Place:
    """The position of a member in its structure: its first bit, and its width in bits. The width is
    0 if the member isn't a bit field.
    """

    bit: int
    width: int

    def fetch(self, argument: int, plain_type: str) -> str:
        """Returns the expression with which a probe fetches this member
        (Documentation/trace/kprobetrace.rst). `argument` is the number, from 1, of the probed
        function's argument that points to the structure. `plain_type` is the type, such as `s32`,
        of a member that isn't a bit field.
        """
        if not self.width:
            return f"+{self.bit // 8}($arg{argument}):{plain_type}"
        offset, bit = self.bit // WORD_BITS * 4, self.bit % WORD_BITS
        return f"+{offset}($arg{argument}):b{self.width}@{bit}/{WORD_BITS}"


class KernelTypes:
    """The types of a kernel, parsed from the contents of /sys/kernel/btf/vmlinux. If the contents
    aren't valid, there are no types.
    """

    def __init__(self, data: bytes) -> None:
        self.data = data
        self.types = self.types_end = self.strings = 0
        if len(data) >= HEADER.size:
            magic, _, _, header, types, types_size, strings, _ = HEADER.unpack_from(data)
            if magic == MAGIC:
                self.types, self.types_end = header + types, header + types + types_size
                self.strings = header + strings

    def named(self, name: str, kind: int) -> Iterator[int]:
        """Yields the offsets in `data` at which a type with this name and kind may begin. Each name
        occurs once among the strings. Other bytes can look like a type, so the caller must try each
        offset.
        """
        found = self.data.find(b"\0" + name.encode() + b"\0", self.strings)
        if self.strings == 0 or found < 0:
            return
        wanted = struct.pack("<I", found + 1 - self.strings)
        place = self.data.find(wanted, self.types, self.types_end)
        while 0 <= place <= self.types_end - TYPE.size:
            if TYPE.unpack_from(self.data, place)[1] >> 24 & 31 == kind:
                yield place
            place = self.data.find(wanted, place + 1, self.types_end)

    def members(self, structure: str, wanted: tuple[str, ...]) -> dict[str, Place]:
        """Returns the positions of the wanted members of a structure, keyed by name. The result is
        empty if the structure or a member doesn't exist.
        """
        for place in self.named(structure, STRUCTURE):
            info = TYPE.unpack_from(self.data, place)[1]
            has_widths, count = bool(info >> 31), info & 0xFFFF
            if place + TYPE.size + count * MEMBER.size > self.types_end:
                continue
            found = dict(
                self.member(place + TYPE.size + i * MEMBER.size, has_widths, wanted)
                for i in range(count)
            )
            if all(it in found for it in wanted):
                return {it: found[it] for it in wanted}
        return {}

    def member(self, place: int, has_widths: bool, wanted: tuple[str, ...]) -> tuple[str, Place]:
        """Returns the name and position of the member whose entry is at the offset `place` of
        `data`. The name is empty if the member isn't wanted. `has_widths` says whether the entries
        of this structure contain the widths of bit fields.
        """
        name_place, _, offset = MEMBER.unpack_from(self.data, place)
        known = [
            it
            for it in wanted
            if self.data.startswith(it.encode() + b"\0", self.strings + name_place)
        ]
        if has_widths:
            return "".join(known), Place(offset & 0xFFFFFF, offset >> 24)
        return "".join(known), Place(offset, 0)

    def parameters(self, function: str) -> int | None:
        """Returns the number of parameters of a function. Returns None if the kernel has no such
        function.
        """
        for place in self.named(function, FUNCTION):
            number = TYPE.unpack_from(self.data, place)[2]
            return self.prototype_parameters(number)
        return None

    def prototype_parameters(self, number: int) -> int | None:
        """Returns the number of parameters of the prototype with the type number `number`. Types
        are numbered from 1. Returns None if there is no such type.
        """
        place = self.types
        for _ in range(number - 1):
            if place > self.types_end - TYPE.size:
                return None
            info = TYPE.unpack_from(self.data, place)[1]
            place += TYPE.size + extra_size(info >> 24 & 31, info & 0xFFFF)
        if place > self.types_end - TYPE.size:
            return None
        info = TYPE.unpack_from(self.data, place)[1]
        return info & 0xFFFF if info >> 24 & 31 == PROTOTYPE else None


def extra_size(kind: int, count: int) -> int:
    """Returns the number of bytes that follow the header (TYPE) of a type of this kind with `count`
    entries.
    """
    fixed, each = {1: 4, 3: 12, 14: 4, 17: 4}, {4: 12, 5: 12, 6: 8, 13: 8, 15: 12, 19: 12}
    return fixed.get(kind, 0) + each.get(kind, 0) * count
