"""Finds the version of the C library that a program requires. The program's symbols have versions,
and the highest of them is required.
"""
from __future__ import annotations

import struct

from psicli.fault import Fault

MAGIC = b"\x7fELF\x02\x01"  # 64-bit, little-endian
X86_64 = 62
HEADER_BYTES = 64
NEEDED_VERSIONS = 0x6FFFFFFE  # SHT_GNU_verneed of <elf.h>
LIBRARY = "libc.so.6"
PREFIX = "GLIBC_"


def least_libc(name: str, data: bytes) -> str:
    """Returns the lowest version of the C library, such as 2.34, that has all symbols which the
    program `data` uses. Raises a Fault if `data` isn't a program for x86-64.
    """
    if not data:
        raise Fault(f"{name} is no program: the file is empty")
    if (
        data[:6] != MAGIC
        or len(data) < HEADER_BYTES
        or struct.unpack_from("<H", data, 18)[0] != X86_64
    ):
        raise Fault(f"{name} is no program for x86-64: the file isn't ELF for it")
    try:
        found = [needed for library, needed in needed_versions(data) if library == LIBRARY]
    except (struct.error, ValueError, IndexError):
        raise Fault(f"{name} isn't a whole program: its tables of symbols end early") from None
    versions = [
        tuple(map(int, needed.removeprefix(PREFIX).split(".")))
        for needed in found
        if needed.startswith(PREFIX)
    ]
    if not versions:
        raise Fault(f"{name} asks for no version of the C library")
    return ".".join(map(str, max(versions)))


def needed_versions(data: bytes) -> list[tuple[str, str]]:
    """Returns each version of a library's symbols that the program requires, as pairs of library
    and version.
    """
    offset, size, count = struct.unpack_from("<Q", data, 40)[0], *struct.unpack_from(
        "<HH", data, 58
    )
    sections = [
        struct.unpack_from("<IIQQQQIIQQ", data, offset + size * number) for number in range(count)
    ]
    found: list[tuple[str, str]] = []
    for section in sections:
        if section[1] == NEEDED_VERSIONS:
            names = sections[section[6]][4]
            found += versions_at(data, section[4], section[7], names)
    return found


def versions_at(data: bytes, at: int, libraries: int, names: int) -> list[tuple[str, str]]:
    """Parses the tables of required versions (Elf64_Verneed, Elf64_Vernaux) at the offset `at`.
    Returns pairs of library and version. `libraries` is the number of libraries in the tables.
    """
    found: list[tuple[str, str]] = []
    for _ in range(libraries):
        _, count, library, first, following = struct.unpack_from("<HHIII", data, at)
        version = at + first
        for _ in range(count):
            _, _, _, name, more = struct.unpack_from("<IHHII", data, version)
            found.append((text_at(data, names + library), text_at(data, names + name)))
            version += more
        at += following
    return found


def text_at(data: bytes, at: int) -> str:
    """Returns the string at offset `at`, up to its zero byte."""
    return data[at : data.index(b"\0", at)].decode()
