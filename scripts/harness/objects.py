"""The symbols of object files for 64-bit processors, in ELF and in Mach-O."""

import struct


def text_at(data, at):
    return data[at : data.index(0, at)].decode()


def of_elf(data):
    """Yields the name of each global symbol of an ELF object, and whether the object defines it."""
    at, size, count = struct.unpack_from("<Q", data, 40)[0], *struct.unpack_from("<HH", data, 58)
    sections = [struct.unpack_from("<IIQQQQIIQQ", data, at + size * it) for it in range(count)]
    for kind, offset, length, link in ((it[1], it[4], it[5], it[6]) for it in sections):
        for symbol in range(offset, offset + length, 24) if kind == 2 else ():
            name, info, _, section = struct.unpack_from("<IBBH", data, symbol)
            if info >> 4:  # not local
                yield text_at(data, sections[link][4] + name), section != 0


def of_macho(data):
    """Yields the same of a Mach-O object, in which each name of C begins with `_`."""
    at = 32
    for _ in range(struct.unpack_from("<I", data, 16)[0]):
        command, size = struct.unpack_from("<II", data, at)
        if command == 2:
            offset, count, names = struct.unpack_from("<III", data, at + 8)
            for symbol in range(offset, offset + 16 * count, 16):
                name, kind = struct.unpack_from("<IB", data, symbol)
                if kind & 1:  # not local
                    yield text_at(data, names + name).removeprefix("_"), kind & 0xE != 0
        at += size


def symbols(data):
    """Returns the names of C that an object defines for others, and those that it needs of them."""
    found = list(of_elf(data) if data[:4] == b"\x7fELF" else of_macho(data))
    return {name for name, is_defined in found if is_defined}, {name for name, is_defined in found if not is_defined}
