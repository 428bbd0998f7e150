"""How large the code and the read-only data of a program are, from the section headers of its ELF file."""
import struct

HEADERS_AT, HEADER_SIZE_AT = 40, 58


def sections(data):
    """Name and size of each section of an ELF file of 64 bits."""
    (start,) = struct.unpack_from("<Q", data, HEADERS_AT)
    size, count, names = struct.unpack_from("<HHH", data, HEADER_SIZE_AT)
    headers = [struct.unpack_from("<IIQQQQ", data, start + size * number) for number in range(count)]
    text = headers[names][4]
    for name, _, _, _, _, length in headers:
        end = data.index(b"\0", text + name)
        yield data[text + name : end].decode(), length


def of(program):
    """The bytes of text and of read-only data."""
    found = list(sections(program.read_bytes()))
    code = sum(size for name, size in found if name == ".text")
    constants = sum(size for name, size in found if name.startswith(".rodata"))
    return code, constants
