"""Pieces of the binary format, for the modules that the benchmarks make."""


def unsigned(n):
    """A number in its shortest unsigned LEB128 spelling."""
    out = b""
    while n >= 128:
        out += bytes([n % 128 + 128])
        n //= 128
    return out + bytes([n])


def signed(n):
    """A number in its shortest signed LEB128 spelling."""
    out = b""
    while not -64 <= n < 64:
        out += bytes([n % 128 + 128])
        n //= 128
    return out + bytes([n % 128])


def sized(content):
    """The length of some bytes and the bytes."""
    return unsigned(len(content)) + content


def section(id, entries):
    """A section of these entries."""
    return bytes([id]) + sized(unsigned(len(entries)) + b"".join(entries))


def module(*sections):
    """A module of these sections."""
    return b"\0asm\x01\0\0\0" + b"".join(sections)


# Two bodies for functions of one i32 to one: the first lacks an operand, so that `transform` answers `invalid` (status 5) once
# all bodies before it are read and validated; the second is valid.
INVALID = sized(b"\x00\x6a\x0b")
VALID = sized(b"\x00\x20\x00\x0b")
