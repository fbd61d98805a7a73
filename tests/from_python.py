"""The shared library called from Python by ctypes: every function, numbers worked out by hand.

    python3 tests/from_python.py LIBRARY VERSION
"""
import ctypes
import sys

U8, U32, SIZE = ctypes.c_uint8, ctypes.c_uint32, ctypes.c_size_t
BYTES = ctypes.POINTER(U8)


def numbers(*names):
    return [(name, U32) for name in names]


class Written(ctypes.Structure):
    _fields_ = numbers("number", "chips")


class Matched(ctypes.Structure):
    _fields_ = numbers("number", "word", "nearest", "next")


class Reading(ctypes.Structure):
    _fields_ = numbers("number", "place", "n", "count", "gap", "polarity")


class Receiver(ctypes.Structure):
    _fields_ = numbers("mode", "ended", "taken", "length", "count", "last", "octet", "gap")
    _fields_ += numbers("polarity") + [("octets", U8 * 127)]


class Step(ctypes.Structure):
    _fields_ = [("number", U32), ("receiver", Receiver)]


def load(path):
    library = ctypes.CDLL(path)
    for name, result, arguments in [
        ("write", Written, [U32, BYTES, SIZE, BYTES, SIZE]),
        ("read", Reading, [U32, BYTES, SIZE, BYTES, SIZE]),
        ("match", Matched, [U32, BYTES, SIZE]),
        ("write_checked", Written, [U32, BYTES, SIZE, BYTES, SIZE]),
        ("read_checked", Reading, [U32, BYTES, SIZE, BYTES, SIZE]),
        ("check", U32, [BYTES, SIZE]),
        ("fcs", U32, [BYTES, SIZE]),
        ("fcs_bitwise", U32, [BYTES, SIZE]),
        ("start", Step, [U32]),
        ("push", Step, [Receiver, BYTES, SIZE]),
        ("finish", Step, [Receiver]),
        ("take", Reading, [Receiver, BYTES, SIZE]),
        ("meaning", ctypes.c_char_p, [U32]),
        ("version", ctypes.c_char_p, []),
    ]:
        function = getattr(library, "lernazhup_" + name)
        function.restype, function.argtypes = result, arguments
    return library


def values(struct):
    return tuple(getattr(struct, name) for name, _ in struct._fields_)


# mode, chips a symbol, symbols an octet, gap as written; how far the next word is from the first
# symbol with its first chip wrong; what flat chips match
RADIOS = [
    (0, 15, 8, 15, 14, (6, 1, 7, 8)),
    (1, 32, 2, 12, 13, (6, 0, 16, 16)),
    (2, 16, 2, 6, 5, (6, 0, 8, 8)),
]
TEXT = b"rope 12 wet"
REPORT = (U8 * len(TEXT))(*TEXT)
failed = []


def check(what, got, want):
    if got != want:
        failed.append(what)
        print(f"python, {what}: {got} and not {want}")


def received(library, mode, size, chips, answer):
    """A frame read and stepped, to that answer."""
    back = (U8 * 127)()
    check("read", values(library.lernazhup_read(mode, chips, len(chips), back, 127)), answer)
    check("report", bytes(back[: len(TEXT)]), TEXT)
    step = library.lernazhup_start(mode)
    check("start", step.receiver.gap, 2**32 - 1)
    for at in range(0, len(chips), size):
        check("push", step.number, 13)
        step = library.lernazhup_push(step.receiver, (U8 * size)(*chips[at : at + size]), size)
    check("polarity held", step.receiver.polarity, answer[-1])
    check("take", values(library.lernazhup_take(step.receiver, back, 127)), answer)
    check("finish", library.lernazhup_finish(step.receiver).number, 10)


def plain(library, mode, size, octet, gap, following):
    """A frame with its first chip wrong, in mode 0 either way round; its chips."""
    symbols = (6 + len(TEXT)) * octet
    chips = (U8 * (symbols * size))()
    written = library.lernazhup_write(mode, REPORT, len(TEXT), chips, len(chips))
    check("write", values(written), (0, len(chips)))
    chips[0] ^= 1
    check("match", values(library.lernazhup_match(mode, chips, size)), (0, 0, 1, following))
    answer = (0, symbols, len(TEXT), 1, min(gap, following - 1))
    received(library, mode, size, chips, answer + (0,))
    if mode == 0:
        inverse = (U8 * len(chips))(*(1 - chip for chip in chips))
        received(library, mode, size, inverse, answer + (1,))
    return chips


def checked(library, mode, size, octet, gap, chips):
    """A frame with its FCS, read, and those chips without one."""
    symbols, back = (8 + len(TEXT)) * octet, (U8 * 127)()
    longer = (U8 * (symbols * size))()
    written = library.lernazhup_write_checked(mode, REPORT, len(TEXT), longer, len(longer))
    check("write_checked", values(written), (0, len(longer)))
    reading = library.lernazhup_read_checked(mode, longer, len(longer), back, 127)
    check("read_checked", values(reading), (0, symbols, len(TEXT) + 2, 0, gap, 0))
    check("its report", bytes(back[: len(TEXT) + 2]), TEXT + b"\xb5\xc0")
    check("check", library.lernazhup_check(back, len(TEXT) + 2), 0)
    reading = library.lernazhup_read_checked(mode, chips, len(chips), back, 127)
    check("read_checked without an FCS", values(reading), (15, symbols - 2 * octet, 0, 0, 0, 0))


def flat(library, mode, size, lost):
    chips, back = (U8 * size)(), (U8 * 127)()
    check("match of flat chips", values(library.lernazhup_match(mode, chips, size)), lost)
    reading = library.lernazhup_read(mode, chips, size, back, 127)
    check("flat chips", values(reading), (6, 0, 0, 0, 0, 0))
    check("their meaning", library.lernazhup_meaning(reading.number), b"symbol lost")


def main():
    library = load(sys.argv[1])
    for mode, size, octet, gap, following, lost in RADIOS:
        chips = plain(library, mode, size, octet, gap, following)
        checked(library, mode, size, octet, gap, chips)
        flat(library, mode, size, lost)
    check("fcs", library.lernazhup_fcs(REPORT, len(TEXT)), 0xC0B5)
    check("fcs_bitwise", library.lernazhup_fcs_bitwise(REPORT, len(TEXT)), 0xC0B5)
    check("version", library.lernazhup_version().decode(), sys.argv[2])
    return len(failed) != 0


sys.exit(main())
