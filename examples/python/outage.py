"""An outage of five intervals lies across the cut between two stretches, and is shorter than n = 4 on either side of it. Each stretch is
summarised by itself, and the two summaries are joined: the record is that of the uncut stretch, with the five unavailable.

    python3 outage.py LIBRARY

LIBRARY is a shared library made of libmippadusk.a, as ./examples/run makes it. Ends with 1 where anything is not as expected."""

import ctypes
import struct
import sys

COUNT, CUT = 16, 6


class Refused(Exception):
    """A refusal: its number and place."""


class Mippadusk:
    """The functions of include/mippadusk.h over bytes."""

    def __init__(self, path):
        library = ctypes.CDLL(path)
        lent = [ctypes.c_char_p, ctypes.c_size_t]
        self.mip_summary = library.mip_summary
        self.mip_summary.argtypes = lent + [ctypes.c_uint64] + lent + lent + [ctypes.c_size_t]
        self.mip_join = library.mip_join
        self.mip_join.argtypes = lent + lent + lent + [ctypes.c_size_t]
        for function in (self.mip_summary, self.mip_join):
            function.restype = ctypes.c_uint64

    def summary(self, settings, first, intervals):
        out = ctypes.create_string_buffer(1024)
        return told(self.mip_summary(settings, len(settings), first, intervals, len(intervals), out, len(out), 0), out)

    def join(self, left, right):
        out = ctypes.create_string_buffer(1024)
        return told(self.mip_join(left, len(left), right, len(right), out, len(out), 0), out)


def told(word, out):
    if word:
        raise Refused(word >> 32, word & 0xFFFF_FFFF)
    return out.raw


def expect(holds, what):
    if not holds:
        sys.exit(f"not as expected: {what}")


# Records are little-endian. Intervals of 1,000 ms, n = 4, p = 0, loss alone counts, high above one half.
SETTINGS = struct.pack("<I4B14I", 1000, 4, 0, 1, 0, 500_000, 500_000, 0, 0, 0, 0, 0, 0, 0, 0, 999_000, 0, 0, 0)


def interval(number):
    """Ten frames sent; in the outage, intervals 4 to 8, all are lost, and else each arrives after 1,000 ns."""
    if 4 <= number <= 8:
        return struct.pack("<6IQ2IB7x", number, 10, 10, 0, 0, 0, 0, 0, 0, 0)
    return struct.pack("<6IQ2IB7x", number, 10, 0, 0, 9, 0, 10_000, 1_000, 1_000, 0)


def get(record, at):
    return struct.unpack_from("<I", record, at)[0]


def show(name, s):
    """What a summary says of itself, and its loss track of its first run, of what lies between, and of its last run: docs/RECORDS.md has
    the offsets."""

    def run(at):
        return f"{get(s, at + 4)} {'high' if get(s, at) else 'low'}"

    print(f"{name} {get(s, 0)} to {get(s, 4)}: first run {run(32 + 8)}, between {get(s, 32 + 64 + 4)} unavailable, last run {run(32 + 160)}")


def main():
    mippadusk = Mippadusk(sys.argv[1])
    intervals = [interval(number) for number in range(COUNT)]

    left = mippadusk.summary(SETTINGS, 0, b"".join(intervals[:CUT]))
    right = mippadusk.summary(SETTINGS, CUT, b"".join(intervals[CUT:]))
    joined = mippadusk.join(left, right)
    uncut = mippadusk.summary(SETTINGS, 0, b"".join(intervals))

    show("left", left)
    show("right", right)
    show("joined", joined)
    expect((get(joined, 0), get(joined, 4)) == (0, COUNT), "the joined stretch is 0 to 16")
    expect(get(joined, 32 + 64 + 4) == 5, "the outage is unavailable")
    expect(joined == uncut, "the joined bytes are those of the uncut stretch")
    print(f"joined and uncut: the same {len(joined)} bytes")

    try:
        mippadusk.join(right, left)
        expect(False, "the later one is not the next")
    except Refused as refused:
        print("right before left: refused", *refused.args)
        expect(refused.args == (7, 1), "the later one is not the next")


main()
