"""Checks the model of Tucson files against what § 14 states.

Small texts with each number and its place, then random texts and lists: what
is written reads back, what is read is written in as many bytes, and refusals
leave every lent cell.
"""

from random import Random

from random_tucson import random_lists, random_text
from space import Refusal
from tucson import (Series, read_tucson, series_of_lists, tucson_read, tucson_write,
                    write_tucson)

A, B = b"ABC01   ", b"ABC02   "
READ = {
    b"": [],
    A + b"1903  1204     0   999 -9999\n": [Series(A, 1903, (1204, 0, 999))],
    A + b"1903   120  9999   999\n": [Series(A, 1903, (1200, 99990))],
    A + b"  -1 99999\n" + A + b"   0   999 -9999\n": [Series(A, -1, (99999, 999))],
    A + b"1908     7     8\n" + A + b"1910   999\n": [Series(A, 1908, (70, 80))],
    A + b"-999   999\n" + B + b"9999 -9999\n": [Series(A, -999, ()), Series(B, 9999, ())],
}
REFUSED = {
    A + b"1903\n": (11, 1), A + b"1903 -9999": (11, 1), A + b"1903 -9999 \n": (11, 1),
    b" " * 8 + b"1903 -9999\n": (11, 1), A + b"19 3 -9999\n": (11, 1),
    A + b"1903 -9999   999\n": (11, 1), A + b"1903    -1 -9999\n": (11, 1),
    A + b"1903100000 -9999\n": (11, 1), A + b"  -1     1   999\n": (11, 1),
    A + b"1908   999\n\n": (11, 2),
    A + b"1908   999\n" + B + b"1908     1     2   999\n": (11, 2),
    A + b"1909 -9999\n" + A + b"1910   999\n": (11, 1),
    A + b"1909     7\n" + A + b"\n": (11, 2),
    A + b"1908     7     8\n" + A + b"1920   999\n": (12, 2),
    A + b"1908     7\n" + A + b"1909   999\n": (12, 2),
    A + b"1908     7\n" + B + b"1909   999\n": (13, 1),
    A + b"1909 10000\n" + A + b"1910   999\n": (13, 2),
    A + b"1909     7\n" + A[:7] + b"\n": (13, 1),
}
UNWRITABLE = (Series(b" " * 8, 1908, ()), Series(b"ABC\t01  ", 1908, ()), Series(A, -1000, ()),
              Series(A, 9999, (1,)), Series(A, 1908, (-1,)), Series(A, 1908, (100_000,)))


def refusal_of(call, *given):
    try:
        call(*given)
    except Refusal as refusal:
        return refusal.number, refusal.place
    return None


def check_stated(tally):
    for text, series in READ.items():
        tally.check(read_tucson(text) == series, "tucson", text)
    for text, refusal in REFUSED.items():
        tally.check(refusal_of(read_tucson, text) == refusal, "tucson", text, refusal)
    for series in UNWRITABLE:
        refusal = refusal_of(write_tucson, [Series(B, 1, ()), series])
        tally.check(refusal == (11, 1), "tucson", series)
    again = refusal_of(write_tucson, [Series(B, 1, ()), Series(B, 2, ())])
    tally.check(again == (11, 1), "tucson name again")


def check_text(tally, text):
    buffers = (b"." * len(text), [1] * len(text), [2] * len(text), [3] * len(text))
    reply, *after = tucson_read(text, *buffers)
    if reply.number:
        tally.check(tuple(after) == buffers, "tucson refusal writes", text)
        return
    series = read_tucson(text)
    written = write_tucson(series)
    tally.check(len(written) == len(text) and read_tucson(written) == series, "tucson again", text)
    tally.check(tucson_read(written, *buffers)[1:] == tuple(after), "tucson cells", text)


def check_lists(tally, lists):
    reply, text = tucson_write(*lists, b"")
    written = reply
    if reply.number == 1:
        series = series_of_lists(*lists)
        needed = len(write_tucson(series))
        written, text = tucson_write(*lists, b"." * (needed + 2))
        tally.check(written.count == needed and text[needed:] == b"..", "tucson bytes", lists)
        tally.check(read_tucson(text[:needed]) == series, "tucson back", lists)
    tally.check(written.number in (0, 2, 11), "tucson lists", lists, written)


def check_tucson(tally, seed, count):
    rng = Random(seed)
    check_stated(tally)
    for _ in range(count):
        check_text(tally, random_text(rng))
        check_lists(tally, random_lists(rng))
