"""Checks the model of laboratories' files against what § 16 states.

Small files with each number and note, then random ones: what is answered is
shown in the file's own columns, no line is lost without a note, a strict text
stays as it is, cleaning again changes nothing, and the strict reader accepts it
and finds each width in the columns of its year.
"""

from random import Random

from cleaning import clean, cleaned
from limits import FIELD_COLUMNS, HUNDREDTHS_CLOSING, NAME_COLUMNS, NO_HEADER, NO_UNIT
from random_files import OPTIONS, random_file, unexpanded
from random_tucson import random_text
from space import Refusal
from tucson import HEAD, parse_line, read_tucson, split_lines

OAK = b"OAK     "
TEN = OAK + b"1890" + b"   812" * 10
ANSWERED = {    # file: the notes as pairs of line and number
    OAK + b"1895    81    79    65    90   999\n" + OAK + b"1900   812   702 -9999\n": [(1, 13)],
    OAK + b"1890   700   701     0     0   999\n": [(1, 12)],
    OAK + b"1890   700   999\nPINE    1890   700 -9999\nASH     1890     7   999\n": [(2, 14)],
    TEN + b" CO523\n" + OAK + b"1900 -9999\n": [(1, 7)],
    OAK + b"1890   812 -9999" + b" " * 60 + b"CO523\n": [(1, 7)],
    OAK + b"1890 -9999\n": [(1, 12)],
    OAK + b"1889     0\n" + OAK + b"1890 -9999\n": [(1, 12)],
    OAK + b"1889   999\n" + OAK + b"1890   999 -9999\n": [(1, 13), (2, 13)],
    b"": [], b"\xef\xbb\xbf": [(1, 1)], b"\x1a": [(1, 2)], b"\r\n\n \t\n": [(1, 3), (1, 6), (2, 6), (3, 4), (3, 6)],
    b"\xef\xbb\xbfOAK\t1890\t 7   999 \r\n\n\x1a\r\n": [(1, 1), (1, 3), (1, 4), (1, 5), (2, 6), (3, 2)],
    OAK + b"1890     7   999": [(1, 8)], OAK + b"1890     7   999\x1a\x1a": [(1, 2), (1, 8)],
    b"QUSP01 1 Oaks\nQUSP01 2\nQUSP01 3 \xe9\n" + OAK + b"1890     7   999\n": [(1, 9), (2, 9), (3, 9)],
    b"\xc9AK     1890     7   999\n": [(1, 10)], b"\xc3\x89AK     1890     7   999\n": [(1, 10)],
    OAK + b"1899     7\nOAK\t1900 -9999\n": [(2, 4)],
}
REFUSED = {    # file: number and line
    b"OAK01\t1895   812\t   655 -9999": (11, 1), b"OAK01A\t12\t1920\t128\t130\t-9999": (11, 1),
    OAK + b"1895    81    79    65   999\n" + OAK + b"1910   820   700 -9999\n": (12, 2),
    b"OAK 01 1 850    12    13    14   999 A\nOAK 01 2 850    12    13    14   999 A\n"
    b"OAK 01 3 850    12    13    14   999 A\n" + OAK + b"1890 -9999\n": (11, 1),
    b"ABC01  11895   812 -9999": (23, 1), b"ABC012-11895   812 -9999": (23, 1),
    "ABC01  −1012   812 -9999".encode(): (23, 1), b"FJ -725 1483 -9999": (23, 1),
    TEN + b"   709\n": (11, 1), TEN + b" BC\n": (11, 1),
    OAK + b"1890     7  -999\n": (24, 1), OAK + b"1890   999     7   999\n": (25, 1),
    OAK + b"1890     7   999\n\n\nOAK2    1890 99999   999\n": (13, 4),
    b"\n" + OAK + b"1890 -9999     7   999\n": (11, 2), b"\xff\xfe\n\x00": (21, 1), b"\n\n\xef\xbb\xbf\x00": (21, 3),
    b"\n\x1a\x1b\n\x00": (21, 2), b"\n\r": (21, 2), b"\r\x1a": (21, 1), b"\xef\xbb\xbf\xef\xbb\xbf": (21, 1),
    b"\xc9AK\t1890     7   999\n": (22, 1), b"\xc9AKE    1890     7   999\n\xcaAKE    1900     7   999\n": (22, 2),
    "\U0001f332\U0001f3331900  1895   999\n".encode(): (22, 1), b"\xc9\xc9AK     1890     7   999\n": (22, 1),
}
WITH_OPTIONS = {    # file, header, unit: number and place, or the answer's text and notes
    (b"", 101, 7): (26, 0), (b"\x00", 100, 7): (24, 0), (b"\x00", 1, 0): (21, 1), (b"", 1, 0): (26, 0),
    (b"x", 1, 0): (b"", [(1, 8), (1, 9)]), (b" \nx\n", 2, 0): (b"", [(1, 6), (2, 9)]),
    (b"\n" + OAK + b"1890   999\n", 2, 0): (26, 2), (OAK + b"1890     7 -9999\n", 100, 100): (24, 1),
    (OAK + b"1890     7   999\n", 100, 1000): (24, 1),
    (OAK + b"1890     7  -999\n", 0, 100): (OAK + b"1890     7   999\n", [(1, 11)]),
    (OAK + b"1890   999  -999\n", 0, 1000): (OAK + b"1890   999 -9999\n", [(1, 11), (1, 13)]),
    (OAK + b"1890   999  -999\n", 0, 100): (25, 1),
}


def outcome_of(*given):
    """Text and notes of an answer, or number and place of a refusal."""
    try:
        text, _, notes = cleaned(*given)
    except Refusal as refusal:
        return refusal.number, refusal.place
    return text, notes


def check_stated(tally):
    for file, notes in ANSWERED.items():
        tally.check(outcome_of(file)[1] == notes, "clean", file, outcome_of(file))
    for file, refusal in REFUSED.items():
        tally.check(outcome_of(file) == refusal, "clean", file, outcome_of(file))
    for given, outcome in WITH_OPTIONS.items():
        tally.check(outcome_of(*given) == outcome, "clean", given, outcome_of(*given))


# What is stated of every answer.

def as_shown(raw):
    """A line of the file by Python's own tabs, without mark, end and site name, as bytes and perhaps as characters."""
    body = raw.partition(b"\x1a")[0].removeprefix(b"\xef\xbb\xbf").rstrip(b"\r\n").expandtabs(8).rstrip(b" ")
    shown = [body, body[:72].rstrip(b" ")] if len(body) > 72 else [body]
    try:
        return shown + [line.decode("utf-8").encode("ascii", "replace") for line in shown]
    except UnicodeDecodeError:
        return shown


def fits(line, shown, noted):
    """Whether the answer's line is what is shown, but for ? among the columns of name and a closing that was said."""
    end = len(line) - FIELD_COLUMNS if 11 in noted else len(line)
    return len(line) == len(shown) and all(
        ours == theirs or ours == ord("?") and theirs > 127 and column < NAME_COLUMNS and 10 in noted
        for column, (ours, theirs) in enumerate(zip(line[:end], shown)))


def check_answer(tally, file, answer):
    """Shown, nothing lost, the same bytes where no note says otherwise."""
    text, numbers, notes = answer
    raws = split_lines(file)
    for line, number in zip(split_lines(text), numbers, strict=True):
        noted = {note for place, note in notes if place == number}
        tally.check(any(fits(line[:-1], shown, noted) for shown in as_shown(raws[number - 1])), "shown", file, number)
        same = line == raws[number - 1]
        tally.check(same == (not noted & {1, 2, 3, 4, 5, 7, 8, 10, 11}), "same bytes", file, number)
    for number in (place for place, note in notes if note == 9):
        tally.check(parse_line(as_shown(raws[number - 1])[0] + b"\n") is None, "a header of data", file, number)
    left = {place for place, note in notes if note in (6, 9)}
    all_lines = set(range(1, len(split_lines(file.partition(b"\x1a")[0].removeprefix(b"\xef\xbb\xbf"))) + 1))
    tally.check(sorted({*numbers}) == numbers and {*numbers} | left == all_lines and not {*numbers} & left,
                "lines", file, numbers, left)
    tally.check(sorted(set(notes)) == notes, "notes", file, notes)


def check_again(tally, file, header, unit, answer):
    """The strict reader accepts it, and cleaning again changes nothing but the remarks' lines."""
    text, numbers, notes = answer
    read_tucson(text)
    remarks = [(numbers.index(place) + 1, note) for place, note in notes if note > 11]
    for options in ((NO_HEADER, NO_UNIT), (0, unit)):
        again = cleaned(text, *options)
        tally.check(again == (text, list(range(1, len(numbers) + 1)), remarks), "again", file, header, unit, again)


def numbers_in(text):
    """Each field of a strict text by its name and year, as its columns give them."""
    return {(line[:NAME_COLUMNS], int(line[NAME_COLUMNS:HEAD]) + place): int(line[start:start + FIELD_COLUMNS])
            for line in split_lines(text) for place, start in enumerate(range(HEAD, len(line) - 1, FIELD_COLUMNS))}


def check_read(tally, text):
    """Each width that is read is the number in the columns of its year, times ten in hundredths."""
    numbers, series = numbers_in(text), read_tucson(text)
    if len({s.name for s in series}) < len(series):
        return
    for name, first, widths in series:
        scale = 10 if numbers[name, first + len(widths)] == HUNDREDTHS_CLOSING else 1
        stand = [scale * numbers[name, first + ring] for ring in range(len(widths))]
        tally.check(stand == list(widths), "widths in their columns", text, name)


def check_cells(tally, file, header, unit, answer):
    """Buffers that fit keep what lies behind; one too short by a cell refuses and keeps all."""
    text, numbers, notes = answer
    needed = (len(text), len(numbers), 2 * len(notes))
    lent = (b"." * (needed[0] + 1), [7] * (needed[1] + 2), [8] * (needed[2] + 1))
    reply, *after = clean(file, header, unit, *lent)
    tally.check(reply == (len(text), len(numbers), len(notes), 0, 0)
                and after == [text + b".", numbers + [7, 7], [cell for place, note in notes for cell in (note, place)] + [8]],
                "clean cells", file, reply)
    for place, size in enumerate(needed):
        short = tuple(buffer[:size - 1] if i == place else buffer for i, buffer in enumerate(lent))
        if size:
            tally.check(clean(file, header, unit, *short) == ((0, 0, 0, 1, place), *short), "clean short", file, place)


def check_file(tally, file, header, unit):
    try:
        answer = cleaned(file, header, unit)
    except Refusal as refusal:
        least = 0 if refusal.number in (24, 26) else 1
        tally.check(least <= refusal.place <= file.count(b"\n") + 1, "clean place", file, refusal)
        lent = (b"..", [7], [8])
        reply = (0, 0, 0, refusal.number, refusal.place)
        tally.check(clean(file, header, unit, *lent) == (reply, *lent), "clean refusal writes", file)
        return
    check_answer(tally, file, answer)
    check_again(tally, file, header, unit, answer)
    check_read(tally, answer[0])
    check_cells(tally, file, header, unit, answer)


def check_strict_text(tally, text, options):
    """A strict text that is answered is answered as it is, also where tabs stand for its blanks."""
    try:
        read_tucson(text)
        answer = cleaned(text, *options)
    except Refusal:
        return
    tally.check(answer[0] == text and {note for _, note in answer[2]} <= {12, 13, 14}, "strict text", text, options)
    tabbed = b"".join(unexpanded(line[:-1], 2) + b"\n" for line in split_lines(text))
    tally.check(cleaned(tabbed, *options)[:2] == answer[:2], "tabs for blanks", text, options)


def check_cleaning(tally, seed, count):
    rng = Random(seed)
    check_stated(tally)
    for _ in range(count):
        check_file(tally, *random_file(rng))
        check_strict_text(tally, random_text(rng), rng.choice(OPTIONS))
