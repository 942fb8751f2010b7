"""Random sheets: legal text of random calls, and damage to the text itself.

Text damage aims at number 10 in each way the specification names, at every line, and
at the forms that a pair can't have; damage to the lists aims at the other numbers. As with calls, the model
decides what the program must print.
"""

from cases import numbers_text, pairs_text
from limits import MOST_DIGITS, MOST_LIST_ENTRIES, MOST_SHEET_BYTES
from random_spaces import pick

NAMES = (b"breaks", b"degrees", b"orders", b"coefs", b"at")
COEFS = NAMES.index(b"coefs")
BAD_NUMBERS = (b"12345678", b"-12345678", b"00", b"01", b"-01", b"007", b"-0", b"+1",
               b"0000000", b"-", b"--1", b"1-", b"1 ", b" 1", b"1.0", b"1e3", b"0x1",
               b"", b"a", b"1\r", b"1\t", b"1\x00", b"\xd9\xa1", b"1;2", b"99999999999999999999")
EDGE_NUMBERS = (b"9999999", b"-9999999", b"1000000", b"-1000000", b"0", b"-1")
BAD_BYTES = (0, 9, 11, 13, 32, 43, 47, 58, 127, 128, 195, 255)
TAILS = (b"\n", b"x", b"\r\n", b"\x00", b" ", b"at=\n", b"low=1\n", b"\n\n", b"breaks=0,1\n")
BAD_NAMES = (b"", b"Breaks", b"break", b"breakss", b"ats", b" at", b"at ", b"orders",
             b"\xef\xbb\xbfbreaks")


def call_lines(call):
    """The sheet's lines; an odd count of coefficients leaves a plain number at the end."""
    texts = (numbers_text(call.breaks), numbers_text(call.degrees), numbers_text(call.orders),
             pairs_text(call.coefs), numbers_text(call.positions))
    return [name + b"=" + text.encode("ascii") for name, text in zip(NAMES, texts)]


def joined(lines):
    return b"".join(line + b"\n" for line in lines)


def any_line(rng, lines):
    return rng.randrange(len(lines))


def entry_in(rng, lines, place, replaced):
    """One entry of a line replaced by what the function makes of it."""
    head, _, text = lines[place].partition(b"=")
    entries = text.split(b",")
    chosen = rng.randrange(len(entries))
    entries[chosen] = replaced(entries[chosen])
    lines[place] = head + b"=" + b",".join(entries)
    return joined(lines)


def number_in(rng, lines, numbers):
    """One number of one line replaced, on either side of a pair."""
    def replaced(entry):
        sides = entry.split(b":")
        sides[rng.randrange(len(sides))] = rng.choice(numbers)
        return b":".join(sides)
    return entry_in(rng, lines, any_line(rng, lines), replaced)


def bad_pair(rng, lines):
    """A pair in a form that it can't have."""
    def replaced(entry):
        early, _, late = entry.partition(b":")
        return rng.choice((early, early + b":", b":" + late, b":", early + b"," + late,
                           early + b"::" + late, entry + b":" + early, b":" + entry,
                           entry + b":", early + b": " + late, early + b" :" + late,
                           entry + b" ", early + b";" + late))
    return entry_in(rng, lines, COEFS, replaced)


def misplaced_pair(rng, lines):
    """A pair in a line of plain numbers, or plain numbers in the line of pairs."""
    place = any_line(rng, lines)
    if place == COEFS:
        lines[place] = lines[place].replace(b":", b",")
        return joined(lines)
    return entry_in(rng, lines, place, lambda entry: entry + b":" + entry)


def bad_number(rng, lines):
    return number_in(rng, lines, BAD_NUMBERS)


def edge_number(rng, lines):
    return number_in(rng, lines, EDGE_NUMBERS)


def bad_comma(rng, lines):
    place = any_line(rng, lines)
    head, _, text = lines[place].partition(b"=")
    lines[place] = head + b"=" + rng.choice((text + b",", b"," + text, b",",
                                            text.replace(b",", b",,", 1), text + b",,"))
    return joined(lines)


def entry_count(rng, lines):
    """A line with about as many entries as a list may have."""
    place = any_line(rng, lines)
    count = MOST_LIST_ENTRIES + rng.choice((-1, 0, 1, 1, 2))
    entry = b"0:0" if place == COEFS else b"0"
    lines[place] = NAMES[place] + b"=" + b",".join([entry] * count)
    return joined(lines)


def bad_name(rng, lines):
    place = any_line(rng, lines)
    _, equals, text = lines[place].partition(b"=")
    name = rng.choice(BAD_NAMES)
    lines[place] = rng.choice((name + equals + text, NAMES[place] + text, NAMES[place]))
    return joined(lines)


def bad_line_order(rng, lines):
    """A line left out, moved or doubled, or an empty one put in."""
    place = any_line(rng, lines)
    before, line, after = lines[:place], lines[place:place + 1], lines[place + 1:]
    return joined(rng.choice((before + after, line + before + after, before + after + line,
                              before + line + line + after, before + [b""] + line + after)))


def bad_line_end(rng, lines):
    """Byte 13 before one or every byte 10, or in its place."""
    text = joined(lines)
    place = any_line(rng, lines)
    lines[place] += b"\r"
    return rng.choice((joined(lines), text.replace(b"\n", b"\r\n"), text.replace(b"\n", b"\r")))


def cut_short(rng, lines):
    text = joined(lines)
    whole_lines = joined(lines[:any_line(rng, lines)])
    return rng.choice((text[:-1], text[:-1], b"", b"\n", whole_lines, whole_lines,
                       text[:rng.randrange(len(text))]))


def bad_tail(rng, lines):
    return joined(lines) + rng.choice(TAILS)


def one_byte(rng, lines):
    """One byte changed, added or taken out anywhere."""
    text = joined(lines)
    place = rng.randrange(len(text))
    byte = bytes([rng.choice(BAD_BYTES + (rng.randrange(256), ord("0"), ord(","), ord("\n")))])
    end = place + rng.choice((0, 1))
    return text[:place] + rng.choice((byte, byte, b"")) + text[end:]


def entries_of(size):
    """Numbers of at most seven digits whose text with commas has `size` bytes."""
    entries = []
    while size > 0:
        width = min(size, MOST_DIGITS + 1)
        if size - width == 1:      # one byte has no room for a digit and a comma
            width -= 1
        entries.append(b"1" * (width - 1))
        size -= width
    return b",".join(entries)


LONGEST_PAIR = b"1" * MOST_DIGITS + b":" + b"1" * MOST_DIGITS


def padded(lines, size):
    """A sheet of exactly `size` bytes with good text, by long coefs and at lists."""
    *front, _, _ = lines
    coefs = b"coefs=" + b",".join([LONGEST_PAIR] * (MOST_LIST_ENTRIES // 2))
    head = joined(front + [coefs]) + b"at="
    return head + entries_of(size - len(head)) + b"\n"


def about_full(rng, lines):
    """Text at the size limit, one byte under or over it, or far over it."""
    size = MOST_SHEET_BYTES + rng.choice((-1, 0, 0, 1, 1, 2))
    far = rng.randint(MOST_SHEET_BYTES + 1, 2 * MOST_SHEET_BYTES)
    text = padded(lines, size)
    return rng.choice((text, text, joined(lines) + b"\n" * far, b"\x80" * size,
                       rng.choice((b"breaks=", b"x")) + b"0" * (size - 1)))


def noise(rng, lines):
    return bytes(rng.randrange(256) for _ in range(rng.randrange(len(joined(lines)))))


TEXT_DAMAGE = [(18, bad_number), (6, edge_number), (10, bad_pair), (4, misplaced_pair),
               (8, bad_comma), (3, entry_count), (8, bad_name), (8, bad_line_order),
               (6, bad_line_end), (12, cut_short), (10, bad_tail), (14, one_byte),
               (4, about_full), (3, noise)]


def damaged_text(rng, call):
    return pick(rng, TEXT_DAMAGE)(rng, call_lines(call))


def call_sheet(call):
    return joined(call_lines(call))
