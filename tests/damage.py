"""Damage to a file of widths, whatever its form: for python/tests/test_widths.py and r_widths.py, which draw it from a seed."""

KINDS = ("lost", "put in", "cut", "line lost", "line doubled", "swapped", "blanked")


def damaged(draw, text, put_in):
    """The text with a byte or a line lost, doubled, swapped or changed, one of some bytes put in, or cut off; and which of these."""
    kind, lines = draw.choice(KINDS), text.splitlines(keepends=True)
    at, line, other = draw.randrange(len(text)), draw.randrange(len(lines)), draw.randrange(len(lines))
    swapped = list(lines)
    swapped[line], swapped[other] = lines[other], lines[line]
    made = {
        "lost": text[:at] + text[at + 1:],
        "put in": text[:at] + bytes([draw.choice(put_in)]) + text[at:],
        "cut": text[:at],
        "line lost": b"".join(lines[:line] + lines[line + 1:]),
        "line doubled": b"".join(lines[:line + 1] + lines[line:]),
        "swapped": b"".join(swapped),
        "blanked": text[:at] + b" " + text[at + 1:],
    }
    return made[kind], kind
