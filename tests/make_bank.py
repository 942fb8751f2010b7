"""Makes a data bank of Tucson files from a seed: for the measurements and tests of `./walzhik bank`.

    python3 tests/make_bank.py FOLDER [--files 2000] [--series 10] [--rings 200] [--seed 1]

The same arguments give the same bytes. Every fifth file is packed (.rwl.gz). Widths fall with age and scatter around that; one ring in
300 is absent. The lines are written here, by a writer that shares nothing with the engine.
"""

import argparse
import gzip
import math
import random
from pathlib import Path

DECADE, FIELD_COLUMNS, NAME_COLUMNS, YEAR_COLUMNS = 10, 6, 8, 4
CLOSING = -9999  # widths in thousandths of a millimetre
FILES_A_SITE = 50
PACKED_EVERY = 5
ABSENT = 1 / 300
FIRST_YEARS = (1200, 1800)
WIDEST, LEVEL, FADING, SCATTER = 2600, 500, 60, 0.25
MOST_WIDTH = 9990


def widths(draw, rings):
    """The widths of a series: a curve that falls with age, times noise whose logarithm is normal."""
    wide, level, fading = (value * draw.uniform(0.6, 1.4) for value in (WIDEST, LEVEL, FADING))
    made = []
    for ring in range(rings):
        width = (wide * math.exp(-ring / fading) + level) * math.exp(draw.gauss(0, SCATTER))
        made.append(0 if draw.random() < ABSENT else min(max(1, round(width)), MOST_WIDTH))
    return made


def text(name, first, values):
    """A series in the strict decadal form: a line a decade, closed behind its last width."""
    lines, fields, year = [], [*values, CLOSING], first
    while fields:
        count = DECADE - year % DECADE
        columns = "".join(f"{field:{FIELD_COLUMNS}}" for field in fields[:count])
        lines.append(f"{name:{NAME_COLUMNS}}{year:{YEAR_COLUMNS}}{columns}\n")
        fields, year = fields[count:], year + count
    return "".join(lines)


def file_text(draw, number, series, rings):
    """The text of a file."""
    named = (f"W{number:04}{place:03}" for place in range(series))
    return "".join(text(name, draw.randint(*FIRST_YEARS), widths(draw, rings)) for name in named)


def make(folder, files, series, rings, seed):
    """Write the bank, and give the paths of its files."""
    paths = []
    for number in range(files):
        draw = random.Random(f"{seed} {number}")
        data = file_text(draw, number, series, rings).encode("ascii")
        is_packed = number % PACKED_EVERY == PACKED_EVERY - 1
        path = Path(folder) / f"site{number // FILES_A_SITE:03}" / f"w{number:04}.rwl{'.gz' if is_packed else ''}"
        path.parent.mkdir(parents=True, exist_ok=True)
        path.write_bytes(gzip.compress(data, mtime=0) if is_packed else data)
        paths.append(path)
    return paths


def main():
    parser = argparse.ArgumentParser(description="Make a data bank of Tucson files from a seed.")
    parser.add_argument("folder")
    parser.add_argument("--files", type=int, default=2000)
    parser.add_argument("--series", type=int, default=10)
    parser.add_argument("--rings", type=int, default=200)
    parser.add_argument("--seed", type=int, default=1)
    asked = parser.parse_args()
    made = make(asked.folder, asked.files, asked.series, asked.rings, asked.seed)
    print(f"{len(made)} files with {len(made) * asked.series} series of {asked.rings} rings")


if __name__ == "__main__":
    main()
