"""Counts the instructions of the engine and of the plain program on the same calls.

usage: speed.py BENCHMARK

BENCHMARK is docs/src/benchmark.rs, linked with the engine. It checks that both
give the same answers, cells and values, and counts each call with valgrind's
callgrind. The limits stand beside what was measured, with a tenth of room: of
the engine's instructions to the plain program's in each row of the table, and
of how the engine's grow with segments, positions and parts; and of a call for
coefficients, which the plain program has not, to the engine's build of the same
space.
"""

import re
import subprocess
import sys

ROOM = 1.1
STEADY = 0.02             # how far the cost of a position may be from that in the largest call
FEWEST_SEGMENTS = 2
PART_SEGMENTS = 12
BEAM_SEGMENTS = 48
LINE = re.compile(r"(degree \d order \d|mixed degrees) segments (\d+) parts (\d+) (build|curve|coefficients)(?: (\d+) (\S+))?: (\d+) (\d+)")

# The engine's instructions to the plain program's: of the build, and of the curve calls the largest.
MEASURED = {
    ("degree 1 order 0", 12, 1): (0.66, 0.61),
    ("degree 2 order 0", 12, 1): (0.60, 0.69),
    ("degree 2 order 1", 12, 1): (0.56, 0.68),
    ("degree 3 order 0", 12, 1): (0.56, 0.68),
    ("degree 3 order 1", 12, 1): (0.53, 0.67),
    ("degree 3 order 2", 12, 1): (0.52, 0.66),
    ("degree 4 order 0", 12, 1): (0.54, 0.66),
    ("degree 4 order 1", 12, 1): (0.52, 0.65),
    ("degree 4 order 2", 12, 1): (0.50, 0.64),
    ("degree 5 order 0", 12, 1): (0.50, 0.64),
    ("degree 5 order 1", 12, 1): (0.50, 0.63),
    ("degree 5 order 2", 12, 1): (0.49, 0.62),
    ("mixed degrees", 12, 1): (0.54, 0.64),
    ("mixed degrees", 12, 4): (0.73, 0.67),
    ("mixed degrees", 48, 4): (0.53, 0.66),
    ("degree 3 order 1", 6, 1): (0.71, 0.67),
}

# A call for coefficients to the engine's build of the same space.
MEASURED_COEFFICIENTS = {
    ("degree 1 order 0", 12, 1): 2.00,
    ("degree 3 order 1", 12, 1): 1.69,
    ("degree 3 order 2", 12, 1): 1.56,
    ("degree 5 order 2", 12, 1): 1.49,
    ("mixed degrees", 12, 1): 1.63,
    ("mixed degrees", 48, 4): 1.64,
}

# A build of 12 segments to one of 2, and a beam of 48 in 48 parts to one in 4.
MEASURED_GROWTH = {
    "degree 1 order 0": (4.7, 0.17),
    "degree 3 order 1": (8.9, 0.08),
    "degree 5 order 2": (12.8, 0.05),
}


def counted(benchmark):
    """Each call, by its words and numbers, with the instructions of both programs."""
    report = subprocess.run([benchmark, "counts"], capture_output=True, text=True, check=True).stdout
    counts = {}
    for line in report.splitlines():
        kind, segments, parts, call, positions, pattern, engine, plain = LINE.fullmatch(line).groups()
        counts[kind, int(segments), int(parts), call, int(positions or 0), pattern] = int(engine), int(plain)
    return counts


def ratio_failures(counts):
    """The calls of the table against the plain program."""
    for space, measured in MEASURED.items():
        for call, limit in zip(("build", "curve"), measured):
            ratios = [engine / plain for key, (engine, plain) in counts.items() if key[:4] == (*space, call)]
            if not ratios:
                yield f"{space} {call}: not counted"
                continue
            print(f"  {space[0]}, {space[1]} segments, {space[2]} parts, {call}: {max(ratios):.2f}, measured {limit:.2f}")
            if max(ratios) > ROOM * limit:
                yield f"{space} {call}: {max(ratios):.3f} of the plain program's instructions, at most {ROOM * limit:.3f}"


def coefficient_failures(counts):
    """The calls for coefficients against the builds of the same spaces."""
    for space, limit in MEASURED_COEFFICIENTS.items():
        recovered, built = counts[(*space, "coefficients", 0, None)]
        ratio = recovered / built
        print(f"  {space[0]}, {space[1]} segments, {space[2]} parts, coefficients: {ratio:.2f} builds, measured {limit:.2f}")
        if ratio > ROOM * limit:
            yield f"{space} coefficients: {ratio:.3f} builds, at most {ROOM * limit:.3f}"


def position_failures(counts):
    """Instructions a position, from one call to the next larger one."""
    for kind in MEASURED_GROWTH:
        sizes = sorted((key[4], counts[key][0]) for key in counts
                       if key[:4] == (kind, PART_SEGMENTS, 1, "curve") and key[5] == "scattered")
        steps = [(later - earlier) / (more - fewer) for (fewer, earlier), (more, later) in zip(sizes, sizes[1:])]
        print(f"  {kind}: instructions a position " + ", ".join(f"{step:.1f}" for step in steps))
        if len(steps) < 2 or any(abs(step / steps[-1] - 1) > STEADY for step in steps):
            yield f"{kind}: a position's cost changes with their number"


def growth_failures(counts):
    """Builds of 12 segments against those of 2, and beams in 48 parts against those in 4."""
    def build(kind, segments, parts):
        return counts[kind, segments, parts, "build", 0, None][0]

    for kind, (by_segments, by_parts) in MEASURED_GROWTH.items():
        segments = build(kind, PART_SEGMENTS, 1) / build(kind, FEWEST_SEGMENTS, 1)
        parts = build(kind, BEAM_SEGMENTS, BEAM_SEGMENTS) / build(kind, BEAM_SEGMENTS, BEAM_SEGMENTS // PART_SEGMENTS)
        print(f"  {kind}: {segments:.1f} times from {FEWEST_SEGMENTS} segments to {PART_SEGMENTS}, measured {by_segments};"
              f" {parts:.1f} times from 4 parts to {BEAM_SEGMENTS}, measured {by_parts}")
        if segments > ROOM * by_segments or parts > ROOM * by_parts:
            yield f"{kind}: a build grows more than a tenth over what was measured"


def main():
    counts = counted(sys.argv[1])
    failures = [failure for test in (ratio_failures, coefficient_failures, position_failures, growth_failures)
                for failure in test(counts)]
    for failure in failures:
        print("failed:", failure)
    print(f"speed: {len(counts)} calls, {len(failures)} failed")
    return 1 if failures or not counts else 0


if __name__ == "__main__":
    sys.exit(main())
