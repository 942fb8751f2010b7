"""Counts the instructions of reach calls against a scan of every position.

usage: reach_cost.py DRIVER

The beam has 48 segments over 20,000 rings and 5,120,001 positions. A scan is
what the curve call takes for one wood part: half of what 4,096 positions add to
a call without any, taken for every position. Where the curve stays well below
the width, by its ordinates or only by its values, a reach call may take at most
5 % of the scan; where it runs close below it, at most 1.2 times. Counted by
callgrind inside the calls, so that the text of the driver is left out.
"""

import re
import subprocess
import sys
import tempfile
from pathlib import Path

SEGMENTS, RINGS, UNIT = 48, 20_000, 256
FIRST = -RINGS // 2
SAMPLED = 4_096
POSITIONS = UNIT * RINGS + 1
DEGREE = 5
BUFFERS = "num=5184:0 den=5184:0"
BREAKS = [FIRST + RINGS * i // SEGMENTS for i in range(SEGMENTS + 1)]
LISTS = (f"breaks={','.join(map(str, BREAKS))} degrees={','.join([str(DEGREE)] * SEGMENTS)} "
         f"orders={','.join(['-1'] * (SEGMENTS - 1))}")
FAR, NEAR = 0.05, 1.2
TOTAL = re.compile(r"^summary: (\d+)", re.MULTILINE)

# The ordinates of each segment in thousandths, the width, and the most that its call may take of a scan.
CURVES = {
    "ordinates below the width": ([100, 90, 80, 70, 60, 50], 200, FAR),
    "values below the width": ([0, 0, 1000, 0, 0, 0], 600, FAR),
    "steep values below the width": ([-1_000_000, 1_000_000, -1_000_000, 1_000_000, -1_000_000, 0], 700_000, FAR),
    "values close below the width": ([999, 1000, 1000, 1000, 1000, 999], 1000, NEAR),
}


def coefs_word(ordinates):
    """All joins are discontinuities, so each ordinate is a coefficient; the latewood is flat."""
    return "coefs=" + ",".join(f"{ordinate},0" for _ in range(SEGMENTS) for ordinate in ordinates)


def counted(driver, line, function):
    """Instructions inside the function, and the driver's reply."""
    with tempfile.TemporaryDirectory() as folder:
        profile = Path(folder) / "profile"
        run = subprocess.run(["valgrind", "--tool=callgrind", "-q", f"--toggle-collect={function}",
                              f"--callgrind-out-file={profile}", driver],
                             input=line + "\n", capture_output=True, check=True, text=True)
        return int(TOTAL.search(profile.read_text())[1]), run.stdout.split()[0]


def scan_cost(driver, ordinates):
    """Of all positions, by those that lie evenly over the span."""
    spread = [UNIT * FIRST + (POSITIONS - 1) * i // (SAMPLED - 1) for i in range(SAMPLED)]
    lines = [f"curve {LISTS} {coefs_word(ordinates)} at={','.join(map(str, positions))} {BUFFERS} values={2 * SAMPLED}:0"
             for positions in ([], spread)]
    none, all_sampled = (counted(driver, line, "walzhik_curve")[0] for line in lines)
    return none + (all_sampled - none) // 2 * POSITIONS // SAMPLED


def main():
    driver, failures = sys.argv[1], 0
    for name, (ordinates, width, most) in CURVES.items():
        scan = scan_cost(driver, ordinates)
        line = f"earlywood_reach {LISTS} {coefs_word(ordinates)} width={width} {BUFFERS}"
        cost, reply = counted(driver, line, "walzhik_earlywood_reach")
        holds = reply == "reach=0,16,0" and cost <= most * scan
        failures += not holds
        print(f"  {name:30} {cost:13,} of a scan's {scan:14,}: {cost / scan:8.3%}, at most {most:.0%}"
              f"{'' if holds else '  FAILED ' + reply}")
    print(f"reach_cost: {len(CURVES) - failures} passed, {failures} failed")
    return 1 if failures else 0


if __name__ == "__main__":
    sys.exit(main())
