"""What the comparisons share: runs of a driver or a program, and the first difference.

A comparison of calls gives objects with two methods: `line()`, the call line
that the driver reads, and `expected()`, the result line of a right engine with
a word for its kind and any further marks that are to be counted. A comparison
of texts gives the model's function.
"""

import argparse
import subprocess
import sys
import tempfile
from collections import Counter
from concurrent.futures import ThreadPoolExecutor
from pathlib import Path
from random import Random, SystemRandom

sys.path.insert(0, str(Path(__file__).resolve().parent / "reference"))

SECONDS = 300             # for one run
BATCH = 500               # calls given to one run of the driver
JOBS = 4                  # programs at a time
SUPPRESSED = Path(__file__).resolve().parent / "driver" / "valgrind.supp"
VALGRIND = ["valgrind", "--quiet", "--error-exitcode=9", f"--suppressions={SUPPRESSED}"]
ENOUGH = 2_000            # cases from which all that is reachable must have come up
BEFORE, AFTER = 40, 80    # characters shown around a difference
SHOWN = 400               # bytes of each text that a difference shows


def arguments(subject, count, tested="driver", case="one call line to run again"):
    parser = argparse.ArgumentParser(description=f"compare {subject} with the rational program")
    parser.add_argument(tested)
    parser.add_argument("--count", type=int, default=count)
    parser.add_argument("--seed", type=int, default=None)
    parser.add_argument("--case", default=None, help=case)
    if tested == "driver":
        parser.add_argument("--valgrind", action="store_true", help="run the driver under valgrind")
    chosen = parser.parse_args()
    if chosen.seed is None:
        chosen.seed = SystemRandom().randrange(2 ** 32)
    return chosen


# Calls, by a driver.

def command_of(chosen):
    return [*VALGRIND, chosen.driver, "--exact"] if chosen.valgrind else [chosen.driver]


def driven(command, lines):
    """The driver's result lines, how it ended, and its complaints."""
    run = subprocess.run(command, input="".join(line + "\n" for line in lines),
                         capture_output=True, text=True, timeout=SECONDS, check=False)
    return run.stdout.splitlines(), run.returncode, run.stderr.strip()


def line_difference(asked, expected, got):
    """Where two result lines part, with some text on both sides."""
    place = next((i for i, (a, b) in enumerate(zip(expected, got)) if a != b),
                 min(len(expected), len(got)))
    start, end = max(place - BEFORE, 0), place + AFTER
    return (f"call: {asked}\n  from character {start}\n  model:  {expected[start:end]}\n"
            f"  engine: {got[start:end]}")


def bad_end(command, asked, got, code, errors):
    """The first call line on which the driver ends badly by itself, or all of them together."""
    alone = (line for line in asked if driven(command, [line])[1] != 0)
    culprit = next(alone, f"no call alone, all {len(asked)} from: {asked[0]}")
    return (f"call: {culprit}\n  the driver ended with {code} after {got} of {len(asked)} "
            f"results: {errors}")


def kind_of(number):
    return f"number {number}" if number else "answers"


def batch_difference(command, calls, seen, marked):
    """The first call on which engine and model part, as text, or None."""
    asked = [call.line() for call in calls]
    lines, code, errors = driven(command, asked)
    for call, line in zip(calls, lines):
        expected, kind, *marks = call.expected()
        if line != expected:
            return line_difference(call.line(), expected, line)
        seen[kind] += 1
        marked.update(marks)
    if code != 0 or len(lines) != len(calls):
        return bad_end(command, asked, len(lines), code, errors)
    return None


def compare_calls(name, chosen, random_call, read_case, reachable):
    """Compares random calls, or the one that --case names; the exit status."""
    print(f"{name}: seed {chosen.seed}")
    rng, seen, marked, command = Random(chosen.seed), Counter(), Counter(), command_of(chosen)
    left = 1 if chosen.case else chosen.count
    while left:
        calls = ([read_case(chosen.case)] if chosen.case
                 else [random_call(rng) for _ in range(min(left, BATCH))])
        left -= len(calls)
        found = batch_difference(command, calls, seen, marked)
        if found:
            return failed(name, found, seen, chosen.seed)
    return finished(name, seen, reachable, marked)


# Texts, by a program.

def run_program(program, data):
    """What the program prints, with words of its own where it ended badly or complained."""
    run = subprocess.run([program], input=data, capture_output=True, timeout=SECONDS, check=False)
    if run.returncode != 0 or run.stderr:
        return run.stdout + b"status %d, standard error: %b\n" % (run.returncode, run.stderr)
    return run.stdout


def reply_of(printout):
    """'answers', or the number and place of a refusal."""
    line = printout.split(b"\n", 1)[0].decode("ascii", "replace")
    return line.replace("no=", "number ") if line.startswith("no=") else "answers"


def text_difference(data, expected, got):
    with tempfile.NamedTemporaryFile(prefix="case-", suffix=".txt", delete=False) as file:
        file.write(data)
    return (f"text: {file.name} ({len(data)} bytes): {data[:SHOWN]!r}\n"
            f"  model:   {expected[:SHOWN]!r}\n  program: {got[:SHOWN]!r}")


def compare_texts(program, model, texts, seen):
    """The first difference as text, or None."""
    with ThreadPoolExecutor(JOBS) as pool:
        printed = pool.map(lambda data: run_program(program, data), texts)
        for data, got in zip(texts, printed):
            expected = model(data)
            if got != expected:
                pool.shutdown(cancel_futures=True)
                return text_difference(data, expected, got)
            seen[reply_of(expected)] += 1
    return None


# The verdict.

def failed(name, found, seen, seed):
    print(found)
    print(f"{name}: {sum(seen.values())} passed, 1 failed (seed {seed})")
    return 1


def status_of(name, passed, missing):
    """The status of a comparison that has found no difference, once it is said what never came up."""
    if missing:
        print(f"{name}: never seen: {', '.join(map(str, missing))}")
    print(f"{name}: {passed} passed, {len(missing)} failed")
    return 1 if missing else 0


def finished(name, seen, reachable, marked=()):
    """Counts what came up; of enough cases all that is reachable must have."""
    for counts in (seen, marked):
        width = max(map(len, counts), default=0)
        for kind in sorted(counts):
            print(f"  {kind:{width}} {counts[kind]:6}")
    missing = sorted(set(reachable) - set(seen) - set(marked)) if sum(seen.values()) >= ENOUGH else []
    return status_of(name, sum(seen.values()), missing)
