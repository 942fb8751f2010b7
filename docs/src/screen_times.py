"""Times a hand that drags on the screen, for a core of 300 rings: from a change to the picture of the engine's answer,
in a real browser, and the server's share of it; and the server's memory over many requests. docs/PERFORMANCE.md has its
figures.

    PYTHONPATH=python/src:tests /usr/bin/python3 docs/src/screen_times.py
"""

import http.client
import json
import os
import statistics
import tempfile
import time
from pathlib import Path
from urllib.parse import urlsplit

import numpy as np
from browser.page import Page, browser
from browser.stage import ROOT, served
from walzhik import Space, sheet, tucson
from walzhik.fit import template
from walzhik.limits import MOST_PART_STRETCHES, MOST_STRETCHES, SCAR
from walzhik.view.design import Design
from walzhik.view.shown import shown

RINGS, FIRST, SEED = 300, 1700, 1
MOVES, ANSWERS = 200, 21
REQUESTS, SHOWN = 20_000, 5_000  # for the memory, and after how many it is shown
MEBIBYTE = 2**20
LENGTH = 40  # rings of a stretch of the large designs
PER_SECOND = 1000


def core():
    """A series that falls from wide to narrow rings, with noise."""
    random = np.random.default_rng(SEED)
    trend = 500 + 2500 * np.exp(-np.arange(RINGS) / 60)
    return tucson.Series("CORE300", FIRST, (trend * random.lognormal(0, 0.2, RINGS)).astype(np.int32))


def summary(times):
    """The median and the 95th of a hundred."""
    ranked = sorted(times)
    return f"median {statistics.median(ranked):.1f} ms, 95 of 100 within {ranked[len(ranked) * 95 // 100]:.1f} ms"


def browser_times(page):
    """Milliseconds from each change under the hand to its picture."""
    page.script("performance.clearMeasures('change')")
    for move in range(MOVES):
        page.key("coefficient-3-ring", "ArrowUp" if move % 2 else "ArrowDown")
        page.until(lambda: len(page.script("return performance.getEntriesByName('change')")) > move, "no answer")
    return page.script("return performance.getEntriesByName('change').map((each) => each.duration)")


def questions(address, count):
    """Ask the same question again and again over one connection, without a browser; after each the milliseconds."""
    parts = urlsplit(address)
    connection = http.client.HTTPConnection(parts.hostname, parts.port)
    connection.request("GET", f"{parts.path}given")
    body = json.dumps({"design": json.load(connection.getresponse())["design"], "before": None})
    for _ in range(count):
        start = time.perf_counter()
        connection.request("POST", f"{parts.path}curve", body, {"Content-Type": "application/json"})
        connection.getresponse().read()
        yield PER_SECOND * (time.perf_counter() - start)


def memory(address, process):
    """The memory that the server holds, in MiB, after every so many requests."""
    for place, _ in enumerate(questions(address, REQUESTS), 1):
        if place % SHOWN == 0:
            pages = int(Path(f"/proc/{process.pid}/statm").read_text().split()[1])
            yield place, pages * os.sysconf("SC_PAGE_SIZE") / MEBIBYTE


def large_designs():
    """The beam of the examples, and the longest ones of cubic stretches and of stretches drawn by values."""
    beam = sheet.read((ROOT / "examples/sheets/beam.sheet").read_bytes())
    yield "the beam of 31 stretches", Design(beam.breaks, beam.degrees, beam.orders, beam.pairs, False)
    breaks = list(range(0, LENGTH * MOST_STRETCHES + 1, LENGTH))
    cubic = [SCAR if join % MOST_PART_STRETCHES == 0 else 2 for join in range(1, MOST_STRETCHES)]
    for degree, orders in ((3, cubic), (5, [SCAR] * (MOST_STRETCHES - 1))):
        space = Space(breaks, [degree] * MOST_STRETCHES, orders)
        pairs = [(500 + row, 300 + row) for row in range(space.n)]
        yield f"48 stretches of degree {degree}", Design(breaks, [degree] * MOST_STRETCHES, orders, pairs, False)


def answer_time(design):
    """Milliseconds of processor time for one answer, the median of several."""
    times = []
    for _ in range(ANSWERS):
        start = time.process_time()
        assert shown(design, None, {})["refusal"] is None
        times.append(PER_SECOND * (time.process_time() - start))
    return statistics.median(times)


def main():
    """Print all times."""
    with tempfile.TemporaryDirectory() as folder:
        path = Path(folder) / "core.rwl"
        path.write_bytes(tucson.write([core()]))
        with served(str(path)) as (address, process), browser(Path(folder)) as driver:
            space = template(RINGS, FIRST)
            print(f"{RINGS} rings, {len(space.degrees)} stretches, {space.n} coefficients, {MOVES} changes each")
            page = Page(driver, address, Path(folder))
            print(f"browser, change to picture: {summary(browser_times(page))}")
            print(f"server alone, request to answer: {summary(questions(address, MOVES))}")
            for place, held in memory(address, process):
                print(f"memory after {place:,} requests: {held:.1f} MiB")
    for name, design in large_designs():
        print(f"{name}: {answer_time(design):.1f} ms of processor time")


if __name__ == "__main__":
    main()
