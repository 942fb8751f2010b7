"""The screen's server on a port of its own: who may ask, what is too large or broken, many requests at once, and the
command that starts it.
"""

from __future__ import annotations

import http.client
import json
import os
import re
import signal
import socket
import subprocess
import sys
from collections.abc import Iterator
from concurrent.futures import ThreadPoolExecutor
from contextlib import contextmanager
from pathlib import Path
from threading import Thread
from typing import Any
from urllib.parse import urlsplit

import pytest
from running import ROOT, Run
from test_view import roof

from walzhik.view.server import MOST_BODY, WAITING, Screen

AT_ONCE, IDLE = 1000, 550
MANY, FEW_BYTES = 1500, 256  # requests, and what each may leave behind by chance
SOON = 20  # seconds
LONG_WAIT = 120  # seconds, only for a server that hangs


@pytest.fixture(scope="module")
def address() -> Iterator[str]:
    """The address of a server that answers in another thread."""
    screen = Screen(roof())
    thread = Thread(target=screen.run, daemon=True)
    thread.start()
    yield screen.address
    screen.close()
    thread.join(LONG_WAIT)
    assert not thread.is_alive()


def asked(
    address: str, method: str = "GET", path: str = "", body: bytes | None = None, **headers: str
) -> tuple[int, bytes]:
    """The status and the body of an answer; `path` is behind the token unless it starts with a slash."""
    parts = urlsplit(address)
    connection = http.client.HTTPConnection(str(parts.hostname), parts.port, timeout=LONG_WAIT)
    try:
        named = {name.replace("_", "-"): value for name, value in headers.items()}
        connection.request(method, path if path.startswith("/") else parts.path + path, body, named)
        response = connection.getresponse()
        return response.status, response.read()
    finally:
        connection.close()


def connected(address: str, host: str = "127.0.0.1") -> socket.socket:
    """A connection to the server's port, with nothing sent."""
    return socket.create_connection((host, urlsplit(address).port or 0), timeout=LONG_WAIT)


def lives(address: str) -> bool:
    return asked(address)[0] == 200


def question(address: str) -> bytes:
    design = json.loads(asked(address, path="given")[1])["design"]
    return json.dumps({"design": design, "before": None}).encode()


def test_the_page_and_its_files_are_served(address: str) -> None:
    status, page = asked(address)
    assert status == 200 and b"<!doctype html>" in page
    for name in re.findall(rb'(?:src|href)="([a-z]+\.[a-z]+)"', page):
        assert asked(address, path=name.decode())[0] == 200


@pytest.mark.parametrize(
    "path", ["/", "/given", "/x/", "/x/curve", "//", "/index.html", "/%2e%2e/", "/" + "A" * 22 + "/given"]
)
def test_without_the_token_nothing_is_answered(address: str, path: str) -> None:
    for method, body in (("GET", None), ("POST", b"{}")):
        status, said = asked(address, method, path, body, Content_Type="application/json")
        assert status == 403 and b"token" in said


@pytest.mark.parametrize("host", ["localhost", "evil.example", "127.0.0.1", "127.0.0.1:1", "[::1]", ""])
def test_another_host_is_refused(address: str, host: str) -> None:
    assert asked(address, Host=host)[0] in (400, 403)
    assert lives(address)


@pytest.mark.parametrize(
    "headers",
    [
        {"Origin": "http://evil.example"},
        {"Origin": "null"},
        {"Sec_Fetch_Site": "cross-site"},
        {"Sec_Fetch_Site": "same-site"},
    ],
)
def test_another_site_is_refused(address: str, headers: dict[str, str]) -> None:
    assert asked(address, "GET", "", None, **headers)[0] == 403
    assert asked(address, "POST", "curve", question(address), Content_Type="application/json", **headers)[0] == 403


def test_its_own_page_is_answered(address: str) -> None:
    own = f"http://{urlsplit(address).netloc}"
    headers = {"Origin": own, "Sec_Fetch_Site": "same-origin", "Content_Type": "application/json"}
    status, said = asked(address, "POST", "curve", question(address), **headers)
    assert status == 200 and json.loads(said)["refusal"] is None


def test_answers_forbid_what_the_page_does_not_need(address: str) -> None:
    parts = urlsplit(address)
    connection = http.client.HTTPConnection(str(parts.hostname), parts.port, timeout=LONG_WAIT)
    for path in (parts.path, "/", parts.path + "no-such-file"):
        connection.request("GET", path)
        response = connection.getresponse()
        response.read()
        assert "default-src 'self'" in str(response.headers["Content-Security-Policy"])
        assert response.headers["X-Content-Type-Options"] == "nosniff"
        assert response.headers["Referrer-Policy"] == "no-referrer"
    connection.close()


def test_only_its_own_files_are_served(address: str) -> None:
    for path in ("../server.py", "%2e%2e/server.py", "..%2fserver.py", "static/main.js", "server.py", "/etc/passwd"):
        assert asked(address, path=path)[0] in (403, 404)


@pytest.mark.parametrize("size", [MOST_BODY + 1, 2_000_000])
def test_a_body_that_is_too_large_is_refused(address: str, size: int) -> None:
    parts = urlsplit(address)
    connection = http.client.HTTPConnection(str(parts.hostname), parts.port, timeout=LONG_WAIT)
    connection.putrequest("POST", f"{parts.path}curve")
    connection.putheader("Content-Type", "application/json")
    connection.putheader("Content-Length", str(size))
    connection.endheaders()
    assert connection.getresponse().status == 413  # before any of it is read
    connection.close()
    try:
        assert asked(address, "POST", "curve", question(address).ljust(size), Content_Type="application/json")[0] == 413
    except ConnectionError:  # it may close before all is sent
        pass
    assert lives(address)


def test_a_body_that_is_too_large_in_chunks_is_refused(address: str) -> None:
    parts = urlsplit(address)
    kind = "Content-Type: application/json\r\nTransfer-Encoding: chunked"
    head = f"POST {parts.path}curve HTTP/1.1\r\nHost: {parts.netloc}\r\n{kind}\r\n\r\n"
    with connected(address) as connection:
        connection.sendall(head.encode())
        try:
            for _ in range(2 * MOST_BODY // 2**16):
                connection.sendall(b"10000\r\n" + b" " * 2**16 + b"\r\n")
            connection.sendall(b"0\r\n\r\n")
            assert b" 413 " in connection.recv(2**16).split(b"\r\n")[0]
        except ConnectionError:
            pass
    assert lives(address)


def test_the_largest_body_is_read(address: str) -> None:
    status, _ = asked(address, "POST", "curve", question(address).ljust(MOST_BODY), Content_Type="application/json")
    assert status == 200


@pytest.mark.parametrize(
    "sent", [b"", b"\r\n\r\n", b"GET / HTTP/1.1\r\n", b"\x00" * 300, b"GET " + b"/" * 300_000 + b" HTTP/1.1\r\n\r\n"]
)
def test_what_is_no_request_does_no_harm(address: str, sent: bytes) -> None:
    with connected(address) as connection:
        try:
            connection.sendall(sent)
            connection.shutdown(socket.SHUT_WR)
        except ConnectionError:
            pass
    assert lives(address)


def test_a_thousand_at_once_are_answered(address: str) -> None:
    body = question(address)
    wanted = asked(address, "POST", "curve", body, Content_Type="application/json")

    def ask(place: int) -> Any:
        if place % 10 == 0:
            return asked(address, "POST", "curve", b"{", Content_Type="application/json")[0]
        return asked(address, "POST", "curve", body, Content_Type="application/json")

    with ThreadPoolExecutor(AT_ONCE) as pool:
        answers = list(pool.map(ask, range(AT_ONCE)))
    assert all(each == (400 if place % 10 == 0 else wanted) for place, each in enumerate(answers))
    assert lives(address)


def is_open(connection: socket.socket) -> bool:
    """Whether the server has not closed a connection on which it has nothing to say."""
    connection.setblocking(False)
    try:
        return connection.recv(1) != b""
    except BlockingIOError:
        return True


def test_the_page_is_answered_beside_idle_connections(address: str) -> None:
    idle = [connected(address) for _ in range(IDLE)]
    try:
        assert lives(address)
        assert all(is_open(each) for each in idle), "it was answered only after others were closed"
    finally:
        for each in idle:
            each.close()
    assert lives(address)


def test_idle_connections_are_closed_soon(address: str) -> None:
    with connected(address) as connection:
        assert connection.recv(1) == b""
    assert WAITING["channel_timeout"] + WAITING["cleanup_interval"] < SOON


def test_only_this_machine_is_answered(address: str) -> None:
    with pytest.raises(ConnectionRefusedError):
        connected(address, "127.0.0.2")


# The command.


def interruptible() -> None:
    """Let a program that is started hear an interrupt, also where the tests themselves run in the background."""
    signal.signal(signal.SIGINT, signal.SIG_DFL)


@contextmanager
def serving(folder: Path, *arguments: object) -> Iterator[tuple[str, int]]:
    """The address and the process of a server that the command has started; it is interrupted, and must end well."""
    environment = os.environ | {"PYTHONPATH": str(ROOT / "python/src"), "PYTHONUNBUFFERED": "1"}
    command = [sys.executable, "-m", "walzhik", "view", *map(str, arguments)]
    with subprocess.Popen(
        command, stdout=subprocess.PIPE, text=True, cwd=folder, env=environment, preexec_fn=interruptible
    ) as process:
        try:
            assert process.stdout is not None
            found = re.search(r"http://127\.0\.0\.1:\d+/[\w-]{20,}/", process.stdout.readline())
            assert found
            yield found.group(), process.pid
            process.send_signal(signal.SIGINT)
            assert process.wait(LONG_WAIT) == 0
        finally:
            process.kill()


def test_the_command_prints_its_address_and_writes_nothing(tmp_path: Path) -> None:
    (tmp_path / "oak.rwl").write_bytes((ROOT / "examples/tucson/oak.rwl").read_bytes())
    before = {path: path.stat().st_mtime_ns for path in tmp_path.iterdir()}
    with serving(tmp_path, "oak.rwl", "--series", "ROOF04L") as (address, _):
        design = json.loads(asked(address, path="given")[1])["design"]
        assert design["series"]["ring"] == "ROOF04L"
        for kind in ("sheet", "csv", "png"):
            body = json.dumps({"design": design}).encode()
            assert asked(address, "POST", f"download/{kind}", body, Content_Type="application/json")[0] == 200
    assert {path: path.stat().st_mtime_ns for path in tmp_path.iterdir()} == before


def test_a_test_that_fails_leaves_no_server_behind() -> None:
    with pytest.raises(ZeroDivisionError), serving(ROOT) as (_, process):
        raise ZeroDivisionError
    with pytest.raises(ProcessLookupError):
        os.kill(process, 0)


def test_a_server_ends_also_where_interrupts_are_ignored() -> None:
    before = signal.signal(signal.SIGINT, signal.SIG_IGN)
    try:
        with serving(ROOT) as (address, _):
            assert lives(address)
    finally:
        signal.signal(signal.SIGINT, before)


def test_the_example_of_help_runs() -> None:
    from walzhik.commands.view import command

    line = re.sub(r"\n +(?=--)", " ", str(command.help)).split("./walzhik view ")[1].split("\n")[0]
    with serving(ROOT, *line.split()) as (address, _):
        assert json.loads(asked(address, path="given")[1])["names"] == ["oak.rwl", "roof.sheet"]


def test_a_server_is_ended_where_a_test_fails() -> None:
    with pytest.raises(AssertionError, match="fails"), serving(ROOT) as (address, _):
        raise AssertionError("the test fails")
    with pytest.raises(ConnectionRefusedError):
        connected(address)


def resident(process: int) -> int:
    """The memory that a process holds, in bytes."""
    return int(Path(f"/proc/{process}/statm").read_text().split()[1]) * os.sysconf("SC_PAGE_SIZE")


def test_memory_stays_flat() -> None:
    with serving(ROOT, "examples/tucson/oak.rwl") as (address, process):
        parts, body = urlsplit(address), question(address)
        connection = http.client.HTTPConnection(str(parts.hostname), parts.port, timeout=LONG_WAIT)
        held = []
        for _ in range(2):
            for _ in range(MANY):
                connection.request("POST", f"{parts.path}curve", body, {"Content-Type": "application/json"})
                assert connection.getresponse().read()
            held.append(resident(process))
        connection.close()
    assert held[1] - held[0] < MANY * FEW_BYTES


def test_every_server_has_a_token_of_its_own() -> None:
    screens = [Screen(roof()) for _ in (0, 1)]
    assert len({urlsplit(screen.address).path for screen in screens}) == 2
    for screen in screens:
        screen.close()


@pytest.mark.parametrize(
    ("arguments", "status", "words"),
    [
        (["no-such.rwl"], 2, "no-such.rwl"),
        (["examples/tucson/oak.rwl", "--series", "NOBODY"], 2, "No series is named NOBODY"),
        (["--series", "ROOF04E"], 2, "no Tucson file is given"),
        (["examples/tucson/oak.rwl", "--series", "ROOF04E", "--latewood", "ROOF04L"], 2, "Give --series, or"),
        (["--curve", "examples/refusals/refused_5.sheet"], 1, "no=5,0"),
        (["examples/refusals/refused_12.rwl", "--strict"], 1, "no=12"),
        (
            ["examples/tucson/oak.rwl", "--curve", "examples/sheets/roof.sheet", "--series", "ROOF04E"],
            2,
            "--earlywood NAME",
        ),
        (["-", "--curve", "-"], 2, "once only"),
        (["--port", "70000"], 2, "--port"),
    ],
)
def test_the_command_refuses_in_words(run: Run, arguments: list[str], status: int, words: str) -> None:
    ended = run("view", *arguments)
    assert ended.status == status and words in ended.err


def test_a_port_that_is_taken_is_told(run: Run) -> None:
    with socket.create_server(("127.0.0.1", 0)) as taken:
        ended = run("view", "--port", taken.getsockname()[1])
    assert ended.status == 2 and "in use" in ended.err
