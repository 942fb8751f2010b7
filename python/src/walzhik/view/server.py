"""The server of the screen: Flask for its requests, waitress for its connections. It listens on 127.0.0.1 alone,
answers from what it was given at its start, and writes no file.
"""

from __future__ import annotations

import json
import logging
import resource
import socket
from collections.abc import Callable
from importlib.resources import files
from pathlib import PurePath
from typing import Any

from flask import Flask, Response, request
from werkzeug.exceptions import BadRequest, HTTPException, NotFound, UnsupportedMediaType

from ..errors import Refused
from ..failures import Failure
from ..fit import Unfittable
from ..sheet import NoPrintout
from . import downloads, guard
from .bundle import bundle
from .design import Design, Malformed, design_of
from .faults import FIT, OPEN, control, in_words, told
from .given import Given
from .opened import opened, text_of
from .others import others
from .propose import proposed
from .shapes import shape_of
from .shown import shown, with_pairs

MOST_BODY = 2**20  # bytes
KINDS = {".html": "text/html", ".js": "text/javascript", ".css": "text/css", ".svg": "image/svg+xml"}
PAGE = "index.html"
FORBIDDEN, REFUSED, FAILED = 403, 422, 500
POSITIONS = 7  # the number of a refusal of a sheet's positions
MOST_CONNECTIONS, OWN_FILES = 4_000, 64
# One person's browser needs few threads: all others wait in line, however many connections are opened. One that asks
# nothing is closed soon, and far more of them than a machine's programs open leave room for the page.
WAITING: dict[str, Any] = {
    "threads": 4,
    "backlog": 2048,
    "asyncore_use_poll": True,
    "channel_timeout": 10,
    "cleanup_interval": 2,
}


def connection_limit() -> int:
    """How many connections the server holds: as many as the system allows it to, within reason."""
    soft, hard = resource.getrlimit(resource.RLIMIT_NOFILE)
    wanted = MOST_CONNECTIONS + OWN_FILES
    if soft != resource.RLIM_INFINITY and soft < wanted:
        soft = wanted if hard == resource.RLIM_INFINITY else min(wanted, hard)
        resource.setrlimit(resource.RLIMIT_NOFILE, (soft, hard))
    return MOST_CONNECTIONS if soft == resource.RLIM_INFINITY else min(MOST_CONNECTIONS, soft - OWN_FILES)


def static_files() -> dict[str, bytes]:
    """The page's own files, by name: nothing else is ever served."""
    folder = files(__package__).joinpath("static")
    return {entry.name: entry.read_bytes() for entry in folder.iterdir() if PurePath(entry.name).suffix in KINDS}


def answered(made: Any, status: int = 200) -> Response:
    """An answer in JSON."""
    return Response(json.dumps(made, separators=(",", ":")), status, mimetype="application/json")


def sent() -> dict[str, Any]:
    """What was sent, as JSON."""
    if request.mimetype != "application/json":
        raise UnsupportedMediaType("Send JSON.")
    try:
        made = json.loads(request.get_data(cache=False))
    except (ValueError, RecursionError) as error:
        raise BadRequest("That is no JSON.") from error
    if not isinstance(made, dict):
        raise BadRequest("That is no JSON of an object.")
    return made


def known(design: Design, given: Given) -> Design:
    """The design, if its series are those that were given."""
    for name in design.series.values():
        if name not in given.series:
            raise Malformed(f"No series is named {name}.")
    return design


def designs_of(body: dict[str, Any], given: Given) -> tuple[Design, Design | None]:
    """The design that was sent, and the one before it whose coefficients it has."""
    before = body.get("before")
    return known(design_of(body.get("design")), given), None if before is None else design_of(before)


def about(error: Refused, design: Design) -> str:
    """The control that a refusal of a file is about."""
    return "at" if error.number == POSITIONS else control(error, design)


def app_of(given: Given, port: int, token: str) -> Flask:
    """The application, for an address."""
    app = Flask(__name__, static_folder=None)
    app.config["MAX_CONTENT_LENGTH"] = MOST_BODY
    own = static_files()

    @app.before_request
    def ask_guard() -> Response | None:
        why = guard.refused(dict(request.headers), request.path, port, token)
        return answered({"words": why}, FORBIDDEN) if why else None

    @app.after_request
    def add_headers(response: Response) -> Response:
        response.headers.update(guard.HEADERS)
        return response

    @app.errorhandler(HTTPException)
    def say_error(error: HTTPException) -> Response:
        return answered({"words": error.description}, error.code or BadRequest.code)

    @app.errorhandler(Malformed)
    def say_malformed(error: Malformed) -> Response:
        return answered({"words": str(error)}, BadRequest.code)

    @app.errorhandler(Exception)
    def say_failure(error: Exception) -> Response:
        logging.getLogger("walzhik.view").error("The screen's server: %s: %s", type(error).__name__, error)
        return answered({"words": f"The server can't answer this ({type(error).__name__})."}, FAILED)

    @app.get("/<token>/")
    def page(token: str) -> Response:
        return Response(own[PAGE], mimetype=KINDS[".html"])

    @app.get("/<token>/<name>")
    def file(token: str, name: str) -> Response:
        if name not in own:
            raise NotFound("There is no such file here.")
        return Response(own[name], mimetype=KINDS[PurePath(name).suffix])

    add_answers(app, given)
    add_files(app, given)
    return app


def add_answers(app: Flask, given: Given) -> None:
    """The requests of the page."""

    @app.get("/<token>/given")
    def what_was_given(token: str) -> Response:
        return answered(given.as_json())

    @app.post("/<token>/curve")
    def curve(token: str) -> Response:
        design, before = designs_of(sent(), given)
        return answered(shown(design, before, given.series, given.at))

    @app.post("/<token>/fit")
    def fit(token: str) -> Response:
        body = sent()
        design, before = designs_of(body, given)
        shape = shape_of(body.get("shape"))
        try:
            return answered(proposed(design, given.series, body.get("is_template") is True, before, shape))
        except Refused as error:
            return answered({"refusal": told(error, FIT)})
        except (Failure, Unfittable) as error:
            return answered({"refusal": in_words(str(error), FIT)})

    @app.post("/<token>/open")
    def open_sheet(token: str) -> Response:
        body = sent()
        try:
            return answered(opened(designs_of(body, given)[0], text_of(body.get("text"))))
        except Refused as error:
            return answered({"refusal": told(error, OPEN)})
        except (NoPrintout, OSError) as error:
            return answered({"refusal": in_words(str(error), OPEN)})

    @app.post("/<token>/others")
    def other_series(token: str) -> Response:
        return answered(others(designs_of(sent(), given)[0], given.series))


def add_files(app: Flask, given: Given) -> None:
    """The files to save."""

    @app.post("/<token>/download/<kind>")
    def download(token: str, kind: str) -> Response:
        if kind not in downloads.MADE:
            raise NotFound("There is no such file here.")
        design, before = designs_of(sent(), given)
        name = downloads.file_name(kind, design, given)
        return saved(lambda: downloads.download(kind, with_pairs(design, before)[0], given), name, design)

    @app.post("/<token>/all")
    def all_designs(token: str) -> Response:
        listed = sent().get("designs")
        if not isinstance(listed, list):
            raise Malformed("designs is no list.")
        designs = [designs_of(each if isinstance(each, dict) else {}, given) for each in listed]
        return saved(
            lambda: bundle(designs, given), f"{downloads.safe((given.names or [''])[0])}_all.zip", given.design
        )


def saved(make: Callable[[], downloads.Download], name: str, design: Design) -> Response:
    """A file to save under a name, or why there is none."""
    try:
        made = make()
    except Refused as error:
        return answered({"refusal": told(error, about(error, design))}, REFUSED)
    except (Failure, NoPrintout, OSError) as error:
        return answered({"refusal": in_words(str(error), "downloads")}, REFUSED)
    headers = {"Content-Disposition": f'attachment; filename="{name}"'}
    return Response(made.data, mimetype=made.kind, headers=headers)


class Screen:
    """The server, listening and not yet answering.

    Attributes
    ----------
    address : str
        Where the page is.
    """

    def __init__(self, given: Given, port: int = 0) -> None:
        from waitress import create_server

        logging.getLogger("waitress.queue").setLevel(logging.ERROR)  # a full line is no news
        listening = socket.create_server((guard.HOST, port), backlog=WAITING["backlog"])
        own_port, token = listening.getsockname()[1], guard.new_token()
        self.address = f"http://{guard.HOST}:{own_port}/{token}/"
        app = app_of(given, own_port, token)
        self._server = create_server(
            app,
            sockets=[listening],
            max_request_body_size=MOST_BODY + 1,  # waitress refuses from this size on
            clear_untrusted_proxy_headers=True,
            ident=None,
            connection_limit=connection_limit(),
            **WAITING,
        )

    def run(self) -> None:
        """Answer until it is interrupted."""
        self._server.run()

    def close(self) -> None:
        """Stop answering."""
        self._server.close()
