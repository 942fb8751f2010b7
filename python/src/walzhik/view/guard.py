"""Who may ask: only this machine's browser, at the address that was printed. A request with another Host or Origin, or
without the token, is refused before anything of it is looked at.
"""

from __future__ import annotations

import hmac
import secrets
from collections.abc import Mapping

from .._place import called

TOKEN_BYTES = 16
HOST = "127.0.0.1"
OWN_SITES = ("same-origin", "none")  # of Sec-Fetch-Site: the page itself, or an address that was typed
HEADERS = {
    "Content-Security-Policy": "default-src 'self'; base-uri 'none'; form-action 'none'; frame-ancestors 'none'",
    "X-Content-Type-Options": "nosniff",
    "X-Frame-Options": "DENY",
    "Referrer-Policy": "no-referrer",
    "Cross-Origin-Opener-Policy": "same-origin",
    "Cross-Origin-Resource-Policy": "same-origin",
    "Cache-Control": "no-store",
}


def new_token() -> str:
    """A random part of the address, which nobody can guess."""
    return secrets.token_urlsafe(TOKEN_BYTES)


def refused(headers: Mapping[str, str], path: str, port: int, token: str) -> str | None:
    """Why a request is refused, or None.

    Examples
    --------
    >>> refused({"Host": "127.0.0.1:80"}, "/secret/", 80, "secret")
    >>> refused({"Host": "evil.example"}, "/secret/", 80, "secret")
    'This server answers only at 127.0.0.1:80.'
    """
    own = f"{HOST}:{port}"
    if headers.get("Host") != own:
        return f"This server answers only at {own}."
    if headers.get("Origin", f"http://{own}") != f"http://{own}":
        return "Another site's page can't ask this server."
    if headers.get("Sec-Fetch-Site", "none") not in OWN_SITES:
        return "Another site's page can't ask this server."
    given = path.split("/")[1] if path.startswith("/") else ""
    if not hmac.compare_digest(given.encode("utf-8"), token.encode("ascii")):
        return f"The address lacks the token: take the whole address that {called()} view has printed."
    return None
