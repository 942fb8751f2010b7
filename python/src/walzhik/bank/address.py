"""Where a cluster's scheduler is, and what proves to it who asks. A scheduler runs programs for anyone who reaches its
port, so an address that others can reach is taken with certificates, or when it is said that none are wanted.
"""

from __future__ import annotations

import re
from ipaddress import ip_address
from typing import NamedTuple

from ..failures import Unusable

TCP, TLS = "tcp", "tls"
WRITTEN = re.compile(r"(?:(?P<kind>[a-z]+)://)?(?P<host>\[[0-9A-Fa-f:.%]+\]|[^][:/\s]+):(?P<port>[0-9]{1,5})")
MOST_PORT = 65_535


class Certificates(NamedTuple):
    """Paths of PEM files: whose signature is trusted, and the certificate and key that are shown."""

    authority: str
    certificate: str
    key: str


class Address(NamedTuple):
    """A scheduler's address as Dask takes it, and the certificates for it."""

    url: str
    certificates: Certificates | None = None


def address(given: str, files: tuple[str | None, str | None, str | None], is_plain: bool) -> Address:
    """The address of a scheduler, if it may be used.

    Parameters
    ----------
    given : str
        As ``tls://host:8786``; without the beginning it is ``tcp://``.
    files : tuple
        The paths of --tls-ca, --tls-cert and --tls-key.
    is_plain : bool
        Whether --no-tls is given.

    Raises
    ------
    Unusable
        If it is no address, or is one that anybody could reach.

    Examples
    --------
    >>> address("127.0.0.1:8786", (None, None, None), False)
    Address(url='tcp://127.0.0.1:8786', certificates=None)
    """
    match = WRITTEN.fullmatch(given)
    kind = (match["kind"] or TCP) if match else ""
    if match is None or kind not in (TCP, TLS) or not 0 < int(match["port"]) <= MOST_PORT:
        raise Unusable(f"--scheduler {given}: give host and port, as tls://host:8786 or tcp://127.0.0.1:8786.")
    if any(files) and not all(files):
        raise Unusable("Give --tls-ca, --tls-cert and --tls-key together.")
    if kind == TLS and not all(files):
        raise Unusable(f"--scheduler {given} needs --tls-ca, --tls-cert and --tls-key: docs/CLUSTER.md makes them.")
    if kind == TCP and any(files):
        raise Unusable(f"--scheduler {given} would not use the certificates. Give it as tls://.")
    if kind == TCP and not is_plain and not is_loopback(match["host"]):
        raise Unusable(
            f"--scheduler {given}: without certificates anyone who reaches the scheduler runs programs on its workers. "
            "Use tls:// (docs/CLUSTER.md), or say --no-tls."
        )
    url = f"{kind}://{match['host']}:{int(match['port'])}"
    return Address(url, checked(*files) if kind == TLS else None)


def checked(authority: str | None, certificate: str | None, key: str | None) -> Certificates:
    """The certificates, if they can be read and belong together."""
    assert authority is not None and certificate is not None and key is not None
    for path in (authority, certificate, key):
        try:
            open(path, "rb").close()
        except OSError as error:
            raise Unusable(f"{path}: {error.strerror or error}") from error
    import ssl

    context = ssl.create_default_context()
    try:
        context.load_verify_locations(authority)
    except ssl.SSLError as error:
        raise Unusable(f"{authority}: no certificate in PEM form ({error.reason or error}).") from error
    try:
        context.load_cert_chain(certificate, key)
    except ssl.SSLError as error:
        raise Unusable(f"{certificate}, {key}: no certificate with its key ({error.reason or error}).") from error
    return Certificates(authority, certificate, key)


def is_loopback(host: str) -> bool:
    """Whether a host is this machine by a way that no other has.

    Examples
    --------
    >>> is_loopback("localhost"), is_loopback("127.3.2.1"), is_loopback("[::1]"), is_loopback("10.0.0.1")
    (True, True, True, False)
    """
    if host.lower() == "localhost":
        return True
    try:
        return ip_address(host.strip("[]")).is_loopback
    except ValueError:
        return False
