"""Where a server is, and whom to trust there. Nothing is kept here."""
from __future__ import annotations

import os
import re
import ssl

from taskboard_bridges.fault import Fault

ADDRESS = re.compile(r"(?:(https?)://)?(\[[0-9A-Fa-f:.]+\]|[0-9A-Za-z._-]+)(?::([0-9]{1,5}))?/?")
LOOPBACK = ("127.0.0.1", "localhost", "::1")
LAST_PORT = 65_535


class Place:
    """A server's host and port, its name in messages, and whether it is reached by TLS."""

    def __init__(self, host: str, port: int, name: str, is_secure: bool) -> None:
        self.host, self.port, self.name, self.is_secure = host, port, name, is_secure


def place_of(address: str) -> Place:
    """The place that an address names: HOST:PORT of this machine, or https://HOST."""
    found = ADDRESS.fullmatch(address)
    if not found or int(found[3] or 1) not in range(1, LAST_PORT + 1):
        raise Fault(f"{address} is no address: it has to be HOST:PORT, or https://HOST")
    host, is_secure = found[2].strip("[]"), found[1] == "https"
    if not is_secure and host not in LOOPBACK:
        raise Fault(f"the key would go to {host} in the open: give an https:// address, or a tunnel of ssh")
    return Place(host, int(found[3] or (443 if is_secure else 80)), found[2] + (f":{found[3]}" if found[3] else ""), is_secure)


def trusting(authority: str | None = None) -> ssl.SSLContext:
    """What takes certificates for the name of a server by an authority: one in a file, or those of the system, as SSL_CERT_FILE and
    SSL_CERT_DIR have them."""
    context = ssl.SSLContext(ssl.PROTOCOL_TLS_CLIENT)
    context.minimum_version = ssl.TLSVersion.TLSv1_2
    try:
        if authority:
            context.load_verify_locations(cafile=authority)
        else:
            load_authorities(context)
    except OSError as fault:
        raise Fault(f"no certificate can be read from {authority or 'the files of the authorities'}: {fault.strerror or fault}") from None
    return context


def load_authorities(context: ssl.SSLContext) -> None:
    """Takes the system's authorities: from a folder where there is one that names them by their sums, of which only the one that is
    needed is read."""
    paths = ssl.get_default_verify_paths()
    folder = os.environ.get(paths.openssl_capath_env) or paths.openssl_capath
    if not os.environ.get(paths.openssl_cafile_env) and os.path.isdir(folder) and any(name.endswith(".0") for name in os.listdir(folder)):
        context.load_verify_locations(capath=folder)
    else:
        context.load_default_certs()
