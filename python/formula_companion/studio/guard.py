"""Who may ask the studio for something: one who has the token, from this computer, by the studio's own page."""

from __future__ import annotations

import hmac
import secrets
from typing import NamedTuple, Optional, Sequence

#: Methods that change nothing; a browser sends them without telling which page asks.
READING = ("GET", "HEAD")


class Asked(NamedTuple):
    """What a request says of itself: each header as often as it was sent."""

    method: str
    path: str
    hosts: Sequence[str]
    origins: Sequence[str]
    sites: Sequence[str]
    modes: Sequence[str]
    upgrades: bool


class Guard:
    """Judges requests by the token in their path, by the name of the host, and by the page that asks."""

    def __init__(self, port: int, token: Optional[str] = None):
        self.token = token or secrets.token_urlsafe(32)
        self.hosts = (f"127.0.0.1:{port}", f"localhost:{port}")

    @property
    def headers(self) -> dict[str, str]:
        """What each answer says of itself: the page takes nothing from elsewhere, nobody frames it, and its address is
        told to nobody."""
        sockets = " ".join(f"ws://{host}" for host in self.hosts)
        return {
            "Content-Security-Policy": "default-src 'none'; script-src 'self'; style-src 'self'; font-src 'self'; "
                                       "img-src 'self' data: blob:; media-src 'self' blob:; worker-src 'self'; "
                                       f"connect-src 'self' {sockets}; base-uri 'none'; form-action 'none'; "
                                       "frame-ancestors 'none'",
            "Cross-Origin-Opener-Policy": "same-origin",
            "Cross-Origin-Resource-Policy": "same-origin",
            "Referrer-Policy": "no-referrer",
            "X-Content-Type-Options": "nosniff",
            "X-Frame-Options": "DENY",
            "Cache-Control": "no-store",
        }

    @property
    def address(self) -> str:
        """The address of the page."""
        return f"http://{self.hosts[0]}/{self.token}/"

    def refuses(self, asked: Asked) -> Optional[str]:
        """Why a request is refused; None where it is not.

        Another name that leads to this computer, as an attacker's, is no host of the studio. A page from elsewhere
        has another origin. Where a request can change something, or opens a socket, the origin has to be told.
        """
        if len(asked.hosts) != 1 or asked.hosts[0] not in self.hosts:
            return "this name is none of the studio's"
        own = f"http://{asked.hosts[0]}"
        if len(asked.origins) > 1 or any(origin != own for origin in asked.origins):
            return "another page asks"
        if not asked.origins and (asked.method not in READING or asked.upgrades):
            return "the page that asks is not told"
        # the page alone may be gone to from elsewhere: from the file that hands its address to the browser
        is_gone_to = list(asked.modes) == ["navigate"] and asked.path == f"/{self.token}/"
        if not is_gone_to and any(site not in ("same-origin", "none") for site in asked.sites):
            return "another site asks"
        if not self._has_token(asked):
            return "the token is missing: take the address from the terminal"
        return None

    def _has_token(self, asked: Asked) -> bool:
        given = (asked.path.split("/") + ["", ""])[1]
        return hmac.compare_digest(given.encode("utf-8", "replace"), self.token.encode())

