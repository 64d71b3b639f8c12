"""Which requests the studio answers: those of its own page, with the key, and not too long.

The page gets the key for a token that counts once, and keeps it where only pages of this address find it. Neither
stands in the arguments of a process, which all users of a machine can list, and no request's address contains it.
"""

import hmac
import secrets
import threading
from email.message import Message

from .folder import MAX_FILE_BYTES

# A request has at most a text, a bundle with its certificate and a report, in JSON.
MAX_REQUEST_BYTES = 4 * MAX_FILE_BYTES
KEY_HEADER = "X-Bbmlab-Key"


class Denied(Exception):
    """A request that is not answered: the HTTP status and a sentence."""

    def __init__(self, status: int, why: str) -> None:
        super().__init__(why)
        self.status, self.why = status, why


def is_same_secret(word: str, secret: str) -> bool:
    """Whether a word is a secret, in a time that does not depend on where it differs."""
    return hmac.compare_digest(word.encode("utf-8", "replace"), secret.encode())


class Guard:
    """Compares requests with the address of the server, its key, and the token that is next."""

    def __init__(self, host: str) -> None:
        self.host, self.key, self.token = host, secrets.token_urlsafe(24), secrets.token_urlsafe(24)
        self.lock = threading.Lock()

    @property
    def address(self) -> str:
        """The address that lets one browser in. Browsers send no request with what is behind `#`."""
        return f"http://{self.host}/#{self.token}"

    def exchange_token(self, token: str) -> str:
        """Returns the key for the token, which then no longer counts: another one is next.

        Raises Denied for any other word.
        """
        with self.lock:
            if not is_same_secret(token, self.token):
                raise Denied(403, "this address was used already, or it is of another studio: `bbmlab studio` prints "
                             "the next one")
            self.token = secrets.token_urlsafe(24)
        return self.key

    def require_key(self, headers: Message) -> None:
        """Raises Denied if a request does not carry the key."""
        words: list[str] = headers.get_all(KEY_HEADER, [])
        if len(words) != 1 or not is_same_secret(words[0], self.key):
            raise Denied(403, "open the address that `bbmlab studio` printed last")

    def require_own_page(self, headers: Message, is_post: bool, is_first: bool = False) -> None:
        """Raises Denied if a request names another host, as after DNS rebinding, or comes from a page of elsewhere.

        `is_first`: any page may lead to this one, if the browser shows it by itself.
        """
        if headers.get_all("Host", []) != [self.host]:
            raise Denied(403, "the request is meant for another host")
        origins: list[str] = headers.get_all("Origin", [])
        if origins != [f"http://{self.host}"] and (origins or is_post):
            raise Denied(403, "the request comes from another page")
        is_shown = is_first and (headers.get("Sec-Fetch-Mode"),
                                 headers.get("Sec-Fetch-Dest")) == ("navigate", "document")
        if headers.get("Sec-Fetch-Site", "same-origin") not in ("same-origin", "none") and not is_shown:
            raise Denied(403, "the request comes from another page")
        if is_post and headers.get("Content-Type", "").split(";")[0].strip() != "application/json":
            raise Denied(415, "a request is JSON")

    def body_length(self, headers: Message, most: int = MAX_REQUEST_BYTES) -> int:
        """Returns the length of a request's body. Raises Denied if it is missing or too large."""
        word = headers.get("Content-Length", "")
        if headers.get("Transfer-Encoding") or not (word.isascii() and word.isdecimal() and len(word) <= 18):
            raise Denied(411, "the request does not say how long it is")
        if int(word) > most:
            raise Denied(413, f"the request is over {MAX_REQUEST_BYTES >> 20} MiB" if most == MAX_REQUEST_BYTES
                         else "this is no token")
        return int(word)
