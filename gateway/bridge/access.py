"""Who may call: tokens, the handshakes that give them, and TLS."""

from __future__ import annotations

import base64
import hmac
import pathlib
import ssl

from bridge.protobuf import Message
from bridge.refusals import no_token

BASIC, BEARER = "Basic ", "Bearer "
LEAST, MOST = 16, 4_096  # characters of a token
NOTHING = "none"  # what a handshake gives where no token is asked for
OWNERS_ONLY = 0o077  # the permissions that others must not have


class Unusable(Exception):
    """A file that does not serve, and why."""


def token_in(path: str) -> str:
    """The token in a file, without the white space around it."""
    try:
        file = pathlib.Path(path)
        if file.stat().st_mode & OWNERS_ONLY:
            raise Unusable(f"others may read or write {path}: chmod 600 it")
        token = file.read_text("ascii").strip()
    except (OSError, UnicodeDecodeError) as why:
        raise Unusable(f"cannot read a token from {path}: {why}") from None
    if not LEAST <= len(token) <= MOST or not all("!" <= one <= "~" for one in token):
        raise Unusable(f"the token in {path} is not {LEAST} to {MOST} visible characters of ASCII")
    return token


def tls(certificate: str, key: str) -> ssl.SSLContext:
    """What takes HTTP/2 over TLS with this certificate."""
    context = ssl.SSLContext(ssl.PROTOCOL_TLS_SERVER)
    context.minimum_version = ssl.TLSVersion.TLSv1_2
    context.set_alpn_protocols(["h2"])
    try:
        context.load_cert_chain(certificate, key)
    except (OSError, ssl.SSLError) as why:
        raise Unusable(f"cannot use {certificate} with {key}: {why}") from None
    return context


class Access:
    """The token that callers have to show, or none."""

    def __init__(self, token: str | None):
        self.token = token

    def demand(self, metadata: dict[str, str | bytes]) -> None:
        """Refuses a call that does not show the token."""
        if self.token is None:
            return
        shown = shown_token(metadata)
        if shown is None:
            raise no_token("a token is needed: authorization: Bearer TOKEN")
        if not self.is_token(shown):
            raise no_token("another token is needed")

    def is_token(self, shown: bytes) -> bool:
        """Whether it is the token, in a time that does not depend on where it differs."""
        return self.token is None or hmac.compare_digest(shown, self.token.encode())

    def given(self) -> str:
        return self.token or NOTHING

    def answer(self, request: bytes) -> bytes:
        """What a HandshakeRequest is answered, whose payload is a BasicAuth: the token is the password."""
        if not self.is_token(Message(Message(request).content(2)).content(3)):
            raise no_token("another token is needed")
        return self.given().encode()


def shown_token(metadata: dict[str, str | bytes]) -> bytes | None:
    """The token in a call's metadata: a bearer's, a password, or what an earlier handshake gave."""
    shown = metadata.get("authorization", "")
    if shown.startswith(BEARER):
        return shown.removeprefix(BEARER).encode()
    if shown.startswith(BASIC):
        try:
            return base64.b64decode(shown.removeprefix(BASIC).rstrip("=") + "===").partition(b":")[2]
        except ValueError:  # it is not base64
            return b""
    return metadata.get("auth-token-bin")
