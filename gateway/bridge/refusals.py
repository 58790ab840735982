"""How calls end that do not end well."""

from __future__ import annotations

import grpc


class Refused(Exception):
    """The end of a call other than code 0."""

    def __init__(self, code: grpc.StatusCode, text: str):
        super().__init__(text)
        self.code, self.text = code, text


class ServerRefusal(Refused):
    """The Status at the end of a whole answer. The connection goes on."""


class UnreadMessage(Refused):
    """A message that does not read, as the server refuses it."""

    def __init__(self):
        super().__init__(grpc.StatusCode.INVALID_ARGUMENT, "F4 BadProto")


class ServerGone(Refused):
    """The connection ended before the answer did."""

    def __init__(self):
        super().__init__(grpc.StatusCode.UNAVAILABLE, "the server ended the connection in the middle of a call")


def other_server() -> Refused:
    return Refused(grpc.StatusCode.INTERNAL, "the server's answer breaks the rules of records")


def not_supported(text: str) -> Refused:
    return Refused(grpc.StatusCode.UNIMPLEMENTED, text)


def too_long(length: int, most: int, more: str = "") -> Refused:
    """What gRPC says of a message that is too long."""
    return Refused(grpc.StatusCode.RESOURCE_EXHAUSTED, f"Received message larger than max ({length} vs. {most}){more}")


def no_token(text: str) -> Refused:
    return Refused(grpc.StatusCode.UNAUTHENTICATED, text)


def stalled(seconds: float) -> Refused:
    return Refused(grpc.StatusCode.DEADLINE_EXCEEDED, f"the client neither sent nor took a message in {seconds:g} seconds")
