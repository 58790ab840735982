"""Calls over gRPC, to the gateway of a `flightscan serve`."""

from __future__ import annotations

import os
import pathlib
import threading
from collections.abc import Iterable, Iterator

from .errors import Error, InterfaceError, fault, in_doubt, refusal
from .messages import SERVICE
from .records import Pieces

os.environ.setdefault("GRPC_VERBOSITY", "NONE")  # what fails is raised, and not printed

try:
    import grpc
except ImportError:
    raise InterfaceError("no gRPC for Python; Debian has it in the package python3-grpcio") from None

OPTIONS = [
    ("grpc.max_receive_message_length", -1),  # the server keeps to the limit of the protocol
    ("grpc.max_send_message_length", -1),
    ("grpc.use_local_subchannel_pool", 1),
]
LONG_CALLS = ("DoGet", "DoPut")  # which may take as long as they must
OPEN_ENDS = ("CANCELLED", "UNKNOWN", "DEADLINE_EXCEEDED", "INTERNAL", "UNAVAILABLE")  # that tell no refusal


def channel_to(address: str, certificates: str | None) -> grpc.Channel:
    """A channel: by TLS to `grpc+tls://HOST:PORT`, whose certificate is one of a file or of the system."""
    scheme, _, target = address.partition("://")
    if scheme == "grpc":
        return grpc.insecure_channel(target, options=OPTIONS)
    roots = None if certificates is None else pathlib.Path(certificates).read_bytes()
    return grpc.secure_channel(target, grpc.ssl_channel_credentials(roots), options=OPTIONS)


class GrpcCalls:
    """A channel to a gateway, to which each call shows the token."""

    def __init__(self, address: str, timeout: float | None, token: str | None = None, certificates: str | None = None):
        self.server, self.timeout, self.is_closed = address, timeout, False
        self.metadata = (("authorization", f"Bearer {token}"),) if token else ()
        self.channel = channel_to(address, certificates)

    def close(self) -> None:
        self.is_closed = True
        self.channel.close()

    def call(self, method: str, messages: Iterable[Pieces]) -> Iterator[memoryview]:
        """The messages that answer a call. What refuses it is raised, and a call that is left early is cancelled."""
        begun, sent, failures = threading.Event(), threading.Event(), []

        def joined() -> Iterator[bytes]:
            """The messages. If one can't be made the call is cancelled, so that the server takes no part of it as whole."""
            begun.wait()
            try:
                for pieces in messages:
                    yield b"".join(pieces)
                sent.set()
            except Exception as failed:  # noqa: BLE001 (it is raised below, in the thread of the caller)
                failures.append(failed)
                call.cancel()

        timeout = None if method in LONG_CALLS else self.timeout
        try:
            call = self.channel.stream_stream(SERVICE + method)(joined(), timeout=timeout, metadata=self.metadata)
        except ValueError:  # (its text would show the token)
            raise InterfaceError("the connection is closed" if self.is_closed else "the token can't be sent") from None
        finally:
            begun.set()
        try:
            for message in call:
                yield memoryview(message)
        except grpc.RpcError as failed:
            if failures:
                raise failures[0] from None
            said = self.failure(failed)
            is_open = method == "DoPut" and sent.is_set() and said.number in (None, 22) and failed.code().name in OPEN_ENDS
            raise (in_doubt(said) if is_open else said) from None
        finally:
            call.cancel()

    def failure(self, failed: grpc.RpcError) -> Error:
        """The exception for a call that did not end well."""
        if self.is_closed:
            return fault(22, "the connection was closed", self.server)
        return refusal(failed.details() or failed.code().name, failed.code().value[0], self.server)
