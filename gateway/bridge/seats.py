"""The seats of the server that calls take, and the connections to it that wait for the next call."""

from __future__ import annotations

import asyncio
import contextlib
from collections.abc import AsyncIterator
from dataclasses import dataclass

import grpc

from bridge.records import Connection
from bridge.refusals import ServerRefusal, Refused

MOST_WAITING = 1_000  # calls that wait for a seat; a further one is refused at once


@dataclass(frozen=True)
class Patience:
    """How many seconds calls wait: for a seat, for their client, and a connection for its next call."""

    wait: float
    stall: float
    idle: float


class Seat:
    """A call's right to one connection to the server, which is made when it is first asked for."""

    def __init__(self, seats: Seats):
        self.seats, self.taken = seats, None

    async def connection(self) -> Connection:
        """The connection of this call."""
        if self.taken is None:
            self.taken = self.seats.reuse() or await self.seats.connect()
        return self.taken


class Seats:
    """At most so many calls at once, and the connections that no call uses."""

    def __init__(self, port: int, count: int, patience: Patience):
        self.port, self.patience = port, patience
        self.free, self.unused, self.waiting = asyncio.Semaphore(count), [], 0

    @contextlib.asynccontextmanager
    async def seat(self) -> AsyncIterator[Seat]:
        """A seat for one call. Its connection is kept where the call went to its end, and else closed."""
        await self.take()
        seat = Seat(self)
        try:
            yield seat
        except ServerRefusal:
            self.keep(seat.taken)
            raise
        except BaseException:
            if seat.taken is not None:
                seat.taken.close()
            raise
        else:
            if seat.taken is not None:
                self.keep(seat.taken)
        finally:
            self.free.release()

    async def take(self) -> None:
        """Waits until fewer calls run than may."""
        if self.waiting >= MOST_WAITING:
            raise Refused(grpc.StatusCode.RESOURCE_EXHAUSTED, f"{MOST_WAITING} calls wait for a seat of the server")
        self.waiting += 1
        try:
            async with asyncio.timeout(self.patience.wait):
                await self.free.acquire()
        except TimeoutError:
            raise self.none_free() from None
        finally:
            self.waiting -= 1

    async def connect(self) -> Connection:
        """A new connection, once the server gives it a seat."""
        try:
            async with asyncio.timeout(self.patience.wait):
                return await Connection.connect(self.port)
        except TimeoutError:
            raise self.none_free() from None

    def none_free(self) -> Refused:
        said = f"no seat of the server came free in {self.patience.wait:g} seconds"
        return Refused(grpc.StatusCode.RESOURCE_EXHAUSTED, said)

    def keep(self, connection: Connection) -> None:
        """Keeps a connection for the next call, but not for long."""
        self.unused.append(connection)
        connection.closing = connection.loop.call_later(self.patience.idle, self.drop, connection)

    def reuse(self) -> Connection | None:
        """A connection that was kept and that the server still has."""
        while self.unused:
            connection = self.unused.pop()
            connection.closing.cancel()
            if connection.is_whole():
                return connection
            connection.close()
        return None

    def drop(self, connection: Connection) -> None:
        self.unused.remove(connection)
        connection.close()
