"""What a case is, and the calls that cases make over gRPC."""

from __future__ import annotations

from collections.abc import Callable, Iterator

import wire
from layout import written
from random import Random
from random_calls.answers import Wanted, same
from random_calls.plain_model import Column, Put, Row, Table
from random_calls.puts import stream_of
from reader import Reader
from served.cases import Case

from tested.client import SERVICE, Client, flight
from tested.running import Run

CASES: list[Case] = []
Look = Callable[[Run], str | None]


def case(said: str) -> Callable[[Look], Look]:
    """Keeps a function as a case."""

    def kept(look: Look) -> Look:
        CASES.append(Case(look.__name__, said, look))
        return look

    return kept


def call_of(records: bytes) -> tuple[str, list[bytes]]:
    """The method and the Messages that the records of one call say."""
    source, messages = wire.Bytes(records), []
    wire.demand(source.number(1) == 1, "an Open")
    path = source.take(source.number(2)).decode()
    while source.number(1) == 2:
        wire.demand(source.number(1) == 0, "a message's flag")
        messages.append(source.take(source.number(4)))
    return path.removeprefix(SERVICE), messages


def ask(client: Client, records: bytes, wanted: Wanted) -> None:
    """The call that these records say, over gRPC, and the look at its answer."""
    wanted.look(client.answer(*call_of(records)))


def look_at_status(what: str, code: int, text: str, answer: wire.Answer) -> None:
    same(f"the status of {what}", (code, text), (answer.code, answer.text))


# ---- by messages


def put_messages(asked: flight.FlightDescriptor, columns: tuple[Column, ...], rows: list[Row]) -> Iterator[flight.FlightData]:
    """A put of these rows in some batches: the command alone, then the Arrow messages."""
    yield flight.FlightData(flight_descriptor=asked)
    made, _ = stream_of(Random(len(rows)), Put("", "", "", Table(columns, rows)))
    for tree, body in made.messages:
        yield flight.FlightData(data_header=written("Message", tree, "spread"), data_body=body)


def rows_in(stream: Iterator[flight.FlightData]) -> list[Row]:
    """The rows that a fetch gives."""
    reader = Reader()
    for data in stream:
        reader.message(data.data_header, data.data_body)
    return [tuple(row) for row in reader.total]
