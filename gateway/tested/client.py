"""A client of Flight over gRPC: gRPC's own library for Python, and messages by protoc."""

from __future__ import annotations

import pathlib
import subprocess
import sys
import tempfile
from collections.abc import Iterable, Iterator

import grpc
from google.protobuf.any_pb2 import Any

import wire

PROTOS = pathlib.Path(__file__).resolve().parent.parent / "protos"
MADE = tempfile.TemporaryDirectory()
subprocess.run(["protoc", "-I", PROTOS, f"--python_out={MADE.name}", *(file.name for file in PROTOS.glob("*.proto"))], check=True)
sys.path.append(MADE.name)

import flight_pb2 as flight  # noqa: E402
import flight_sql_pb2 as sql  # noqa: E402
import stock_drivers_pb2 as stock  # noqa: E402, F401

SECONDS, LONG = 60, 600  # that one answer may take, and a long one
SERVICE = "/arrow.flight.protocol.FlightService/"
LONGEST_MESSAGE = 16_777_216
LIMITS = [("grpc.max_receive_message_length", LONGEST_MESSAGE), ("grpc.max_send_message_length", -1),
          ("grpc.use_local_subchannel_pool", 1)]  # each client has a connection of its own
TableOptions = sql.CommandStatementIngest.TableDefinitionOptions


def packed(command) -> bytes:
    """A command of Flight SQL in an Any."""
    holder = Any()
    holder.Pack(command)
    return holder.SerializeToString()


def descriptor(command) -> flight.FlightDescriptor:
    return flight.FlightDescriptor(type=flight.FlightDescriptor.CMD, cmd=packed(command))


def query(text: str) -> flight.FlightDescriptor:
    return descriptor(sql.CommandStatementQuery(query=text))


def ingest(table: str, there: int = TableOptions.THERE_FAIL) -> flight.FlightDescriptor:
    """What a put asks for: the table is made where it is absent."""
    options = TableOptions(if_not_exist=TableOptions.CREATE, if_exists=there)
    return descriptor(sql.CommandStatementIngest(table=table, table_definition_options=options))


class Client:
    """A channel to a gateway. Calls are made by messages, or by bytes as they are."""

    def __init__(self, port: int, **more: object):
        self.channel = grpc.insecure_channel(f"127.0.0.1:{port}", options=LIMITS, **more)

    def __enter__(self) -> Client:
        return self

    def __exit__(self, *_: object) -> None:
        self.channel.close()

    # ---- bytes

    def call(self, method: str, messages: Iterable[bytes], seconds: float = SECONDS) -> grpc.Call:
        """A call whose answer is read as it comes."""
        return self.channel.stream_stream(SERVICE + method)(iter(messages), timeout=seconds)

    def answer(self, method: str, messages: Iterable[bytes], seconds: float = SECONDS) -> wire.Answer:
        """The whole answer of a call."""
        call, found = self.call(method, messages, seconds), []
        try:
            found.extend(call)
        except grpc.RpcError:
            pass
        return wire.Answer(found, call.code().value[0], call.details())

    # ---- messages

    def info(self, asked: flight.FlightDescriptor) -> flight.FlightInfo:
        call = self.channel.unary_unary(SERVICE + "GetFlightInfo", type(asked).SerializeToString, flight.FlightInfo.FromString)
        return call(asked, timeout=SECONDS)

    def schema(self, asked: flight.FlightDescriptor) -> flight.SchemaResult:
        call = self.channel.unary_unary(SERVICE + "GetSchema", type(asked).SerializeToString, flight.SchemaResult.FromString)
        return call(asked, timeout=SECONDS)

    def fetch(self, ticket: flight.Ticket) -> Iterator[flight.FlightData]:
        call = self.channel.unary_stream(SERVICE + "DoGet", type(ticket).SerializeToString, flight.FlightData.FromString)
        return call(ticket, timeout=LONG)

    def act(self, action: flight.Action) -> Iterator[flight.Result]:
        call = self.channel.unary_stream(SERVICE + "DoAction", type(action).SerializeToString, flight.Result.FromString)
        return call(action, timeout=SECONDS)

    def listed(self, method: str, message, kind: type) -> list:
        """The messages of this kind that answer one message."""
        call = self.channel.unary_stream(SERVICE + method, type(message).SerializeToString, kind.FromString)
        return [*call(message, timeout=SECONDS)]

    def put(self, messages: Iterable[flight.FlightData]) -> int:
        """The number of rows that were put."""
        serialize = flight.FlightData.SerializeToString
        call = self.channel.stream_stream(SERVICE + "DoPut", serialize, flight.PutResult.FromString)
        (result,) = call(iter(messages), timeout=LONG)
        return sql.DoPutUpdateResult.FromString(result.app_metadata).record_count
