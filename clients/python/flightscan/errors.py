"""The exceptions of DB-API 2.0, and which of them stands for which fault of the server.

An exception keeps the fault's text as the server sent it, such as `F13 BadSql at byte 14`. What this client finds by
itself has the same form, with the reason in brackets: `F8 BadBatch (column km: an index outside its dictionary)`.
"""

from __future__ import annotations

import re

FORM = re.compile(r"F([0-9]{1,2}) ([A-Za-z]+)(?: at byte ([0-9]+))?")


class Warning(Exception):  # noqa: A001 (DB-API has this name)
    """DB-API asks for this class; nothing raises it."""


class Error(Exception):
    """A call that was refused or that failed.

    `number` is the fault's number, `position` the byte of the query for F13, `code` the gRPC code, and `server` the
    address; each is None where there is none.
    """

    def __init__(self, text: str, code: int | None = None, server: str | None = None):
        super().__init__(text)
        found = FORM.match(text)
        self.text, self.code, self.server = text, code, server
        self.number = int(found[1]) if found else None
        self.position = int(found[3]) if found and found[3] else None

    def __str__(self) -> str:
        return self.text if self.server is None else f"{self.text} [{self.server}]"


class InterfaceError(Error, ValueError):
    """This package was used in a way that it does not allow. It is a ValueError too."""


class DatabaseError(Error):
    """The server refused something."""


class DataError(DatabaseError):
    """Rows or bytes are not as they must be."""


class OperationalError(DatabaseError):
    """A limit, memory, a version that is gone, or the connection."""


class IntegrityError(DatabaseError):
    """A table is there already, or has other columns."""


class InternalError(DatabaseError):
    """The server or this client broke the rules of the protocol."""


class ProgrammingError(DatabaseError):
    """The query is wrong, or names what is not there."""


class NotSupportedError(DatabaseError):
    """The server does not have this."""


FAULTS: dict[int, tuple[str, type[Error]]] = {
    1: ("BadFrame", InternalError),
    2: ("MessageTooLarge", OperationalError),
    3: ("UnknownMethod", NotSupportedError),
    4: ("BadProto", InternalError),
    5: ("UnknownCommand", NotSupportedError),
    6: ("BadFlatbuffer", DataError),
    7: ("UnsupportedArrow", NotSupportedError),
    8: ("BadBatch", DataError),
    9: ("TableMissing", ProgrammingError),
    10: ("TableExists", IntegrityError),
    11: ("SchemaMismatch", IntegrityError),
    12: ("LimitReached", OperationalError),
    13: ("BadSql", ProgrammingError),
    14: ("UnknownName", ProgrammingError),
    15: ("TypeClash", ProgrammingError),
    16: ("NotInSubset", NotSupportedError),
    17: ("BadTicket", ProgrammingError),
    18: ("VersionUnknown", OperationalError),
    19: ("VersionExpired", OperationalError),
    20: ("ResultTooLarge", OperationalError),
    21: ("OutOfMemory", OperationalError),
    22: ("Transport", OperationalError),
}


def refusal(text: str, code: int | None = None, server: str | None = None) -> Error:
    """The exception for a status of the server."""
    found = FORM.match(text)
    kind: type[Error] = FAULTS.get(int(found[1]), ("", DatabaseError))[1] if found else OperationalError
    return kind(text, code, server)


def fault(number: int, reason: str, server: str | None = None) -> Error:
    """The exception for what this client finds by itself."""
    name, kind = FAULTS[number]
    return kind(f"F{number} {name} ({reason})", None, server)


def in_doubt(failed: Error) -> Error:
    """The same exception, which says too that the put may have been made."""
    text = f"{failed.text.removesuffix(')')}; the put may have been made, or may yet be"
    return type(failed)(text + ")" * failed.text.endswith(")"), failed.code, failed.server)
