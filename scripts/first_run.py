#!/usr/bin/env python3
"""Writes the first run's input to crates/flightscan/stdin: one put and one fetch, 565 bytes.

The parts are those of the appendix of docs/PROTOCOL.md. Each length that stands there is checked.
"""

import sys

sys.dont_write_bytecode = True

from built import ROOT  # noqa: E402
from wire import END, PACKAGE, record_message, record_open  # noqa: E402

SCHEMA_HEADER = bytes.fromhex("""
10 00 00 00 00 00 0A 00 0C 00 08 00 0A 00 04 00
0A 00 00 00 10 00 00 00 04 00 01 00 08 00 08 00
00 00 04 00 08 00 00 00 04 00 00 00 01 00 00 00
10 00 00 00 0C 00 10 00 04 00 0C 00 0D 00 08 00
0C 00 00 00 0C 00 00 00 18 00 00 00 01 02 00 00
01 00 00 00 61 00 00 00 08 00 0C 00 04 00 08 00
08 00 00 00 40 00 00 00 01 00 00 00 00 00 00 00
""")

BATCH_HEADER = bytes.fromhex("""
10 00 00 00 0C 00 14 00 10 00 12 00 04 00 08 00
0C 00 00 00 1C 00 00 00 10 00 00 00 00 00 00 00
04 00 03 00 00 00 0A 00 14 00 08 00 04 00 10 00
0A 00 00 00 10 00 00 00 02 00 00 00 00 00 00 00
1C 00 00 00 01 00 00 00 02 00 00 00 00 00 00 00
00 00 00 00 00 00 00 00 00 00 00 00 02 00 00 00
00 00 00 00 00 00 00 00 00 00 00 00 00 00 00 00
00 00 00 00 00 00 00 00 10 00 00 00 00 00 00 00
""")

BODY = bytes.fromhex("01 00 00 00 00 00 00 00 02 00 00 00 00 00 00 00")


def of_length(part, length):
    """The part, whose length must be this."""
    assert len(part) == length, (part, len(part), length)
    return part


def first_run():
    ingest = of_length(b"\x0a\x02\x08\x01\x12\x01t", 7)
    put_any = of_length(b"\x0a\x44" + PACKAGE + b"CommandStatementIngest\x12\x07" + ingest, 79)
    descriptor = of_length(b"\x08\x02\x12\x4f" + put_any, 83)
    schema_data = of_length(b"\x0a\x53" + descriptor + b"\x12\x70" + of_length(SCHEMA_HEADER, 112), 199)
    batch_data = of_length(b"\x12\x80\x01" + of_length(BATCH_HEADER, 128) + b"\xc2\x3e\x10" + BODY, 150)
    handle = of_length(
        b"\x01" + (1).to_bytes(8, "big") + (0).to_bytes(4, "big") + (2).to_bytes(4, "big")
        + b"SELECT * FROM t", 32)
    ticket_any = of_length(b"\x0a\x42" + PACKAGE + b"TicketStatementQuery\x12\x22\x0a\x20" + handle, 104)
    ticket = of_length(b"\x0a\x68" + ticket_any, 106)
    put = record_open(b"DoPut") + record_message(schema_data) + record_message(batch_data) + END
    fetch = record_open(b"DoGet") + record_message(ticket) + END
    return of_length(put, 407) + of_length(fetch, 158)


if __name__ == "__main__":
    (ROOT / "crates/flightscan/stdin").write_bytes(of_length(first_run(), 565))
