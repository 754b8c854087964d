"""Send a file of envelopes to `receive.py`, from the byte that the receiver wants next.

  send.py PORT FILE

If the receiver is not there, or is lost, it tries again, for up to a minute each time.
"""
from __future__ import annotations

import socket
import sys
import time
from pathlib import Path
from typing import BinaryIO

SECONDS = 60


def connect(port: int) -> socket.socket:
    """Connect to the receiver. Raise `ConnectionRefusedError` if it is not there for a minute."""
    end = time.monotonic() + SECONDS
    while True:
        try:
            return socket.create_connection(("127.0.0.1", port), timeout=SECONDS)
        except ConnectionRefusedError:
            if time.monotonic() > end:
                raise
            time.sleep(0.05)


def offset_from(replies: BinaryIO) -> int:
    """Return the next offset that the receiver sends. Raise `ConnectionError` if it is lost."""
    octets = replies.read(8)
    if len(octets) < 8:
        raise ConnectionResetError("the receiver is lost")
    return int.from_bytes(octets, "big")


def send(port: int, path: Path) -> int:
    """Send what the receiver does not have, and return the offset up to which it accepts it."""
    with connect(port) as connection, connection.makefile("rb") as replies, path.open("rb") as file:
        # (`sendfile` begins at the offset that it is given, wherever the file is)
        connection.sendfile(file, offset_from(replies))
        connection.shutdown(socket.SHUT_WR)
        return offset_from(replies)


def main() -> None:
    """Send a file until the receiver has all of it."""
    port, path = int(sys.argv[1]), Path(sys.argv[2])
    while True:
        try:
            accepted = send(port, path)
            break
        except (ConnectionResetError, BrokenPipeError) as error:
            print(f"{error}: connecting again", file=sys.stderr, flush=True)
    if accepted < path.stat().st_size:
        sys.exit(f"the receiver rejected byte {accepted} of the file")


if __name__ == "__main__":
    main()
