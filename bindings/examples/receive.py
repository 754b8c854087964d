"""Receive envelopes from a socket, and continue at the right byte after any interruption.

  receive.py PORT DIRECTORY

It accepts one connection after another on 127.0.0.1. To each it first sends the offset in the
sender's stream from which it continues, as eight bytes, high byte first, and at the end the offset
up to which it has accepted the stream. Each envelope becomes a file of JSON in
DIRECTORY, named for its number, and the state is the file `state` there. Each file is written
beside its place and renamed, and the state is saved after the envelopes before it. So after
`kill -9` or a lost connection the same bytes are read again, and the same files are written.
"""
from __future__ import annotations

import os
import socket
import sys
from pathlib import Path

import iim


def replace(path: Path, octets: bytes) -> None:
    """Write a file so that it has either its old bytes or these, whatever happens."""
    beside = path.with_name(f".{path.name}.new")
    with beside.open("wb") as file:
        file.write(octets)
        file.flush()
        os.fsync(file.fileno())
    beside.replace(path)


def receiver_of(state: Path) -> iim.Receiver:
    """Return the receiver that continues from the saved state, or a new one."""
    try:
        return iim.Receiver.restore(state.read_bytes())
    except FileNotFoundError:
        return iim.Receiver()


def store(connection: socket.socket, receiver: iim.Receiver, directory: Path) -> int:
    """Store the envelopes of a connection, and return the offset up to which they are valid."""
    while True:
        chunk = connection.recv(65_536)
        if not chunk:
            return receiver.offset
        receiver.receive_data(chunk)
        event = receiver.next_event()
        while isinstance(event, iim.Envelope):
            replace(directory / f"{event.nth:08}.json", event.to_json().encode())
            event = receiver.next_event()
        if isinstance(event, iim.RefusedError):
            print(event, file=sys.stderr, flush=True)
            return event.octet_in_file
        replace(directory / "state", receiver.save(story=True))


def receive(connection: socket.socket, directory: Path) -> None:
    """Receive all envelopes of a connection."""
    receiver = receiver_of(directory / "state")
    connection.sendall(receiver.offset.to_bytes(8, "big"))
    connection.sendall(store(connection, receiver, directory).to_bytes(8, "big"))
    # (a connection that is closed before all its bytes are read is reset, and the offset is lost)
    while connection.recv(65_536):
        pass


def main() -> None:
    """Accept one connection after another."""
    port, directory = int(sys.argv[1]), Path(sys.argv[2])
    directory.mkdir(parents=True, exist_ok=True)
    with socket.create_server(("127.0.0.1", port)) as server:
        print(f"listening on port {server.getsockname()[1]}", flush=True)
        while True:
            connection, _ = server.accept()
            with connection:
                try:
                    receive(connection, directory)
                except OSError as error:
                    print(f"the connection: {error}", file=sys.stderr, flush=True)


if __name__ == "__main__":
    main()
