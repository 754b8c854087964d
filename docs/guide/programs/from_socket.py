"""Print the number of each envelope that a server sends."""
import socket
import sys

import iim

receiver = iim.Receiver()
with socket.create_connection((sys.argv[1], int(sys.argv[2]))) as connection:
    while True:
        event = receiver.next_event()
        if event is iim.NEED_DATA:
            receiver.receive_data(connection.recv(65_536))
        elif isinstance(event, iim.Envelope):
            print(event.id.number.text("ascii"), flush=True)
        elif isinstance(event, iim.RefusedError):
            sys.exit(str(event))
        else:
            break
