"""A relay before a server, which keeps what each connection sent."""

import contextlib
import socket
import threading

from .program import PATIENCE


class Relay:
    """Hands connections on to a port, and keeps the bytes of each that went there."""

    def __init__(self, port):
        self.target, self.streams, self.lock = port, [], threading.Lock()
        self.listener = socket.create_server(("127.0.0.1", 0), backlog=512)
        self.port = self.listener.getsockname()[1]
        threading.Thread(target=self.accept, daemon=True).start()

    def accept(self):
        while True:
            try:
                client, _ = self.listener.accept()
            except OSError:
                return
            threading.Thread(target=self.relay, args=(client,), daemon=True).start()

    def relay(self, client):
        refused = contextlib.suppress(OSError)
        with client, refused, socket.create_connection(("127.0.0.1", self.target), timeout=PATIENCE) as server:
            back = threading.Thread(target=carry, args=(server, client, bytearray()), daemon=True)
            back.start()
            kept = bytearray()
            with self.lock:
                self.streams.append(kept)
            carry(client, server, kept)
            back.join(PATIENCE)

    def take(self):
        """What each connection sent since this was called last."""
        with self.lock:
            streams, self.streams = self.streams, []
        return [bytes(one) for one in streams]

    def close(self):
        self.listener.close()


def carry(source, target, kept):
    """Carries bytes to their end."""
    try:
        while piece := source.recv(65536):
            kept += piece
            target.sendall(piece)
        target.shutdown(socket.SHUT_WR)
    except OSError:
        return
