"""A server in the place of a desk, which says what it was asked, in its order, and answers once it may."""

import contextlib
import socket
import threading

from .nginx import free_port
from .program import PATIENCE

ANSWER = b"HTTP/1.1 200 OK\r\nContent-Type: application/json\r\nContent-Length: 2\r\nConnection: close\r\n\r\n{}"


class StandIn:
    """Answers each connection's one request by some bytes, and closes it. While it is held back it answers as many as
    it may, and none at first."""

    def __init__(self, answer=ANSWER):
        self.answer, self.came, self.open, self.most = answer, [], 0, 0
        self.changed, self.may = threading.Condition(), None
        self.port = free_port()
        self.listener = socket.create_server(("127.0.0.1", self.port), backlog=512)
        threading.Thread(target=self.accept, daemon=True).start()

    def accept(self):
        while True:
            try:
                client, _ = self.listener.accept()
            except OSError:
                return
            threading.Thread(target=self.serve, args=(client,), daemon=True).start()

    def serve(self, client):
        with client, contextlib.suppress(OSError):
            line = taken(client).split(b"\r\n")[0].decode()
            self.note(1, line)
            self.wait()
            self.note(-1)
            client.sendall(self.answer)

    def wait(self):
        with self.changed:
            self.changed.wait_for(lambda: self.may != 0, PATIENCE)
            self.may = self.may and self.may - 1

    def let(self, count):
        """Lets it answer so many more, or all if that is nothing."""
        with self.changed:
            self.may = count if count is None else count + (self.may or 0)
            self.changed.notify_all()

    def note(self, change, line=None):
        with self.changed:
            self.open += change
            self.most = max(self.most, self.open)
            self.came += [line] if line else []
            self.changed.notify_all()

    def waits_for(self, count):
        """Waits until so many requests have come since the list was taken last; whether they have."""
        with self.changed:
            return self.changed.wait_for(lambda: len(self.came) >= count, PATIENCE)

    def take(self):
        with self.changed:
            came, self.came = self.came, []
        return came

    def close(self):
        """Nobody listens at its port any more."""
        self.listener.shutdown(socket.SHUT_RDWR)
        self.listener.close()


def taken(client):
    """The bytes of a request: its head, and as many as this names."""
    data = b""
    while b"\r\n\r\n" not in data:
        data += client.recv(65536) or b"\r\n\r\n"
    head, _, body = data.partition(b"\r\n\r\n")
    lengths = [int(line.split(b":")[1]) for line in head.lower().split(b"\r\n") if line.startswith(b"content-length:")]
    while len(body) < sum(lengths[:1]) and (piece := client.recv(65536)):
        body += piece
    return head + b"\r\n\r\n" + body
