"""`desk serve` on a contest in a file, and its clock."""

import atexit
import re
import signal
import socket
import subprocess

from . import clock
from .program import PATIENCE, line_of


def heed_interrupts():
    """A shell has what it starts in the background ignore SIGINT, and so would the server that comes of it."""
    signal.signal(signal.SIGINT, signal.SIG_DFL)


class Server:
    """The program, which serves the contest in a folder, with these libraries before its own, and more in its environment. It
    ends with the script."""

    def __init__(self, desk, folder, requests=1_000_000, port="0", libraries=(), moment="2024-03-02 09:05:00", **env):
        self.clock = folder / "clock"
        self.at(moment)
        words = [desk.path, "serve", "cup.db", "--requests", str(requests), "--port", port]
        self.process = subprocess.Popen(
            words, cwd=folder, env={**clock.shown_by(self.clock, libraries), **env}, stdout=subprocess.PIPE, stderr=subprocess.PIPE,
            preexec_fn=heed_interrupts)  # fmt: skip
        atexit.register(self.process.kill)
        line = line_of(self.process.stdout).decode(errors="replace")
        found = re.fullmatch(r"listening on 127\.0\.0\.1:(\d+)\n", line)
        desk.note(found is not None, f"the line of the port: {line!r}")
        self.port = int(found[1]) if found else 0

    def at(self, moment):
        """Stops the clock at a moment, as faketime reads it."""
        self.clock.write_text(f"{moment}\n", encoding="utf-8")

    def connected(self):
        """A client's end of a new connection."""
        return socket.create_connection(("127.0.0.1", self.port), timeout=PATIENCE)

    def ask(self, data, ends=True):
        """What comes back for these bytes; the client says that no more comes, unless it waits for the reply first."""
        try:
            with self.connected() as client:
                client.sendall(data)
                if ends:
                    client.shutdown(socket.SHUT_WR)
                return read_all(client)
        except OSError as error:
            return f"the connection broke: {error}".encode()

    def ended(self):
        """The status with which it ends."""
        status = self.process.wait(PATIENCE)
        self.process.stdout.close()
        self.process.stderr.close()
        return status

    def stop(self, number=signal.SIGTERM):
        self.process.send_signal(number)
        self.ended()


def read_all(client):
    """All bytes until the other side closes."""
    pieces = []
    while piece := client.recv(65536):
        pieces.append(piece)
    return b"".join(pieces)
