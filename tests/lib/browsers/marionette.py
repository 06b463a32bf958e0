"""What Firefox takes at its port for automation: messages `LENGTH:JSON`, each answered by one."""

import json
import socket
import threading
import time

from .common import COMMAND, PATIENCE, BrowserError, Gone


class Marionette:
    """A connection to the port, once Firefox listens there."""

    def __init__(self, port):
        self.number, self.socket, self.lock = 0, self.connected(port), threading.Lock()
        self.stream = self.socket.makefile("rwb")
        self.read()

    def connected(self, port):
        end = time.monotonic() + PATIENCE
        while True:
            try:
                return socket.create_connection(("127.0.0.1", port), timeout=COMMAND)
            except OSError as error:
                if time.monotonic() > end:
                    raise BrowserError(f"firefox doesn't listen: {error}")
                time.sleep(0.1)

    def read(self):
        length = b""
        while not length.endswith(b":"):
            byte = self.stream.read(1)
            if not byte:
                raise Gone("firefox has ended the connection")
            length += byte
        return json.loads(self.stream.read(int(length[:-1])))

    def tell(self, command, **values):
        """What is answered to a command."""
        with self.lock:
            self.number += 1
            wanted, message = self.number, json.dumps([0, self.number, command, values]).encode()
            try:
                self.stream.write(b"%d:%s" % (len(message), message))
                self.stream.flush()
                _, number, error, result = self.read()
            except OSError as lost:
                raise Gone(f"{command}: {lost}") from None
        if number != wanted:
            raise BrowserError(f"{command}: an answer to another command")
        if error is not None:
            raise BrowserError(f"{command}: {error['message']}")
        return result

    def value(self, command, **values):
        return self.tell(command, **values)["value"]
