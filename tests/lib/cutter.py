"""Servers that answer by the same bytes: by a head alone, so that the reply breaks off, or as nginx or another server does. One
answers every request so, the other posts alone."""

import re
import socket
import threading

from .program import PATIENCE
from .server import read_all

CUT = b"HTTP/1.1 200 OK\r\nContent-Type: application/json\r\nContent-Length: 100\r\n\r\n"
PAGE = b"<html><head><title>429 Too Many Requests</title></head></html>\r\n"
TOO_MANY = b"HTTP/1.1 429 Too Many Requests\r\nContent-Type: text/html\r\nContent-Length: %d\r\n\r\n%s" % (len(PAGE), PAGE)
# What a portal of the network, or another server, says in the desk's place.
PORTAL = b"HTTP/1.1 404 Not Found\r\nContent-Type: text/html\r\nContent-Length: %d\r\n\r\n%s" % (len(PAGE), PAGE)


def json_reply(status, body):
    """The bytes of a reply with a body of JSON."""
    head = f"HTTP/1.1 {status}\r\nContent-Type: application/json\r\nContent-Length: {len(body)}\r\n\r\n"
    return head.encode() + body


class Cutter:
    """Takes one connection after the other at a port, and keeps how each request began."""

    def __init__(self, port, reply=CUT):
        self.requests, self.reply = [], reply
        self.listener = socket.create_server(("127.0.0.1", port), backlog=512)
        threading.Thread(target=self.accept, daemon=True).start()

    def accept(self):
        while True:
            try:
                client, _ = self.listener.accept()
                self.cut(client)
            except OSError:
                return

    def cut(self, client):
        with client:
            self.requests.append(client.recv(65536))
            client.sendall(self.reply)
            client.shutdown(socket.SHUT_WR)
            read_all(client)

    def close(self):
        """Ends it, also where it waits for a connection, so that the port is free."""
        self.listener.shutdown(socket.SHUT_RDWR)
        self.listener.close()


class Breaker(Cutter):
    """Hands each request on to a server at another port, and its reply back. A post it answers by the same bytes; the server has
    been handed it before, if it is to be."""

    def __init__(self, port, target, reply=CUT, is_handed=True):
        self.target, self.is_handed = target, is_handed
        super().__init__(port, reply)

    def accept(self):
        while True:
            try:
                client, _ = self.listener.accept()
            except OSError:
                return
            threading.Thread(target=self.serve, args=(client,), daemon=True).start()

    def serve(self, client):
        try:
            with client:
                request = whole_request(client)
                self.requests.append(request)
                is_post, answer = request.startswith(b"POST "), b""
                if not is_post or self.is_handed:
                    answer = self.handed(request)
                client.sendall(self.reply if is_post else answer)
        except OSError:
            return

    def handed(self, request):
        with socket.create_connection(("127.0.0.1", self.target), timeout=PATIENCE) as server:
            server.sendall(request)
            return read_all(server)


def whole_request(client):
    """A request with its body, as nginx hands it on."""
    data = b""
    while b"\r\n\r\n" not in data and (piece := client.recv(65536)):
        data += piece
    found = re.search(rb"(?i)\r\nContent-Length: *(\d+)", data)
    wanted = data.find(b"\r\n\r\n") + 4 + (int(found[1]) if found else 0)
    while len(data) < wanted and (piece := client.recv(65536)):
        data += piece
    return data
