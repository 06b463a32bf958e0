"""One request by HTTP/2 to nginx, whose head is spelled byte by byte, as no client would spell it."""

import socket
import ssl

from .program import PATIENCE

DATA, HEADERS, RESET, GOAWAY, CONTINUATION = 0, 1, 3, 7, 9
END_STREAM, END_HEADERS = 1, 4
# GET and https are fields that HTTP/2 knows by a number; a path and a host have names that it knows so.
GET_HTTPS, PATH, HOST = b"\x82\x87", b"\x04", b"\x01"
PIECE = 16_000


def number(value, bits):
    """A number whose first byte has so many bits for it (RFC 7541, section 5.1)."""
    most = (1 << bits) - 1
    if value < most:
        return bytes([value])
    data, value = [most], value - most
    while value >= 128:
        data.append(value & 127 | 128)
        value >>= 7
    return bytes([*data, value])


def text(value):
    return number(len(value), 7) + value


def frame(kind, flags, stream, payload=b""):
    return len(payload).to_bytes(3, "big") + bytes([kind, flags]) + stream.to_bytes(4, "big") + payload


def frames_of(client):
    """The frames that come, each as its kind, its flags and its bytes."""
    with client.makefile("rb") as stream:
        while len(head := stream.read(9)) == 9:
            yield head[3], head[4], stream.read(int.from_bytes(head[:3], "big"))


def asked(port, path, fields):
    """What is answered to a GET of a path with fields: the first byte of its head, which is its status, and its body; or
    the kind of the frame that refuses it."""
    trust = ssl.create_default_context()
    trust.check_hostname, trust.verify_mode = False, ssl.CERT_NONE
    trust.set_alpn_protocols(["h2"])
    head = GET_HTTPS + PATH + text(path) + HOST + text(b"x")
    head += b"".join(b"\0" + text(name) + text(value) for name, value in fields)
    pieces = [head[at : at + PIECE] for at in range(0, len(head), PIECE)]
    sent, status, body = [b"PRI * HTTP/2.0\r\n\r\nSM\r\n\r\n", frame(4, 0, 0)], b"", b""
    for at, piece in enumerate(pieces):
        kind, flags = (CONTINUATION, 0) if at else (HEADERS, END_STREAM)
        sent.append(frame(kind, flags | (END_HEADERS if piece is pieces[-1] else 0), 1, piece))
    with trust.wrap_socket(socket.create_connection(("127.0.0.1", port), timeout=PATIENCE)) as client:
        client.sendall(b"".join(sent))
        for kind, flags, payload in frames_of(client):
            if kind in (RESET, GOAWAY):
                return kind
            status, body = (payload[:1] if kind == HEADERS else status), body + (payload if kind == DATA else b"")
            if kind in (HEADERS, DATA) and flags & END_STREAM:
                break
    return status, body
