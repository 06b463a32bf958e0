#!/usr/bin/env -S python3 -B
"""Clients of `desk serve` that are slow, read nothing or break off, and what the desk does for each of them.

    desk_clients.py [--program PATH]

A client is waited for 10 seconds in all until its head is there, 10 for its body, 30 until it has its reply and one until it
closes its side (docs/FORMATS.md, section 7), however its bytes come. Each slow one has a server of its own, all side by side,
and another client behind it, whose wait is measured. Then `accept` fails, by lib/fail_accept.c: where that is of one client it
stops nothing, and where it is of the listener the desk ends. The port is open to this machine alone, by /proc/net/tcp. And a
desk of 39,900 submissions answers a request in a small part of the time that it took to read them.

Takes faketime and cc. Ends with the line `N passed, M failed`; the exit status is 0 if M is 0.
"""

import contextlib
import errno
import pathlib
import shutil
import socket
import statistics
import sys
import threading
import time

from lib import demo, program, sqlite
from lib.program import Program, compiled
from lib.server import Server

STATE = b"GET /contests/demo/state HTTP/1.1\r\nHost: x\r\n\r\n"
LIST = b"GET /contests/demo/submissions HTTP/1.1\r\nHost: x\r\n\r\n"
TEAM = b"GET /contests/demo/teams/t1 HTTP/1.1\r\nHost: x\r\n\r\n"
POST = b"POST /contests/demo/clarifications HTTP/1.1\r\nHost: x\r\nAuthorization: Bearer token-a1\r\nContent-Length: 1000\r\n\r\n"
FINE = b"HTTP/1.1 200 OK\r\n"
TEAMS, OF_EACH = 100, 399


def large(desk):
    """A folder with the demo contest, in which a hundred teams more have as many submissions as they may."""
    teams = "".join(f"n{number},Team {number},,\n" for number in range(1, TEAMS + 1))
    folder = demo.made(desk, {**demo.FILES, "teams-csv": demo.FILES["teams-csv"] + teams})
    with sqlite.opened(folder / "cup.db") as database:
        for place in range(TEAMS * OF_EACH):
            team, number = 5 + place % TEAMS, 1 + place // TEAMS
            sqlite.insert(database, "submissions", (place + 1, team, number, demo.START + place, "a", "cpp", None, b"x", f"k{number}"))
    return folder


def send_slowly(client, data, seconds):
    """One byte after the other, each so many seconds after the one before, as long as they are taken."""
    for byte in data:
        client.sendall(bytes([byte]))
        time.sleep(seconds)


def read_slowly(client):
    while client.recv(1_000):
        time.sleep(0.5)


def slow_head(client):
    send_slowly(client, STATE, 2)


def slow_body(client):
    client.sendall(POST)
    send_slowly(client, b" " * 1_000, 2)


def slow_both(client):
    """The head in six seconds, and then a body."""
    send_slowly(client, POST[:3], 2)
    client.sendall(POST[3:])
    send_slowly(client, b" " * 1_000, 2)


def half_body(client):
    client.sendall(POST + b" " * 500)


def unread(client):
    client.sendall(LIST)


def slowly_read(client):
    client.sendall(LIST)
    read_slowly(client)


def stays(client):
    """Has its reply, and sends on."""
    client.sendall(STATE)
    send_slowly(client, b" " * 1_000, 0.3)


# A slow client, and from when until when, in seconds, the one behind it has to be answered.
SLOW = [
    ("no byte", lambda client: None, 9.5, 13), ("a slow head", slow_head, 9.5, 13), ("a slow body", slow_body, 9.5, 13),
    ("half a body", half_body, 9.5, 13), ("a slow head, then a slow body", slow_both, 15.5, 19), ("a client that stays", stays, 0.5, 4),
    ("a reply that nobody reads", unread, 20, 33), ("a reply that is read slowly", slowly_read, 20, 33),
]  # fmt: skip


def try_slow_client(desk, folder, what, goes, least, most):
    server = Server(desk, folder)
    start = time.monotonic()
    with server.connected() as slow:
        slow.setsockopt(socket.SOL_SOCKET, socket.SO_RCVBUF, 4_096)

        def go():
            with contextlib.suppress(OSError):
                goes(slow)

        thread = threading.Thread(target=go, daemon=True)
        thread.start()
        time.sleep(0.3)
        desk.same(f"behind {what}", server.ask(STATE)[: len(FINE)], FINE)
        waited = time.monotonic() - start
        desk.note(least < waited < most, f"behind {what}: {waited:.1f} seconds, wanted are {least} to {most}")
    thread.join()
    server.stop()


def try_slow(desk):
    """Slow clients, side by side."""
    small, many, threads = demo.made(desk, demo.FILES), large(desk), []
    for case in SLOW:
        copy = desk.new_folder()
        shutil.copy((many if case[1] in (unread, slowly_read) else small) / "cup.db", copy)
        threads.append(threading.Thread(target=try_slow_client, args=(desk, copy, *case)))
    for thread in threads:
        thread.start()
    for thread in threads:
        thread.join()


def try_failing(desk):
    """Connections that fail before they are had."""
    library = compiled("fail_accept", desk.folder)
    folder = demo.made(desk, demo.FILES)
    server = Server(desk, folder, requests=3, libraries=[library], FAIL_ACCEPT=str(errno.ECONNABORTED))
    for number in (1, 2):
        desk.same(f"client {number} after one that failed", server.ask(STATE)[: len(FINE)], FINE)
    desk.same("the status once three clients came", server.ended(), 0)
    server = Server(desk, folder, requests=3, libraries=[library], FAIL_ACCEPT=str(errno.EMFILE))
    desk.same("what a listener that fails is told as", server.process.stderr.read(), b"refused: Net\n")
    desk.same("the status of a listener that fails", server.ended(), 1)


def listening_on(port):
    """The addresses on which something listens at a port, as the kernel writes them."""
    rows = [line.split() for name in ("tcp", "tcp6") for line in pathlib.Path("/proc/net", name).read_text(encoding="ascii").splitlines()[1:]]
    addresses = [row[1].split(":") for row in rows if row[3] == "0A"]
    return [address for address, number in addresses if int(number, 16) == port]


def try_address(desk):
    """The port is one of this machine alone, chosen or named."""
    folder = demo.made(desk, demo.FILES)
    server = Server(desk, folder)
    desk.same("where a chosen port is open", listening_on(server.port), ["0100007F"])
    server.stop()
    server = Server(desk, folder, port=str(server.port))
    desk.same("where a named port is open", listening_on(server.port), ["0100007F"])
    server.stop()


def took(call):
    """How long a call takes, in seconds, and its answer."""
    start = time.monotonic()
    answer = call()
    return time.monotonic() - start, answer


def try_lists(desk):
    """Lists that are in memory aren't read again: a request takes a small part of what it took to read them once."""
    opening, server = took(lambda folder=large(desk): Server(desk, folder))
    server.ask(TEAM)
    asked = [took(lambda: server.ask(TEAM)) for _ in range(21)]
    for number, (_, answer) in enumerate(asked):
        desk.same(f"request {number}", answer[: len(FINE)], FINE)
    median = statistics.median(seconds for seconds, _ in asked)
    desk.note(median * 100 < opening, f"a request takes {median * 1_000:.1f} ms, and the opening took {opening * 1_000:.0f} ms")
    server.stop()


if __name__ == "__main__":
    sys.exit(program.main(__doc__, Program, (try_slow, try_failing, try_address, try_lists), program="desk"))
