#!/usr/bin/env -S python3 -B
"""Asks a desk through its queue, HAProxy by examples/nginx/queue.cfg, and servers that stand in for a desk.

    desk_queue.py [--program PATH]

32 requests at a time are handed on. The order of the others is counted at a server that is held back: posts, what
isn't long, long lists, and none waits for ever. Who gave up isn't handed on. What the queue says itself, since a desk
is away, breaks off, says nothing or is too long in coming, is 503 `Away`, or 400 `Malformed`, in the desk's form. No
post is sent twice. What the desk answers comes through the queue as it is, also to requests that servers could read
differently, and to the longest and largest. nginx hands on nothing that the queue can't read. The queue writes down
nothing of a request, and a second one on its port doesn't start.

Takes haproxy, nginx, openssl and faketime. Ends with the line `N passed, M failed`; the exit status is 0 if M is 0.
"""

import contextlib
import json
import re
import socket
import sys
import threading
import time

from lib import demo, http2, program
from lib.nginx import POSTED, Nginx, free_port
from lib.program import PATIENCE, ROOT, Program, ran
from lib.queue import Queue
from lib.server import Server, read_all
from lib.stand_in import ANSWER, StandIn

NGINX = ROOT / "examples/nginx"
AT_ONCE, ASKED = 32, 200
INTERIM = b"HTTP/1.1 100 Continue\r\n\r\n"
AWAY, MALFORMED = ({"code": 503, "message": "Away"}, {"code": 400, "message": "Malformed"})
# Offsets of two and five seconds as hundreds, so that no pause of the machine changes an order.
SLOWLY = {"int(-2000)": "int(-200000)", "int(5000)": "int(500000)"}
SMALL, LARGE = 65_536, 65_537
# What waits, in the order in which it comes, and in that in which it is handed on.
WAITING = ["GET /long/submissions", "GET /plain", f"POST /large {LARGE}", "GET /first/contests", "GET /long/event-feed",
           "GET /later", "POST /empty 0", f"PATCH /small {SMALL}", "HEAD /long/judgements", "POST /submissions 2",
           "DELETE /submissions"]  # fmt: skip
GOING = ["POST /empty", "PATCH /small", "POST /submissions", "POST /large", "GET /first/contests", "GET /plain",
         "GET /later", "DELETE /submissions", "GET /long/submissions", "GET /long/event-feed",
         "HEAD /long/judgements"]  # fmt: skip
# What differs between two connections or moments.
PASSING = (b"date", b"connection", b"server")


def asked(port, data, ends=False):
    """What comes back for some bytes, until the other side closes."""
    with contextlib.suppress(OSError), socket.create_connection(("127.0.0.1", port), timeout=PATIENCE) as client:
        sender = threading.Thread(target=sent, args=(client, data, ends), daemon=True)
        sender.start()
        return read_all(client)
    return b""


def sent(client, data, ends):
    """Sends bytes as long as the other side takes them."""
    with contextlib.suppress(OSError):
        client.sendall(data)
        if ends:
            client.shutdown(socket.SHUT_WR)


def request(line, fields="", body=b""):
    """The bytes of a request, whose line may name the length of its body."""
    method, path, *length = line.split(" ")
    body = b"x" * int(length[0]) if length else body
    length = f"Content-Length: {len(body)}\r\n" if body or length else ""
    return f"{method} {path} HTTP/1.1\r\nHost: x\r\n{fields}{length}Connection: close\r\n\r\n".encode() + body


def parts_of(reply):
    """The status, the fields in any order but for those that pass, and the body of a reply, behind an interim one."""
    head, _, body = reply.removeprefix(INTERIM).partition(b"\r\n\r\n")
    line, *fields = head.split(b"\r\n")
    fields = sorted((name.lower(), value.strip()) for name, _, value in (field.partition(b":") for field in fields))
    return line.split(b" ")[1:2], [field for field in fields if field[0] not in PASSING], body


def said_by_queue(reply):
    """What a reply says that is the queue's own, if it has its form; else its bytes."""
    status, fields, body = parts_of(reply)
    form = {b"content-type": b"application/json", b"cache-control": b"no-store", b"content-length": b"%d" % len(body)}
    said = json.loads(body) if form.items() <= dict(fields).items() and body[:1] == b"{" else {}
    return said if status == [str(said.get("code")).encode()] else reply


class Beside(Program):
    """A queue before a server that stands in for a desk."""

    def before(self, port, **texts):
        """A queue before a port, with other texts in its file, which tells at a socket how many wait."""
        folder = self.new_folder()
        stats = {"    noreuseport\n": f"    noreuseport\n    stats socket {folder}/stats\n"}
        return Queue(folder, port, texts={**stats, **texts.get("texts", {})})


def waiting(queue):
    """How many wait in a queue."""
    with socket.socket(socket.AF_UNIX) as client:
        client.connect(str(queue.folder / "stats"))
        client.sendall(b"show stat desk 2 -1\n")
        return int(read_all(client).split(b"\n")[1].split(b",")[2])


def wait_until(queue, count):
    """Waits until so many wait in a queue; whether they do."""
    end = time.monotonic() + PATIENCE
    while waiting(queue) != count and time.monotonic() < end:
        time.sleep(0.01)
    return waiting(queue) == count


def begun(queue, line, replies):
    """A client that asks, and keeps what it is answered."""
    thread = threading.Thread(target=lambda: replies.append(asked(queue.port, request(line))), daemon=True)
    thread.start()
    return thread


def filled(desk, queue, server, replies):
    """Holds a server back, and has as many ask as are handed on at a time."""
    server.let(0)
    clients = [begun(queue, f"GET /filling/{number}", replies) for number in range(AT_ONCE)]
    desk.note(server.waits_for(AT_ONCE), "the first requests don't come")
    server.take()
    return clients


def ended(server, queue, clients=()):
    """Lets a server go, and waits for all who asked."""
    server.let(None)
    for client in clients:
        client.join(PATIENCE)
    queue.stop()
    server.close()


def try_at_once(desk):
    """So many are handed on at a time, and all are answered."""
    server, replies = StandIn(), []
    queue = desk.before(server.port)
    server.let(0)
    clients = [begun(queue, f"GET /contests/{number}", replies) for number in range(ASKED)]
    desk.note(wait_until(queue, ASKED - AT_ONCE), f"{waiting(queue)} wait")
    desk.same("at a time, of a server that is held back", server.open, AT_ONCE)
    ended(server, queue, clients)
    desk.same("at a time", server.most, AT_ONCE)
    desk.same("answers", [parts_of(reply)[::2] for reply in replies], [([b"200"], b"{}")] * ASKED)
    desk.same("requests", len(set(server.take())), ASKED)


def order_of(desk, lines, texts, pause=0.0):
    """In which order requests are handed on that came one after the other; the first of them so many seconds before."""
    server, replies = StandIn(), []
    queue = desk.before(server.port, texts=texts)
    clients = filled(desk, queue, server, replies)
    for number, line in enumerate(lines, 1):
        clients.append(begun(queue, line, replies))
        desk.note(wait_until(queue, number), f"{line} doesn't wait")
        time.sleep(pause if number == 1 else 0.005)
    for number in range(1, len(lines) + 1):
        server.let(1)
        desk.note(server.waits_for(number), f"{number} of {len(lines)} are handed on")
    ended(server, queue, clients)
    desk.same("answers", len([reply for reply in replies if reply]), AT_ONCE + len(lines))
    return [line.removesuffix(" HTTP/1.1") for line in server.take()]


def try_order(desk):
    """Posts go first, but for large ones; then what isn't long, who signs in before the others; long lists go last."""
    desk.same("the order", order_of(desk, WAITING, SLOWLY), GOING)


def try_age(desk):
    """A long list that has waited for longer than it is put back goes before what came since; one that is put back for
    longer doesn't, as a control."""
    lines = ["GET /submissions", "GET /plain", "GET /submissions", "GET /later"]
    soon = {"int(5000)": "int(300)"}
    desk.same("an old list", order_of(desk, lines, soon, 1)[:2], lines[:2])
    later = [lines[1], lines[3], lines[0], lines[2]]
    desk.same("the same, put back for longer", order_of(desk, lines, SLOWLY, 1), later)


def try_gave_up(desk):
    """Who closes isn't handed on; without one line of the file it is, as a control."""
    for texts, wanted in (({}, []), ({"    option abortonclose\n": ""}, ["GET /given-up"])):
        server, replies = StandIn(), []
        queue = desk.before(server.port, texts=texts)
        clients = filled(desk, queue, server, replies)
        with socket.create_connection(("127.0.0.1", queue.port)) as client:
            client.sendall(request("GET /given-up"))
            desk.note(wait_until(queue, 1), "it doesn't wait")
        clients.append(begun(queue, "GET /stays", replies))
        desk.note(wait_until(queue, 1 + len(wanted)), f"{waiting(queue)} wait")
        server.let(None)
        server.waits_for(1 + len(wanted))
        ended(server, queue, clients)
        came = [line.removesuffix(" HTTP/1.1") for line in server.take()]
        desk.same("what is handed on", sorted(came), [*wanted, "GET /stays"])


def try_long_wait(desk):
    """A wait in the queue that is too long, which is shorter than nginx's patience."""
    given = [int(re.search(rf"(?m)^ *{word} (\d+)s;?$", (NGINX / name).read_text(encoding="utf-8"))[1])
             for name, word in (("queue.cfg", "timeout queue"), ("replies.conf", "proxy_read_timeout"))]  # fmt: skip
    desk.same("the longest wait, and nginx's", given, [50, 60])
    server, replies = StandIn(), []
    queue = desk.before(server.port, texts={"timeout queue 50s": "timeout queue 300ms"})
    clients = filled(desk, queue, server, replies)
    for line in ("GET /waits", "POST /waits 10", "POST /waits 2000000"):
        desk.same(line, said_by_queue(asked(queue.port, request(line))), AWAY)
    desk.same("what is handed on", server.take(), [])
    ended(server, queue, clients)


def try_away(desk):
    """A desk that isn't there, ends within a head or says nothing."""
    for answer in (b"", b"HTTP/1.1 200 OK\r\nContent-Le", b"no reply\r\n\r\n"):
        server = StandIn(answer)
        queue = desk.before(server.port)
        for line in ("GET /contests", "POST /submissions 100", "POST /submissions 2000000", "PATCH /contests 3"):
            desk.same(f"{answer}: {line}", said_by_queue(asked(queue.port, request(line))), AWAY)
            desk.same(f"{answer}: {line}: how often it is sent", len(server.take()), 1)
        server.close()
        desk.same("nobody listens", said_by_queue(asked(queue.port, request("POST /submissions 10"))), AWAY)
        queue.stop()
    server = StandIn()
    server.let(0)
    queue = desk.before(server.port, texts={"timeout server 60s": "timeout server 300ms"})
    desk.same("a desk that says nothing", said_by_queue(asked(queue.port, request("POST /submissions 10"))), AWAY)
    desk.same("how often it is sent", len(server.take()), 1)
    ended(server, queue)


# Heads that it can't read, and a body.
NO_HEADS = [b"GET\r\n\r\n", b"\x16\x03\x01\x02\r\n\r\n", b"GET / HTTP/1.1\r\nHost x\r\n\r\n",
            b"POST / HTTP/1.1\r\nHost: x\r\nContent-Length: x\r\n\r\n",
            b"POST / HTTP/1.1\r\nHost: x\r\nTransfer-Encoding: gzip\r\n\r\n",
            b"POST / HTTP/1.1\r\nHost: x\r\nTransfer-Encoding: chunked\r\n\r\nno length\r\n\r\n",
            b"GET / HTTP/1.1\r\nHost: x\r\n" + b"a: b\r\n" * 9_000 + b"\r\n",
            b"GET / HTTP/1.1\r\nHost: x\r\na: " + b"b" * 70_000 + b"\r\n\r\n"]  # fmt: skip


def try_malformed(desk):
    """Who says that no more comes, while a desk is asked, is told so in the desk's form. What can't be read is told by
    HAProxy itself, whose form no file changes."""
    server, replies = StandIn(), []
    queue = desk.before(server.port)
    for head in NO_HEADS:
        desk.same(f"{head[:60]}", parts_of(asked(queue.port, head))[0], [b"400"])
    server.take()
    clients = filled(desk, queue, server, replies)
    asked(queue.port, request("GET /"), ends=True)
    ended(server, queue, clients)
    desk.same("what is handed on", server.take(), [])
    server = StandIn()
    server.let(0)
    queue = desk.before(server.port)
    desk.same("a client that says no more", said_by_queue(asked(queue.port, request("GET /"), ends=True)), MALFORMED)
    ended(server, queue)


TOKEN = "Authorization: Bearer token-a1\r\n"
PROGRAM = json.dumps(POSTED).encode()
KEY, DEMO = "Idempotency-Key: k1\r\n", "/contests/demo"
# Requests that the desk and the queue could read differently, with a path that ends in Q for a byte past ASCII.
SAME = {
    "a read": request(f"GET {DEMO}"),
    "HEAD": request(f"HEAD {DEMO}/teams"),
    "HEAD of nothing": request("HEAD /nothing"),
    "405": request(f"DELETE {DEMO}/teams"),
    "an unknown method": request(f"BREW {DEMO}/teams"),
    "a method in small letters": request(f"get {DEMO}/teams"),
    "OPTIONS *": b"OPTIONS * HTTP/1.1\r\nHost: x\r\nConnection: close\r\n\r\n",
    "HTTP/1.0": f"GET {DEMO} HTTP/1.0\r\n\r\n".encode(),
    "HTTP/1.0 with a host": f"GET {DEMO} HTTP/1.0\r\nHost: x\r\n\r\n".encode(),
    "HTTP/1.1 without a host": f"GET {DEMO} HTTP/1.1\r\nConnection: close\r\n\r\n".encode(),
    "the absolute form": f"GET http://x{DEMO} HTTP/1.1\r\nHost: x\r\nConnection: close\r\n\r\n".encode(),
    "the absolute form of another host": request(f"GET http://other{DEMO}"),
    "a long path": request(f"GET {DEMO}/{'a' * 7_000}"),
    "a long query": request(f"GET {DEMO}?{'a' * 7_000}"),
    "a query past ASCII": request(f"GET {DEMO}?Zoë"),
    "pieces that are left out elsewhere": request(f"GET {DEMO}/../demo//teams/%74"),
    "a long field": request(f"GET {DEMO}", f"Cookie: {'c' * 15_000}\r\n"),
    "a head that is too large": request(f"GET {DEMO}", f"Cookie: {'c' * 8_000}\r\n" * 4),
    "many fields": request(f"GET {DEMO}", "a: b\r\n" * 2_700),
    "an unknown token": request(f"GET {DEMO}", "Authorization: Bearer nobody-at-all\r\n"),
    "two tokens": request(f"GET {DEMO}", TOKEN * 2),
    "a post": request(f"POST {DEMO}/submissions", TOKEN + KEY, PROGRAM),
    "a post without a body": request(f"POST {DEMO}/submissions 0", TOKEN),
    "a post without a length": request(f"POST {DEMO}/submissions", TOKEN),
    "Expect: 100-continue": request(f"POST {DEMO}/submissions", f"{TOKEN}Expect: 100-continue\r\n{KEY}", PROGRAM),
    "HTTP/3": b"GET / HTTP/3\r\nHost: x\r\nConnection: close\r\n\r\n",
    "a byte that no head has": request(f"GET {DEMO}", "a: \0\r\n"),
    "chunked": request(f"POST {DEMO}/submissions", "Transfer-Encoding: chunked\r\n") + b"2\r\n{}\r\n0\r\n\r\n",
    **{f"403 of {size}": request(f"POST {DEMO}/submissions {size}") for size in (1_000_000, 2_000_000, 2_097_152)},
    **{f"413 of {size}": request(f"POST {DEMO}/submissions {size}", TOKEN) for size in (2_097_153, 2_900_000)},
}  # fmt: skip
TIMES = 5


def try_same(desk):
    """What the desk answers comes through the queue as it is."""
    server = Server(desk, demo.made(desk, demo.FILES))
    queue = desk.before(server.port)
    for what, data in SAME.items():
        wanted = parts_of(asked(server.port, data))
        for _ in range(TIMES if len(data) > 100_000 else 1):
            given = asked(queue.port, data)
            desk.same(what, parts_of(given), wanted)
    queue.stop()
    server.stop()


# What comes to nginx in a request of two contests: one that it leads to the queue, and one to the desk itself.
LED = "/CONTEST/contests/demo"
AT_NGINX = {
    "a read": request(f"GET {LED}", TOKEN),
    "of the public": request(f"GET {LED}"),
    "a long list": request(f"GET {LED}/submissions", TOKEN),
    "HEAD": request(f"HEAD {LED}/teams", TOKEN),
    "405": request(f"DELETE {LED}/teams", TOKEN),
    "an unknown method": request(f"BREW {LED}/teams", TOKEN),
    "HTTP/1.0": b"GET /CONTEST/contests/demo HTTP/1.0\r\nAuthorization: Bearer token-a1\r\n\r\n",
    "no version": b"GET /CONTEST/contests/demo\r\n\r\n",
    "the absolute form": request("GET http://other/CONTEST/contests/demo", TOKEN),
    "a post": request(f"POST {LED}/submissions", TOKEN + KEY, PROGRAM),
    "413": request(f"POST {LED}/submissions 2500000", TOKEN),
    "403": request("POST /CONTEST/jury/proposals 1000000", TOKEN),
    "chunked": request(f"POST {LED}/submissions", TOKEN + KEY + "Transfer-Encoding: chunked\r\n")
    + b"2\r\n{}\r\n0\r\ntrailer: x\r\n\r\n",
    "another encoding": request(f"POST {LED}/submissions", TOKEN + "Transfer-Encoding: gzip\r\n"),
    "a length and chunks": request(f"POST {LED}/submissions 5", TOKEN + "Transfer-Encoding: chunked\r\n"),
    "two lengths": request(f"POST {LED}/submissions 5", TOKEN + "Content-Length: 5\r\n"),
    "no length": request(f"POST {LED}/submissions", TOKEN + "Content-Length: x\r\n"),
    "two hosts": request(f"GET {LED}", TOKEN + "Host: y\r\n"),
    "another protocol": request(f"GET {LED}", TOKEN + "Upgrade: websocket\r\nTE: x\r\n"),
    "Expect": request(f"POST {LED}/submissions 9", TOKEN + "Expect: 100-continue\r\n"),
    "another expectation": request(f"POST {LED}/submissions 9", TOKEN + "Expect: more\r\n"),
    "a long path": request(f"GET {LED}/{'a' * 7_000}", TOKEN),
    "a path of bytes": request(f"GET {LED}/%00%01%7f%ff%0d%0a%20", TOKEN),
    "a path past ASCII": request(f"GET {LED}/Zoë", TOKEN),
    "a query past ASCII": request(f"GET {LED}?Zoë", TOKEN),
    "a query of marks": request(f'GET {LED}?"<>^`{{|}}\\[]', TOKEN),
    "fields of marks": request(f"GET {LED}", TOKEN + "a_b: 1\r\na.b: 1\r\n(a): 1\r\na b: 1\r\n: 1\r\nc: \x01\të\r\n"),
    "lines that go on": request(f"GET {LED}", TOKEN + "a: 1\r\n  2\r\n"),
    "a byte that no head has": request(f"GET {LED}", TOKEN + "a: \0\r\n"),
    "ends of lines": request(f"GET {LED}", TOKEN + "a: 1\r2\r\nb: 3\nc:\r\n"),
    "many fields": request(f"GET {LED}", TOKEN + "a:\n" * 900),
    "more": request(f"GET {LED}", TOKEN + "a:\n" * 10_000),
    "large fields": request(f"GET {LED}", TOKEN + f"a: {'b' * 8_000}\r\n" * 3),
    "large ones beside small ones": request(f"GET {LED}", TOKEN + f"a: {'b' * 8_000}\r\n" * 3 + "c:\n" * 900),
    "larger ones": request(f"GET {LED}", TOKEN + f"a: {'b' * 8_100}\r\n" * 5),
    "a field that is larger": request(f"GET {LED}", TOKEN + f"a: {'b' * 9_000}\r\n"),
}  # fmt: skip


# The same by HTTP/2: a path, and fields.
BEARER, IN_DEMO = (b"authorization", b"Bearer token-a1"), b"/contests/demo"
BY_HTTP2 = {
    "a read": (IN_DEMO, []),
    "the end of a line": (IN_DEMO, [(b"a", b"1\r\nb: 2")]),
    "a byte that no head has": (IN_DEMO, [(b"a", b"\0")]),
    "bytes of any kind": (IN_DEMO, [(b"a", b"\x01\x7f\t\xff")]),
    "spaces": (IN_DEMO, [(b"a", b"  1  ")]),
    "names of marks": (IN_DEMO, [(b"a b", b"1")]),
    "names of other marks": (IN_DEMO, [(b"(a)", b"1"), (b"a_b", b"1"), (b"a.b", b"1")]),
    "no name": (IN_DEMO, [(b"", b"1")]),
    "another host": (IN_DEMO, [(b"host", b"y")]),
    "a connection's fields": (IN_DEMO, [(b"connection", b"close"), (b"upgrade", b"x"), (b"te", b"gzip")]),
    "an encoding": (IN_DEMO, [(b"transfer-encoding", b"chunked")]),
    "a length": (IN_DEMO, [(b"content-length", b"5")]),
    "a path with a space": (IN_DEMO + b"/a b", []),
    "a path of bytes": (IN_DEMO + b"/\x01\xff", []),
    "a query of bytes": (IN_DEMO + b"?\xff\xfe", []),
    "a long path": (IN_DEMO + b"/" + b"a" * 7_000, []),
    "many fields": (IN_DEMO, [(b"a", b"")] * 900),
    "more": (IN_DEMO, [(b"a", b"")] * 20_000),
    "large fields": (IN_DEMO, [(b"a", b"b" * 8_000)] * 3),
    "larger ones": (IN_DEMO, [(b"a", b"b" * 8_000)] * 5),
}


def try_nginx(desk):
    """What nginx hands on is read by the queue: whatever comes to it is answered as without the queue."""
    server = Server(desk, demo.made(desk, demo.FILES))
    queue = desk.before(server.port)
    nginx = Nginx(desk.new_folder(), {"queue": queue.port, "plain": server.port}, is_limited=False)
    for what, data in AT_NGINX.items():
        plain, given = (through(nginx, data.replace(b"CONTEST", contest)) for contest in (b"plain", b"queue"))
        desk.same(what, parts_of(given), parts_of(plain))
        desk.note(b"invalid request" not in given, f"{what}: {given!r:.300}")
    for what, (path, fields) in BY_HTTP2.items():
        plain, given = (http2.asked(nginx.port, to + path, [BEARER, *fields]) for to in (b"/plain", b"/queue"))
        desk.same(f"{what}, by HTTP/2", given, plain)
    desk.same("a read, by HTTP/2", http2.asked(nginx.port, b"/queue/contests/demo", [BEARER])[0], b"\x88")
    nginx.stop()
    queue.stop()
    server.stop()


def through(nginx, data):
    """What nginx answers to some bytes, up to where it closes."""
    pieces = []
    with contextlib.suppress(OSError), nginx.connected() as client:
        sent(client, data, False)
        while piece := client.recv(65536):
            pieces.append(piece)
    return b"".join(pieces)


def try_log(desk):
    """It writes down nothing of a request, and leaves no file."""
    server = StandIn()
    queue = desk.before(server.port)
    secret = "Authorization: Bearer a-secret-token\r\n"
    for data in (request("GET /a-secret-path", secret), request("POST /a-secret-path 100", secret)):
        asked(queue.port, data)
        asked(queue.port, NO_HEADS[2] + data)
    server.close()
    asked(queue.port, request("GET /a-secret-path", secret))
    files = {file.name: file.read_bytes() for file in queue.folder.iterdir() if file.is_file()}
    queue.stop()
    desk.same("its files", sorted(files), ["away.http", "malformed.http", "queue.cfg", "queue.log"])
    desk.note(b"secret" not in b"".join(files.values()), f"what it wrote down: {files['queue.log'].decode()}")
    log = re.findall(r"(?m)^\[(?:ALERT|WARNING)\].*", files["queue.log"].decode())
    desk.same("warnings", [line for line in log if "SIG" not in line and "exiting" not in line.lower()], [])


def try_second(desk):
    """A second queue on its port ends at once; without one line of the file it doesn't, as a control."""
    server = StandIn()
    queue = desk.before(server.port)
    words = ["haproxy", "-db", "-f", queue.folder / "queue.cfg"]
    status, _, err = ran(["env", f"PORT={queue.port}", *words])
    desk.note(status == 1 and b"cannot bind socket" in err, f"a second queue: {status}, {err.decode()}")
    desk.same("the first", parts_of(asked(queue.port, request("GET /")))[0], [b"200"])
    queue.stop()
    first = Queue(desk.new_folder(), server.port, texts={"    noreuseport\n": ""})
    second = Queue(desk.new_folder(), server.port, first.port, {"    noreuseport\n": ""})
    desk.same("both run", (first.process.poll(), second.process.poll()), (None, None))
    second.stop()
    ended(server, first)


def try_files(desk):
    """As many connections as the file lets it have need no more files than its unit lets it open."""
    files = int(re.search(r"(?m)^LimitNOFILE=(\d+)$", (NGINX / "desk-queue@.service").read_text(encoding="utf-8"))[1])
    for limit, fits in ((files, True), (files // 2, False)):
        folder = desk.new_folder()
        for name in ("queue.cfg", "away.http", "malformed.http"):
            (folder / name).write_bytes((NGINX / name).read_bytes())
        words = ["prlimit", f"--nofile={limit}:{limit}", "timeout", "1", "haproxy", "-db", "-f", folder / "queue.cfg"]
        said = ran(["env", f"PORT={free_port()}", *words])[2].decode()
        desk.same(f"{limit} files", "ALERT" in said or "too low" in said, not fits)


PARTS = (try_at_once, try_order, try_age, try_gave_up, try_long_wait, try_away, try_malformed, try_same, try_nginx,
         try_log, try_second, try_files)  # fmt: skip

if __name__ == "__main__":
    sys.exit(program.main(__doc__, Beside, PARTS, program="desk"))
