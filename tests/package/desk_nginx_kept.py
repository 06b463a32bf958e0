#!/usr/bin/env -S python3 -B
"""Counts what nginx, as examples/nginx/ has it, asks a desk for what it keeps, and looks at what it keeps.

    desk_nginx_kept.py [--program PATH]

60 clients ask at once for a board without a credential, 60 for a list at a machine for spectators, and 60 show a token that
nginx doesn't know yet, while the desk takes longer than nginx's own five seconds: it is asked once for each. What is kept for
the public is kept compressed, and is sent as it lies there. 250 scoreboards behind one address get their lists, so that they
learn who was first. What all ask for isn't counted by address, and all else is. That a credential off its form is none is kept
for a second, and that a token is none never is.

Takes nginx, haproxy, openssl and faketime. Ends with the line `N passed, M failed`; the exit status is 0 if M is 0.
"""

import asyncio
import collections
import gzip
import http.server
import sys
import threading

from lib import demo, program
from lib.streams import Http2
from lib.nginx import HERE, Client, Front, Nginx, without_lookups
from lib.program import PATIENCE, Program
from lib.queue import Queue
from lib.relay import Relay
from lib.server import Server

NAME, CONTEST, TOKEN = "contest.example", "/contests/demo", "token-a1"
# So many ask for the same, on so many connections; and so long it takes to come, which is longer than nginx waits by itself.
CALLERS, CONNECTIONS, HELD = 60, 3, 7
SCOREBOARDS, CREDENTIALS = 250, 300
# What the public asks for that is the same for all, and what isn't.
COLLECTIONS = ("state", "scoreboard", "awards", "clarifications", "event-feed", "submissions", "judgements", "problems", "teams", "groups",
               "languages", "judgement-types")  # fmt: skip
FOR_ALL = ["", "/demo", *(f"/demo/{name}" for name in COLLECTIONS)]
OTHERS = ["/other", "/other/scoreboard", *(f"/demo/{name}" for name in ("nothing", "account", "teams/", "teams/t1", "groups/north/scoreboard"))]
# So many teams that nginx compresses their board.
FILES = {**demo.FILES, "teams-csv": demo.FILES["teams-csv"] + "".join(f"h{number},Team {number},,\n" for number in range(20))}


class Slow(http.server.BaseHTTPRequestHandler):
    """A desk that answers nothing before it is let, and then the same to all."""

    def do_GET(self):
        with self.server.lock:
            self.server.asked[self.path] += 1
        self.server.is_let.wait(PATIENCE)
        self.send_response(200)
        self.send_header("Content-Type", "application/json")
        self.send_header("Content-Length", "2")
        self.end_headers()
        self.wfile.write(b"[]")

    def log_message(self, *_):
        pass


class Desk(http.server.ThreadingHTTPServer):
    daemon_threads, request_queue_size = True, 128

    def __init__(self):
        super().__init__(("127.0.0.1", 0), Slow)
        self.asked, self.lock, self.is_let = collections.Counter(), threading.Lock(), threading.Event()
        threading.Thread(target=self.serve_forever, daemon=True).start()


async def asked(port, path, token=None):
    """What all are answered who ask for a path at once: each status and body, and how often."""
    fields = [] if token is None else [("authorization", f"Bearer {token}")]
    clients = [Http2(port, fields) for _ in range(CONNECTIONS)]
    found = await asyncio.gather(*(clients[number % CONNECTIONS].ask("GET", path) for number in range(CALLERS)))
    for client in clients:
        client.close()
    return collections.Counter(found)


def try_one_asks(program):
    """60 callers of one path, of which each keeps the others waiting for as long as the desk takes."""
    desk = Desk()
    nginx = Nginx(program.new_folder(), {"demo": Queue(program.new_folder(), desk.server_address[1]).port}, name=NAME)
    front = Front(program.new_folder(), nginx, NAME)

    async def ask_all():
        asking = [
            asked(nginx.port, f"{HERE}/scoreboard"),
            asked(front.port, f"{HERE}/teams"),
            asked(nginx.port, f"{HERE}/state", TOKEN),
        ]
        running = asyncio.gather(*asking)
        await asyncio.sleep(HELD)
        desk.is_let.set()
        return await running

    for what, given in zip(("a board", "a list at a machine for spectators", "a token's own"), asyncio.run(ask_all())):
        program.same(f"{what}, for {CALLERS}", given, {(200, b"[]"): CALLERS})
    wanted = {f"{CONTEST}/scoreboard": 1, f"{CONTEST}/teams": 1, "/contests": 1, f"{CONTEST}/state": CALLERS}
    program.same("what the desk was asked", desk.asked, wanted)
    paths = collections.Counter(path for _, _, path in nginx.answered())
    program.same("what the machine for spectators asked", paths[f"{HERE}/teams"], 1)
    front.stop()
    nginx.stop()
    desk.shutdown()


def try_compressed(program):
    """What is kept for the public is compressed, and comes so to who takes it; to others it comes as the desk wrote it."""
    server = Server(program, demo.made(program, FILES))
    nginx = Nginx(program.new_folder(), {"demo": Queue(program.new_folder(), server.port).port})
    wanted = Client(server.port, is_plain=True).ask("GET", f"{CONTEST}/teams")[2]
    for method in ("GET", "HEAD", "GET"):
        status, fields, body = Client(nginx.port).ask(method, f"{HERE}/teams", **{"Accept-Encoding": "gzip"})
        program.same(f"{method}, compressed", (status, fields["Content-Encoding"]), (200, "gzip"))
        program.same(f"what {method} brings", gzip.decompress(body) if body else b"", wanted if method == "GET" else b"")
    kept = [file.read_bytes() for file in (nginx.folder / "cache").rglob("*") if file.is_file()]
    program.note(len(kept) == 1 and kept[0].endswith(body), f"what is kept isn't what came: {kept}")
    status, fields, plain = Client(nginx.port).ask("GET", f"{HERE}/teams")
    program.same("as it is", (status, fields["Content-Encoding"], plain), (200, None, wanted))
    own = Client(nginx.port, TOKEN).ask("GET", f"{HERE}/teams", **{"Accept-Encoding": "gzip"})
    program.same("a team's own, compressed", (own[0], gzip.decompress(own[2])), (200, wanted))
    nginx.stop()
    server.stop()


def try_scoreboards(program):
    """250 scoreboards behind one address, each of which asks for the board and for both long lists, and then again."""
    server = Server(program, demo.made(program, demo.FILES))
    nginx = Nginx(program.new_folder(), {"demo": Queue(program.new_folder(), server.port).port})

    async def ask_all():
        pages, found = [Http2(nginx.port) for _ in range(SCOREBOARDS)], []
        for path in ("scoreboard", "submissions", "judgements") * 2:
            found += await asyncio.gather(*(page.ask("GET", f"{HERE}/{path}") for page in pages))
        for page in pages:
            page.close()
        return collections.Counter(status for status, _ in found)

    program.same(f"{SCOREBOARDS} scoreboards behind one address", asyncio.run(ask_all()), {200: 6 * SCOREBOARDS})
    nginx.stop()
    server.stop()


def try_named(program):
    """What all ask for isn't counted by address, and each of it is kept; anything else is counted."""
    server = Server(program, demo.made(program, demo.FILES))
    relay = Relay(server.port)
    nginx = Nginx(program.new_folder(), {"demo": Queue(program.new_folder(), relay.port).port})
    client = Client(nginx.port)
    for paths, is_counted in ((FOR_ALL, False), (OTHERS, True)):
        for path in paths:
            status = client.ask("GET", f"/demo/contests{path}")[0]
            sent = [one for one in relay.take() if one.startswith(f"GET /contests{path} ".encode())]
            program.same(f"{path}: how often it was asked for", len(sent), 1)
            program.same(f"{path} is counted", b"\r\nx-address: 127.0.0.1\r\n" in sent[0].lower(), is_counted)
            program.note(is_counted or status == 200, f"{path}, which isn't counted, is answered {status} and so isn't kept")
    nginx.stop()
    server.stop()
    relay.close()


def try_credentials(program):
    """How often the desk is asked about credentials that no account has: seldom of those off their form, which are all alike,
    and each time of a token."""
    server = Server(program, demo.made(program, demo.FILES))
    relay = Relay(server.port)
    nginx = Nginx(program.new_folder(), {"demo": Queue(program.new_folder(), relay.port).port})
    client, statuses = Client(nginx.port), collections.Counter()
    for number in range(CREDENTIALS):
        statuses[client.ask("GET", f"{HERE}/account", Authorization=f"Scheme{number} x")[0]] += 1
    seen = relay.take()
    program.same("credentials off their form", statuses, {401: CREDENTIALS})
    program.note(0 < len(seen) < CREDENTIALS / 3, f"of {CREDENTIALS} the desk was asked about {len(seen)}")
    for number in range(20):
        program.same("a token that is none", client.ask("GET", f"{HERE}/account", Authorization="Bearer made-up-token")[0], 401)
    seen = relay.take()
    program.same("how often the desk was asked about it", (len(seen), without_lookups(seen)), (20, []))
    nginx.stop()
    server.stop()
    relay.close()


if __name__ == "__main__":
    sys.exit(program.main(__doc__, Program, (try_one_asks, try_compressed, try_scoreboards, try_named, try_credentials), program="desk"))
