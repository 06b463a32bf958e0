#!/usr/bin/env -S python3 -B
"""Asks `desk serve` through nginx and the queue, as examples/nginx/ has them, as strangers do, who have no account, while teams
post.

    desk_nginx_strangers.py [--program PATH] [--seconds N]

What nginx answers strangers itself: who changes something or sends a body without a credential, and who shows one that no
account has, whatever the path; the desk sees none of it. Ever new tokens on eight connections keep out no team that signs
in behind the same address, at an nginx that knows nobody yet; nor do 40 connections of HTTP/2 with 100 requests each, which
show credentials off their form, or ever new tokens; and boards come meanwhile. 300 clients that send most of a body and then
nothing leave nginx's memory as it was. A head that isn't whole after five seconds is dropped. 1,900 connections without a credential,
at paths that aren't kept, keep no team's post from being taken. How long posts take beside a flood is printed beside a
run without one, and isn't judged. Floods last N seconds each (6). The guide's firewall counts the connections of each
address; without root's rights that counts as skipped.

Takes nginx, haproxy, openssl, wrk, curl, faketime, unshare and nft. Ends with the line `N passed, M failed` and, if something
couldn't be tried, `, K skipped`; the exit status is 0 if M is 0.
"""

import asyncio
import collections
import concurrent.futures
import json
import os
import re
import resource
import sys
import time

from lib import demo, program
from lib.floods import Flood, note_taken, posts_of
from lib.streams import Http2
from lib.nginx import GUIDE, HERE, Client, Nginx, without_lookups
from lib.program import PATIENCE, Program, ran
from lib.queue import Queue
from lib.relay import Relay
from lib.server import Server, read_all

TEAMS = [f"token-h{number}" for number in range(1, 41)]
ROLE, UNKNOWN = (403, "RoleForbids", None), (401, "UnknownToken", 'Bearer realm="desk"')
MADE_UP, OFF_FORM = {"Authorization": "Bearer made-up-token"}, {"Authorization": "nonsense"}
PATHS = ["submissions", "clarifications", "nothing", "teams/x.html", "event-feed"]
OTHERS = ["/contests/demo/submissions", "/demo/jury/proposals", "/demo/jury/submissions", HERE]
ANYWHERE = [f"{HERE}/{path}" for path in PATHS] + OTHERS
# A body that is nearly whole, and how much memory all of them may take.
SENT, WHOLE, HOLDERS, MEGABYTES = 2_090_000, 2_097_152, 300, 40
HEAD_SECONDS = 5
FLOODING, POSTING = 1_900, 6
STREAMING, STREAMS = 40, 100
# The guide's firewall, and its limit; and what tries it in a network of its own, by two addresses.
FIREWALL = re.search(r"(?ms)^cat >> /etc/nftables\.conf << END\n(.*?)^END$", GUIDE)[1]
LIMIT, ROOM, OPENED = "over 3000", 30, 40
INSIDE = f"""
import fcntl, socket, struct, subprocess, sys
fcntl.ioctl(socket.socket(), 0x8914, struct.pack("16sh", b"lo", 65))
subprocess.run(["nft", "-f", "-"], input=sys.stdin.buffer.read(), check=True)
server, kept = socket.create_server(("", 443), backlog=1_000), []
def opened(address):
    try:
        kept.append(socket.create_connection(("127.0.0.1", 443), 5, (address, 0)))
    except ConnectionError:
        return False
    return True
print([sum(opened(one) for _ in range({OPENED})) for one in ("127.0.0.2", "127.0.0.3")])
"""


def files():
    """The demo contest with teams of a hall."""
    names = [token.removeprefix("token-") for token in TEAMS]
    teams = "".join(f"{name},Team {name},,\n" for name in names)
    accounts = "".join(f"{name},team,{name},token-{name}\n" for name in names)
    more = {"teams-csv": teams, "accounts-csv": accounts}
    return {kind: text + more.get(kind, "") for kind, text in demo.FILES.items()}


class Hall(Program):
    """A desk with that contest."""

    def __init__(self, options, folder):
        super().__init__(options, folder)
        soft, hard = resource.getrlimit(resource.RLIMIT_NOFILE)
        resource.setrlimit(resource.RLIMIT_NOFILE, (min(hard, 4_096), hard))
        self.server = Server(self, demo.made(self, files()))
        self.queue = Queue(self.new_folder(), self.server.port)

    def nginx(self):
        return Nginx(self.new_folder(), {"demo": self.queue.port})


def told(answer):
    """The status, the name and the field of a refusal in the desk's form."""
    status, fields, body = answer
    said = json.loads(body) if fields["Content-Type"] == "application/json" else {}
    is_form = body == f'{{"code":{status},"message":"{said.get("message")}"}}'.encode()
    return status, said["message"] if is_form else body, fields["WWW-Authenticate"]


def asked_by_curl(nginx, *words):
    """The status and the body of what curl is answered, by HTTP/2 unless its words say otherwise."""
    _, out, _ = ran(["curl", "-sk", "-w", " %{http_code}", *words, f"https://127.0.0.1:{nginx.port}{HERE}/scoreboard"])
    body, _, status = out.decode().rpartition(" ")
    return int(status), body


def try_answers(hall):
    """What nginx answers itself, whatever the path; of all of it the desk sees whether a token is an account's."""
    relay = Relay(hall.server.port)
    nginx = Nginx(hall.new_folder(), {"demo": Queue(hall.new_folder(), relay.port).port})
    client = Client(nginx.port)
    for path in ANYWHERE:
        for method, body in (("POST", "{}"), ("POST", None), ("PATCH", "{}"), ("DELETE", None), ("GET", "{}")):
            hall.same(f"{method} {path} of nobody", told(client.ask(method, path, body)), ROLE)
        for fields in (MADE_UP, OFF_FORM):
            for method, body in (("POST", "{}"), ("GET", None), ("GET", "{}")):
                hall.same(f"{method} {path} with {fields}", told(client.ask(method, path, body, **fields)), UNKNOWN)
    pieces = [b"{", b"}"]
    hall.same("a body in chunks", told(client.ask("GET", f"{HERE}/scoreboard", pieces)), ROLE)
    for words in (["-X", "GET", "-d", "{}"], ["-X", "GET", "-d", "{}", "-H", "Content-Length:"]):
        hall.same(f"curl {words}", asked_by_curl(nginx, *words), (403, '{"code":403,"message":"RoleForbids"}'))
    hall.same("curl with no body", asked_by_curl(nginx)[0], 200)
    seen = without_lookups(relay.take())
    hall.same("requests that the desk saw, but for lookups and the board", len(seen), 1)
    nginx.stop()
    relay.close()


def try_sign_in(hall):
    """Ever new tokens on eight connections, while teams sign in behind the same address that this nginx doesn't know yet."""
    nginx = hall.nginx()
    alone = posts_of(nginx, TEAMS[30])
    nginx.stop()
    nginx, took = hall.nginx(), []
    with Flood(nginx, f"{HERE}/account", 2, 8, "made_up.lua") as flood:
        for token in TEAMS[:20]:
            start = time.monotonic()
            hall.same(f"{token} signs in", Client(nginx.port, token).ask("GET", f"{HERE}/account")[0], 200)
            took.append(time.monotonic() - start)
            time.sleep(hall.options.seconds / 40)
        note_taken(hall, "beside ever new tokens", posts_of(nginx, TEAMS[0]), alone)
    print(f"  a team signs in within {max(took) * 1000:.0f} ms; the flood was answered {dict(nginx.statuses())}")
    hall.note("requests in" in flood.said, f"the flood: {flood.said}")
    nginx.stop()


async def stream(nginx, credentials, is_greedy):
    """Asks on 40 connections, 100 requests each at one time or as many as nginx lets it, again and again with credentials that are
    made."""

    async def go(client):
        while True:
            await client.ask("GET", f"{HERE}/account", fields=[("authorization", next(credentials))])

    clients = [Http2(nginx.port, is_greedy=is_greedy) for _ in range(STREAMING)]
    try:
        await asyncio.gather(*(go(client) for client in clients for _ in range(STREAMS)))
    finally:
        for client in clients:
            client.close()


async def signed_in(nginx, token):
    """The statuses of a team's account and board."""
    client = Http2(nginx.port, [("authorization", f"Bearer {token}")])
    statuses = [(await client.ask("GET", f"{HERE}/{path}"))[0] for path in ("account", "scoreboard")]
    client.close()
    return statuses


async def beside_streams(nginx, credentials, is_greedy):
    """What teams are answered that sign in beside these, and look at the board, by their statuses."""
    flood = asyncio.create_task(stream(nginx, credentials, is_greedy))
    await asyncio.sleep(1)
    found = await asyncio.gather(*(signed_in(nginx, token) for token in TEAMS))
    flood.cancel()
    await asyncio.gather(flood, return_exceptions=True)
    return collections.Counter(status for statuses in found for status in statuses)


def try_streams(hall):
    """4,000 requests at one time of one address, by HTTP/2, with credentials that no account has: 40 teams sign in behind it, and
    see the board. A client asks for as much at one time as nginx lets it, or for more, and is cut off."""
    off_form, made_up = iter(lambda: "nonsense", None), (f"Bearer made-up-{number}" for number in range(10**9))
    for what, credentials, is_greedy in (
        ("credentials off their form", off_form, False),
        ("ever new tokens", made_up, False),
        ("ever new tokens of a client that heeds no bound", made_up, True),
    ):
        nginx = hall.nginx()
        statuses = asyncio.run(beside_streams(nginx, credentials, is_greedy))
        hall.same(f"{len(TEAMS)} teams beside {what} on {STREAMING} connections", statuses, {200: 2 * len(TEAMS)})
        print(f"  {what}: all was answered {dict(nginx.statuses())}")
        nginx.stop()


def keep_body(nginx, fields):
    """A client that sends most of a body, and then nothing."""
    client = nginx.connected()
    head = f"POST {HERE}/submissions HTTP/1.1\r\nHost: x\r\nContent-Length: {WHOLE}\r\n{fields}\r\n"
    client.sendall(head.encode())
    client.sendall(b" " * SENT)
    return client


def answered(client):
    """The first line that a client was sent; nothing if none came."""
    client.settimeout(PATIENCE)
    try:
        return client.recv(65_536).partition(b"\r\n")[0].decode()
    except OSError:
        return ""


def try_bodies(hall):
    """Bodies that strangers begin and don't end: nginx takes none of them."""
    for what, fields, wanted in (
        ("without a credential", "", "HTTP/1.1 403 Forbidden"),
        ("with made-up tokens", "Authorization: Bearer made-up-{}\r\n", "HTTP/1.1 401 Unauthorized"),
    ):
        nginx = hall.nginx()
        Client(nginx.port, TEAMS[0]).ask("GET", f"{HERE}/state")
        before = nginx.memory()
        with concurrent.futures.ThreadPoolExecutor(20) as pool:
            clients = list(pool.map(lambda number: keep_body(nginx, fields.format(number)), range(HOLDERS)))
        # (nginx takes what lies in sockets)
        time.sleep(2)
        held = nginx.memory()
        with concurrent.futures.ThreadPoolExecutor(50) as pool:
            lines = set(pool.map(answered, clients))
        hall.same(f"{HOLDERS} bodies {what}", lines, {wanted})
        hall.note(held - before < MEGABYTES, f"{HOLDERS} bodies {what} take nginx from {before:.0f} to {held:.0f} MB")
        print(f"  {HOLDERS} bodies {what}: nginx holds {before:.0f} MB, and {held:.0f} MB then")
        for client in clients:
            client.close()
        nginx.stop()


def try_heads(hall):
    """A head that is never whole is dropped in five seconds, at both ports; one that comes in time is answered."""
    nginx = hall.nginx()
    for what, connected in (("TLS", nginx.connected), ("without TLS", nginx.connected_plainly)):
        with connected() as client:
            start = time.monotonic()
            client.sendall(b"GET / HTTP/1.1\r\nHost: x\r\nX-")
            read_all(client)
        took = time.monotonic() - start
        hall.note(HEAD_SECONDS - 1 < took < HEAD_SECONDS + 3, f"half a head, {what}: it was dropped after {took:.1f} s")
    with nginx.connected() as client:
        client.sendall(b"GET /demo/contests HTTP/1.1\r\nHost: x\r\nConnection: close\r\n")
        time.sleep(HEAD_SECONDS - 2)
        client.sendall(b"\r\n")
        hall.note(read_all(client).startswith(b"HTTP/1.1 200"), "a head that takes three seconds isn't answered")
    nginx.stop()


def try_firewall(hall):
    """The guide's firewall, with less room: it counts the connections of each address by itself."""
    if os.geteuid():
        return hall.skip("no network of its own: it takes root's rights")
    hall.note(LIMIT in FIREWALL, f"the guide's firewall has no {LIMIT}")
    rules = FIREWALL.replace(LIMIT, f"over {ROOM}").encode()
    given = ran(["unshare", "--net", "python3", "-c", INSIDE], input=rules)
    hall.same("connections of two addresses", given, (0, f"[{ROOM}, {ROOM}]\n".encode(), b""))


def posts_of_all(nginx, tokens):
    """The posts of teams side by side."""
    with concurrent.futures.ThreadPoolExecutor(len(tokens)) as pool:
        return [one for posts in pool.map(lambda token: posts_of(nginx, token, 40), tokens) for one in posts]


def try_public(hall):
    """1,900 connections without a credential, at ever new paths, none of which is kept, while six teams post."""
    nginx, tokens = hall.nginx(), TEAMS[20 : 20 + POSTING]
    alone = posts_of_all(nginx, tokens)
    note_taken(hall, "six teams, beside nothing", alone)
    with Flood(nginx, f"{HERE}/teams/nobody-", 2, FLOODING, "other_paths.lua"):
        time.sleep(hall.options.seconds / 3)
        what = f"six teams, beside {FLOODING} connections of the public"
        note_taken(hall, what, posts_of_all(nginx, tokens), alone)
    print(f"    which were answered {dict(nginx.statuses())}")
    nginx.stop()


if __name__ == "__main__":
    PARTS = (try_answers, try_sign_in, try_streams, try_bodies, try_heads, try_firewall, try_public)
    sys.exit(program.main(__doc__, Hall, PARTS, program="desk", seconds=6))
