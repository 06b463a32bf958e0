#!/usr/bin/env -S python3 -B
"""Asks `desk serve` through nginx and the queue for more than the limits of examples/nginx/ give, and as much as pages ask.

    desk_nginx_limits.py [--program PATH] [--submissions N] [--seconds N]

1,100 clients that say nothing leave room for others. One token that asks for the longest list on 150 connections is given
no more of them than its limit, and another team's posts are taken. A token has 300 requests at one time, and 80 bodies.
Of what isn't kept for all an address has so many at once, and then so many in a second. Credentials that no account has,
the same one again and again or ever new ones, wait for their turn among those of their address, and who is signed in
behind that address posts all the same; so it is of the public. 30 pages of one account, and a hall of 120 teams that all
sign in at once behind one address, are refused nothing. How long posts and pages take is printed and isn't judged. The
contest has N submissions (1,200); floods last N seconds each (3).

Takes nginx, haproxy, openssl, wrk and faketime. Ends with the line `N passed, M failed`; the exit status is 0 if M is 0.
"""

import asyncio
import collections
import concurrent.futures
import resource
import signal
import socket
import statistics
import sys
import threading
import time

from lib import demo, program
from lib.floods import Flood
from lib.streams import Http2
from lib.import_opinion import compact
from lib.nginx import Client, Nginx
from lib.program import PATIENCE, Program, ran
from lib.queue import Queue
from lib.server import Server, read_all
from lib.timetable import path_of, timetable

HERE, POSTED = "/demo/contests/demo", {"problem_id": "a", "language_id": "cpp", "files": [{"data": "YWJj"}]}
HALL, IDLE, FLOODING = 120, 1_100, 150
# What a team's page asks for at once when it is loaded, and what of that every so many seconds.
PAGE = [f"/demo{path_of('demo', path)}" for beat in timetable()["team"] for path in beat["paths"]]
QUICK, (PAGE_SECONDS, *_) = PAGE[: len(timetable()["team"][0]["paths"])], [beat["seconds"] for beat in timetable()["team"]]
PAGES, ROUNDS = 30, 3
# The limits of examples/nginx/: of a token at one time, and of its bodies; and in a second, with how many more that go on at
# once: of a token, of its long lists, of tokens that no account has, of who shows none, and of what isn't kept for all.
AT_ONCE, BODIES_AT_ONCE = 300, 80
TOKEN, LISTS, STRANGERS, PUBLIC, OTHERS = (60, 700), (4, 80), (1_000, 1_000), (4_000, 9_000), (100, 200)
# So many more of these wait, and so many are over that, on so many connections.
OTHERS_WAIT, OVER, STREAMING = 500, 800, 50


def hall_files():
    """The demo contest with teams for a whole hall."""
    names = [f"h{number}" for number in range(HALL)]
    teams = "".join(f"{name},Team {name},,\n" for name in names)
    accounts = "".join(f"{name},team,{name},token-{name}\n" for name in names)
    more = {"teams-csv": teams, "accounts-csv": accounts}
    return {kind: text + more.get(kind, "") for kind, text in demo.FILES.items()}


class Hall(Program):
    """A desk with the contest of a hall, and the token of each of its teams."""

    def __init__(self, options, folder):
        super().__init__(options, folder)
        soft, hard = resource.getrlimit(resource.RLIMIT_NOFILE)
        resource.setrlimit(resource.RLIMIT_NOFILE, (min(hard, 4_096), hard))
        self.tokens = [f"token-h{number}" for number in range(HALL)]
        self.server = Server(self, demo.made(self, hall_files()))
        self.queue = Queue(self.new_folder(), self.server.port)
        for number in range(options.submissions):
            client = Client(self.server.port, self.tokens[number % HALL], is_plain=True)
            self.same("a submission", client.ask("POST", "/contests/demo/submissions", compact(POSTED))[0], 200)

    def nginx(self, **how):
        return Nginx(self.new_folder(), {"demo": self.queue.port}, **how)


def repeated(clients, seconds, ask):
    """What so many clients are answered, each by a thread of its own, that ask without a pause for so many seconds."""
    until, statuses, lock = time.monotonic() + seconds, collections.Counter(), threading.Lock()

    def go(number):
        while time.monotonic() < until:
            status = ask(number)
            with lock:
                statuses[status] += 1

    with concurrent.futures.ThreadPoolExecutor(clients) as pool:
        for done in [pool.submit(go, number) for number in range(clients)]:
            done.result()
    return statuses


def quick_ones(client, seconds):
    """The statuses and the seconds of a team's posts, one every tenth of a second."""
    found, until = [], time.monotonic() + seconds
    while time.monotonic() < until:
        start = time.monotonic()
        status = client.ask("POST", f"{HERE}/submissions", compact(POSTED))[0]
        found.append((status, time.monotonic() - start))
        time.sleep(0.1)
    return found


def note_served(desk, what, posts):
    """Notes whether a team's posts were all taken, and prints how long they took."""
    statuses, median = collections.Counter(status for status, _ in posts), statistics.median(it for _, it in posts)
    desk.same(f"{what}: what another team's posts are answered", statuses, {200: len(posts)})
    print(f"  {what}: another team's post takes {median * 1000:.0f} ms, the longest {max(it for _, it in posts) * 1000:.0f}")


def try_idle_clients(desk):
    """1,100 connections on which nothing is sent, to one worker: who comes then is answered."""
    nginx = desk.nginx(workers=1)
    idle = [socket.create_connection(("127.0.0.1", nginx.port)) for _ in range(IDLE)]
    time.sleep(0.5)
    try:
        client = socket.create_connection(("127.0.0.1", nginx.plain_port), timeout=3)
        client.sendall(b"GET / HTTP/1.0\r\n\r\n")
        said = read_all(client)
    except OSError as error:
        said = str(error).encode()
    desk.note(said.startswith(b"HTTP/1.1 301"), f"a client beside {IDLE} idle ones: {said}")
    for one in idle:
        one.close()
    nginx.stop()


def try_one_token(desk):
    """150 connections of one token, each of which asks for the longest list again and again."""
    nginx, start = desk.nginx(), time.monotonic()
    with Flood(nginx, f"{HERE}/submissions", 1, FLOODING, "tokens.lua"):
        posts = quick_ones(Client(nginx.port, desk.tokens[2]), desk.options.seconds)
    what = f"beside {FLOODING} connections of one token"
    note_served(desk, what, posts)
    lists = collections.Counter(status for status, method, _ in nginx.answered() if method == "GET" and status == 200)
    note_limited(desk, what, lists, LISTS, time.monotonic() - start)
    nginx.stop()


def refused_of(nginx, requests):
    """How many of these requests, each its first line and its fields, are refused as over a limit while no desk answers any, and
    how many wait until their clients are gone (499)."""
    nginx.statuses()
    clients = []
    for line, fields in requests:
        clients.append(nginx.connected())
        clients[-1].sendall(f"{line} HTTP/1.1\r\nHost: x\r\nConnection: close\r\n{fields}\r\n".encode())
    time.sleep(1.5)
    for client in clients:
        client.close()
    statuses, end = nginx.statuses(), time.monotonic() + PATIENCE
    while statuses.total() < len(requests) and time.monotonic() < end:
        time.sleep(0.05)
        statuses += nginx.statuses()
    return statuses


def try_at_once(desk):
    """Requests that wait for a desk: of a token no more than its limit, of which no page comes near."""
    nginx, mine = desk.nginx(), f"Authorization: Bearer {desk.tokens[0]}\r\n"
    Client(nginx.port, desk.tokens[0]).ask("GET", f"{HERE}/state")
    desk.server.process.send_signal(signal.SIGSTOP)
    posts = [(f"POST {HERE}/clarifications", f"{mine}Content-Length: 4\r\n\r\n{{}}")] * (BODIES_AT_ONCE + 10)
    desk.same("bodies of a token", refused_of(nginx, posts), {429: 10, 499: BODIES_AT_ONCE})
    asked = [(f"GET {HERE}/state", mine)] * (AT_ONCE + 10)
    desk.same("of a token", refused_of(nginx, asked), {429: 10, 499: AT_ONCE})
    desk.server.process.send_signal(signal.SIGCONT)
    nginx.stop()


async def refused_by(nginx, count):
    """What so many requests for what isn't kept for all are answered while no desk answers any, and how many seconds they took."""
    start, clients = time.monotonic(), [Http2(nginx.port) for _ in range(STREAMING)]
    asking = [clients[number % STREAMING].ask("GET", f"{HERE}/teams/{number}") for number in range(count)]
    asking = [asyncio.create_task(one) for one in asking]
    await asyncio.sleep(2)
    statuses, took = collections.Counter(one.result()[0] for one in asking if one.done()), time.monotonic() - start
    for client in clients:
        client.close()
    await asyncio.gather(*asking)
    return statuses, took


def try_others(desk):
    """What isn't kept for all, while no desk answers: so many of an address go on or wait, and the others are refused."""
    with socket.create_server(("127.0.0.1", 0), backlog=4_096) as silent:
        nginx = Nginx(desk.new_folder(), {"demo": silent.getsockname()[1]})
        statuses, took = asyncio.run(refused_by(nginx, OTHERS[1] + OTHERS_WAIT + OVER))
        least = OVER - OTHERS[0] * (took + 1)
        desk.note(least <= statuses[429] <= OVER and set(statuses) <= {429}, f"{dict(statuses)}, wanted {least:.0f} to {OVER}")
        print(f"  what isn't kept for all: {statuses[429]} are refused, {least:.0f} to {OVER} may be")
        nginx.stop()


def note_limited(desk, what, statuses, limit, seconds):
    """Notes whether no more passed than a limit gives in so many seconds. The others wait."""
    rate, more = limit
    passed = sum(count for status, count in statuses.items() if status != 429)
    most = more + rate * (seconds + 1)
    desk.note(passed <= most, f"{what}: {dict(statuses)}, and {most:.0f} may pass")
    print(f"  {what}: {dict(statuses)}")


def flooded(desk, nginx, what, limit, fields):
    """Asks with these fields on 20 connections, while a team that is signed in posts."""
    clients, count = [Client(nginx.port) for _ in range(20)], iter(range(10**9))
    team = Client(nginx.port, desk.tokens[2])
    desk.same("a team that signs in", team.ask("GET", f"{HERE}/state")[0], 200)
    start = time.monotonic()
    with concurrent.futures.ThreadPoolExecutor(1) as pool:
        posts = pool.submit(quick_ones, team, desk.options.seconds)
        ask = lambda number: clients[number].ask("GET", f"{HERE}/scoreboard", **fields(next(count)))[0]
        statuses = repeated(20, desk.options.seconds, ask)
        note_served(desk, what, posts.result())
    note_limited(desk, what, statuses, limit, time.monotonic() - start)


def try_made_up(desk):
    """Tokens that no account has: one of them, and ever new ones; and ever new credentials that are none."""
    for what, limit, fields in (
        ("one made-up token", TOKEN, lambda _: {"Authorization": "Bearer made-up-token"}),
        ("ever new tokens", STRANGERS, lambda number: {"Authorization": f"Bearer made-up-{number}"}),
        ("ever new schemes", PUBLIC, lambda number: {"Authorization": f"Scheme{number} {desk.tokens[3]}"}),
    ):
        nginx = desk.nginx()
        flooded(desk, nginx, what, limit, fields)
        nginx.stop()


def try_public(desk):
    """A flood without a credential, for what isn't kept, while a team that is signed in posts."""
    nginx = desk.nginx()
    team = Client(nginx.port, desk.tokens[2])
    team.ask("GET", f"{HERE}/state")
    nginx.statuses()
    start, words = time.monotonic(), ["wrk", "-t", "2", "-c", "100", "-d", f"{desk.options.seconds}s"]
    with concurrent.futures.ThreadPoolExecutor(1) as pool:
        posts = pool.submit(quick_ones, team, desk.options.seconds)
        ran([*words, f"https://127.0.0.1:{nginx.port}{HERE}/teams/nobody"])
        note_served(desk, "beside a flood of the public", posts.result())
    note_limited(desk, "the public", nginx.statuses(), OTHERS, time.monotonic() - start)
    nginx.stop()


def page_asks(client, path, start):
    """What a page is answered to a path: when it is loaded, and if that is a quick one each few seconds after it. The
    statuses, and how long the longest took."""
    found = []
    for number in range(ROUNDS if path in QUICK else 1):
        time.sleep(max(0, start + number * PAGE_SECONDS - time.monotonic()))
        asked = time.monotonic()
        found.append((client.ask("GET", path)[0], time.monotonic() - asked))
    return [status for status, _ in found], max(took for _, took in found)


def try_pages(desk):
    """30 pages of one account, which all ask at the same moments; and a hall that signs in."""
    nginx, start = desk.nginx(), time.monotonic() + 1
    with concurrent.futures.ThreadPoolExecutor(PAGES * len(PAGE)) as pool:
        clients = [(Client(nginx.port, desk.tokens[0]), path) for path in PAGE for _ in range(PAGES)]
        asked = [one.result() for one in [pool.submit(page_asks, *each, start) for each in clients]]
    statuses = collections.Counter(status for each, _ in asked for status in each)
    desk.same(f"{PAGES} pages of one account", statuses, {200: PAGES * (len(PAGE) + (ROUNDS - 1) * len(QUICK))})
    longest = max(took for _, took in asked)
    print(f"  {PAGES} pages of one account wait for {longest:.1f} s at most")
    nginx.stop()
    nginx = desk.nginx()
    with concurrent.futures.ThreadPoolExecutor(HALL) as pool:
        asked = [pool.submit(Client(nginx.port, token).ask, "GET", path) for path in PAGE for token in desk.tokens]
        statuses = collections.Counter(one.result()[0] for one in asked)
    desk.same(f"a hall of {HALL} teams that sign in", statuses, {200: HALL * len(PAGE)})
    nginx.stop()


PARTS = [try_idle_clients, try_one_token, try_at_once, try_others, try_made_up, try_public, try_pages]

if __name__ == "__main__":
    sys.exit(program.main(__doc__, Hall, PARTS, program="desk", submissions=1_200, seconds=3))
