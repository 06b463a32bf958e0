#!/usr/bin/env -S python3 -B
"""Asks `desk serve` through nginx and the queue, as examples/nginx/ has them, for what costs it most, in a contest of a large
hall.

    desk_nginx_costs.py [--program PATH] [--submissions N]

The contest has 500 teams and N submissions (10,000), each with a verdict. One token asks without a pause on 30
connections, and eight tokens on 30 each: for the event feed, and for each long list and the scoreboard, as they are and
compressed. Another team's posts are all taken meanwhile; how long they take is printed beside a run without a flood,
and isn't judged. Pages go on beside the worst of these: the ceremony gets its feed, and the page of the balloons its
lists. The limits of a token's event feeds and long lists are those that desk.conf names. Who reads a feed slowly keeps it
from nobody.

Takes nginx, haproxy, openssl, wrk, sqlite3 and faketime. Ends with the line `N passed, M failed`; the exit status is 0 if M is 0.
"""

import collections
import concurrent.futures
import signal
import sys
import time

from lib import large_hall, program
from lib.floods import Flood, note_taken, posts_of
from lib.large_hall import token
from lib.nginx import HERE, Client, Nginx
from lib.program import PATIENCE, Program
from lib.queue import Queue
from lib.server import Server
from lib.timetable import timetable

# The teams from this number on post, each beside one flood: a team may send 500.
FEED, POSTING = f"{HERE}/event-feed", 100
# How many tokens ask for what, and whether it is pressed.
FLOODS = [
    (1, "event-feed", False),
    (8, "event-feed", False),
    (8, "event-feed", True),
    (8, "judgements", False),
    (8, "judgements", True),
    (8, "submissions", True),
    (8, "scoreboard", True),
]
CONNECTIONS = 30
# The limits of a token's event feed: so many at once, then each after so many seconds; and of its long lists: so many at once,
# then so many in a second.
AT_ONCE, WAIT, LISTS_AT_ONCE, LISTS_IN_A_SECOND = 3, 6, 80, 4
SLOW = 12
LISTS = timetable()["balloons"][1]["paths"]


class Hall(Program):
    """A desk with the contest of a large hall."""

    def __init__(self, options, folder):
        super().__init__(options, folder)
        self.server = Server(self, large_hall.made(self, options.submissions))
        self.queue = Queue(self.new_folder(), self.server.port)

    def posts(self, nginx, place):
        """The posts of the team at a place."""
        return posts_of(nginx, token(POSTING + place), problem=large_hall.PROBLEM)

    def nginx(self):
        return Nginx(self.new_folder(), {"demo": self.queue.port})


def try_floods(hall):
    """Tokens that ask for what costs much, while another team posts."""
    nginx = hall.nginx()
    alone = hall.posts(nginx, 0)
    note_taken(hall, "beside nothing", alone)
    nginx.stop()
    for place, (tokens, what, is_pressed) in enumerate(FLOODS, 1):
        nginx = hall.nginx()
        name = f"beside {tokens} at /{what}{', pressed' if is_pressed else ''}"
        with Flood(nginx, f"{HERE}/{what}", tokens, tokens * CONNECTIONS, "tokens.lua", is_pressed):
            note_taken(hall, name, hall.posts(nginx, place), alone)
        print(f"    it was answered {dict(nginx.statuses())}")
        nginx.stop()


def asked_until_there(client, path):
    """What a page gets that asks again after two seconds while it is told to; and how often it was."""
    for tried in range(10):
        status, _, body = client.ask("GET", path)
        if status == 200:
            return body, tried
        time.sleep(2)
    return b"", tried


def try_pages(hall):
    """What the pages of the jury get beside eight tokens at the event feed: the ceremony its feed, the balloons their lists."""
    nginx = hall.nginx()
    watch = Client(nginx.port, "token-watch")
    with Flood(nginx, FEED, 8, 8 * CONNECTIONS, "tokens.lua"):
        feed, tried = asked_until_there(watch, FEED)
        hall.note(feed.endswith(b"}\n") and tried <= 2, f"the ceremony's feed: {len(feed)} bytes, {tried} times too many")
        for _ in range(3):
            hall.same("the lists of the balloons", {watch.ask("GET", f"{HERE}{path}")[0] for path in LISTS}, {200})
        hall.same("their board", {watch.ask("GET", f"{HERE}{path}")[0] for path in ("", "/scoreboard")}, {200})
    nginx.stop()


def feeds(client, count):
    """The statuses of feeds that a client asks for one after the other, and how long all of them took."""
    start = time.monotonic()
    return [client.ask("GET", FEED)[0] for _ in range(count)], time.monotonic() - start


def try_limits(hall):
    """The limit of a token's event feeds: as many as go on at once, and two more, one of them by the usual path, each of which
    waits for its turn."""
    nginx = hall.nginx()
    client = Client(nginx.port, token(1))
    hall.same("feeds of a token", feeds(client, AT_ONCE)[0], [200] * AT_ONCE)
    statuses, took = feeds(client, 1)
    hall.note(statuses == [200] and took > WAIT / 2, f"one more: {statuses} in {took:.1f} s")
    start = time.monotonic()
    status = client.ask("HEAD", "/contests/demo/event-feed")[0]
    took = time.monotonic() - start
    hall.note(status == 200 and took > WAIT / 2, f"one more by the usual path: {status} in {took:.1f} s")
    hall.same("feeds of another token", feeds(Client(nginx.port, token(2)), AT_ONCE)[0], [200] * AT_ONCE)
    nginx.stop()


def try_lists(hall):
    """The limit of a token's long lists."""
    nginx, start = hall.nginx(), time.monotonic()
    with Flood(nginx, f"{HERE}/judgements", 1, CONNECTIONS, "tokens.lua"):
        time.sleep(1.5)
    count, took = nginx.statuses()[200], time.monotonic() - start
    most = LISTS_AT_ONCE + LISTS_IN_A_SECOND * (took + 1)
    hall.note(0 < count <= most, f"a token had {count} lists in {took:.1f} s, and {most:.0f} may come")
    print(f"  a token had {count} lists in {took:.1f} s")
    nginx.stop()


def try_at_once(hall):
    """Feeds of a token that wait for a desk: three, beside which one more is refused once it is its turn."""
    nginx, clients = hall.nginx(), []
    for _ in range(AT_ONCE + 1):
        clients.append(Client(nginx.port, token(30)))
        clients[-1].ask("GET", f"{HERE}/state")
    nginx.statuses()
    hall.server.process.send_signal(signal.SIGSTOP)
    with concurrent.futures.ThreadPoolExecutor(AT_ONCE + 1) as pool:
        asked = [pool.submit(client.ask, "GET", FEED) for client in clients]
        concurrent.futures.wait(asked, PATIENCE, concurrent.futures.FIRST_COMPLETED)
        hall.server.process.send_signal(signal.SIGCONT)
        statuses = collections.Counter(one.result()[0] for one in asked)
    hall.same("feeds of a token at one time", statuses, {200: AT_ONCE, 429: 1})
    nginx.stop()


def slow_reader(nginx, who):
    """A client that asks for the event feed, and reads none of it."""
    client = nginx.connected()
    client.sendall(f"GET {FEED} HTTP/1.1\r\nHost: x\r\nAuthorization: Bearer {who}\r\n\r\n".encode())
    return client


def try_slow_readers(hall):
    """Feeds that are read slowly hold none of another token, nor another of the same."""
    nginx = hall.nginx()
    slow = [slow_reader(nginx, token(number)) for number in range(1, SLOW)]
    time.sleep(1)
    for who in (token(1), token(SLOW)):
        hall.same(f"a feed of {who} beside slow readers", Client(nginx.port, who).ask("GET", FEED)[0], 200)
    for client in slow:
        client.close()
    nginx.stop()


if __name__ == "__main__":
    PARTS = (try_floods, try_pages, try_limits, try_lists, try_at_once, try_slow_readers)
    sys.exit(program.main(__doc__, Hall, PARTS, program="desk", submissions=10_000))
