#!/usr/bin/env -S python3 -B
"""Has a whole hall open its pages at once, behind one address, through nginx and the queue as examples/nginx/ has them.

    desk_hall.py [--program PATH] [--submissions N] [--teams N]

The contest has 500 teams and N submissions (1,000). Pages ask as those of web/ do (lib/hall_pages.py), by HTTP/2, on a
clock that each reply moves, as on a machine that answers 400 requests a second, and 2,000 where nginx keeps most of
what they ask: so what a page waits for is counted in replies. 500 pages of teams, 16 of one judge, three of balloons
and two scoreboards are opened within two seconds of that clock, and all loaded anew once. Nothing is refused by 429 or
503, no reply takes 180 seconds, each page is shown, and none waits for longer than its patience, after which it would
say that the desk is away. So it is of 1,000 pages, N of teams (300), as many of the jury and of balloons as before and
the others scoreboards, which are loaded anew while they wait for their first replies. Then the first hall is loaded
anew while teams post, and meanwhile the desk is killed and started again, twice, and the queue with it: each post is
there once, and all pages are shown again.

Takes nginx, haproxy, openssl, sqlite3 and faketime. Ends with the line `N passed, M failed`; the exit status is 0 if M is 0.
"""

import asyncio
import base64
import json
import signal
import sys

from lib import large_hall, program
from lib.hall_pages import Clock, Hall, Page, moving, opened
from lib.streams import Http2
from lib.import_opinion import compact
from lib.large_hall import TEAMS, token
from lib.nginx import HERE, Client, Nginx, free_port
from lib.program import Program
from lib.queue import Queue
from lib.server import Server

# So many requests a second the machine answers, by the clock of the pages, and so many of which nginx keeps most; and within so
# many seconds all pages are opened.
RATE, KEPT_RATE, OPENED = 400, 2_000, 2
ALL = 1_000
# So many teams post so often while the desk is killed, at these seconds after the pages were loaded. What a post isn't answered
# is sent again after so many seconds.
POSTING, POSTS, KILLS, AGAIN = 40, 3, (4, 9), 2


class Contest(Program):
    """A desk with the contest of a large hall, and the queue and nginx before it."""

    def __init__(self, options, folder):
        super().__init__(options, folder)
        self.place, self.port = large_hall.made(self, options.submissions), free_port()
        self.begin()
        self.queue = Queue(self.new_folder(), self.port)
        self.nginx = Nginx(self.new_folder(), {"demo": self.queue.port})

    def begin(self):
        self.server = Server(self, self.place, port=str(self.port))

    def hall(self, rate=RATE):
        return Hall(self.nginx.port, "demo", Clock(rate))

    def restart(self):
        """Kills the desk and its queue, and starts them."""
        self.server.stop(signal.SIGKILL)
        self.queue.stop()
        self.begin()
        self.queue.start()

    def note_none_refused(self, what, hall):
        """Notes that pages were given what they asked for, and that none of them ran out of patience."""
        self.same(f"{what}: what was answered", set(hall.statuses), {200})
        self.same(f"{what}: how often a page said that the desk is away", hall.away, 0)
        refused = {status: count for status, count in self.nginx.statuses().items() if status not in (200, 499)}
        self.same(f"{what}: what nginx refused", refused, {})
        print(f"  {what}: {hall.statuses.total()} replies, {hall.clock.read():.0f} s of the pages' clock")


def pages_of(hall, teams=TEAMS, scoreboards=2):
    """The pages of a hall. Those of the jury and of balloons are of one account."""
    pages = [Page(hall, "team", token(number), f"h{number}") for number in range(1, teams + 1)]
    pages += [Page(hall, kind, "token-j1") for kind in ["jury"] * 16 + ["balloons"] * 3]
    return pages + [Page(hall, "scoreboard") for _ in range(scoreboards)]


def leave(pages):
    for page in pages:
        page.leave()
        page.public.close()


def shown(pages):
    """How many pages have had their first round."""
    return sum(page.shown.done() for page in pages)


async def open_twice(contest):
    """The pages of the hall are opened, and loaded anew once all are shown."""
    hall = contest.hall()
    pages = pages_of(hall)
    async with moving(hall.clock):
        for what in ("opened", "loaded anew"):
            await opened(hall, pages, OPENED)
            contest.same(f"pages that are shown once all were {what}", shown(pages), len(pages))
            contest.note_none_refused(f"a hall that is {what}", hall)
    leave(pages)


async def open_many(contest):
    """1,000 pages, which are loaded anew while they wait for their first replies."""
    hall = contest.hall(KEPT_RATE)
    pages = pages_of(hall, contest.options.teams, ALL - contest.options.teams - 19)
    async with moving(hall.clock):
        for page in pages:
            page.load()
        await hall.clock.until(hall.clock.read() + OPENED)
        await opened(hall, pages, OPENED)
        contest.same("pages of 1,000 that are shown", shown(pages), ALL)
        contest.note_none_refused("1,000 pages, loaded anew at once", hall)
    leave(pages)


async def post(hall, number):
    """A team's posts, each of which is sent again by its key until the desk has it, as pages do; the ids."""
    client, ids = Http2(hall.port, [("authorization", f"Bearer {token(number)}")]), []
    for one in range(POSTS):
        data = base64.b64encode(f"{number} {one}".encode()).decode()
        body = compact({"problem_id": large_hall.PROBLEM, "language_id": "cpp", "files": [{"data": data}]}).encode()
        status = None
        while status != 200:
            sent = ("POST", f"{HERE}/submissions", body, [("idempotency-key", f"key-{one}")])
            status, reply = await hall.ask(client, *sent)
            await hall.clock.until(hall.clock.read() + AGAIN)
        ids.append(json.loads(reply)["id"])
    client.close()
    return ids


async def kill(contest, hall):
    """Kills the desk and its queue at the chosen seconds after now."""
    begun = hall.clock.read()
    for seconds in KILLS:
        await hall.clock.until(begun + seconds)
        await asyncio.to_thread(contest.restart)


async def restart(contest):
    """The hall is loaded anew, teams post, and the desk is killed meanwhile; the ids that the posts were answered."""
    hall = contest.hall()
    pages = pages_of(hall)
    async with moving(hall.clock):
        posts = [post(hall, one + 1) for one in range(POSTING)]
        given = await asyncio.gather(opened(hall, pages, OPENED), kill(contest, hall), *posts)
        contest.same("pages that are shown after two kills", shown(pages), len(pages))
        for page in pages:
            page.leave()
        print(f"  a hall in which the desk is killed: {dict(hall.statuses)}")
        contest.note(sum(hall.statuses[status] for status in (None, 503)) > 0, "nobody met a desk that was away")
        contest.same("what else pages were answered", set(hall.statuses) - {200, 503, None}, set())
    leave(pages)
    return [which for ids in given[2:] for which in ids]


def try_hall(contest):
    """500 pages of teams, 16 of a judge, three of balloons and two scoreboards behind one address."""
    asyncio.run(open_twice(contest))


def try_thousand(contest):
    """1,000 pages behind one address, of teams and of the public."""
    asyncio.run(open_many(contest))


def try_restarts(contest):
    """A desk that is killed in a full hall: no post is lost, and none is there twice."""
    ids = asyncio.run(restart(contest))
    contest.same("posts that were answered, each by an id of its own", len(set(ids)), POSTING * POSTS)
    rows = json.loads(Client(contest.nginx.port, "token-j1").ask("GET", f"{HERE}/submissions")[2])
    kept = [row["id"] for row in rows]
    contest.same("submissions", len(kept), contest.options.submissions + POSTING * POSTS)
    contest.same("ids that stand twice", len(kept) - len(set(kept)), 0)
    contest.same("posts that are lost", set(ids) - set(kept), set())
    contest.nginx.stop()


if __name__ == "__main__":
    PARTS = (try_hall, try_thousand, try_restarts)
    sys.exit(program.main(__doc__, Contest, PARTS, program="desk", submissions=1_000, teams=300))
