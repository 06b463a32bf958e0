"""The pages of a hall, which ask a desk as those of web/ do, by HTTP/2 and in the order of their scripts, on a clock that a
test moves."""

import asyncio
import collections
import contextlib
import heapq
import random

from .streams import Http2
from .timetable import path_of, timetable

# So many seconds of its clock a page waits for a reply (web/shared/desk.js), and then asks again after as many, or twice as many.
PATIENCE, AGAIN = 75, 5
# So many seconds a client here waits at most, by the machine's clock: then something is broken.
LONGEST = 180
SETTINGS = [f"/{name}" for name in ("problems", "languages", "teams", "groups", "judgement-types")]
# What each page asks for when it is loaded, a line after the other, what stands in one at once: before its first round of all
# beats, and after it. The contest is asked for as the public does.
BEFORE = {
    "team": [["/account"], ["/teams/{team}", "/state"]],
    "jury": [["/account", "/state"]],
    "balloons": [["/account"]],
    "scoreboard": [],
}
AFTER = {"team": [SETTINGS], "jury": [SETTINGS], "balloons": [], "scoreboard": []}
# Beats that are quicker than that are spread by a tenth (web/shared/polling.js).
HASTE = 10


class Clock:
    """The clock of all pages. Each reply moves it, as on a machine that answers so many requests in a second; and while nobody
    waits for one it goes to the next moment that a page waits for. So it says how many were answered before one, on any
    machine."""

    def __init__(self, in_a_second, longest=LONGEST):
        self.now, self.step, self.longest = 0.0, 1 / in_a_second, longest
        self.waiting, self.count, self.asked = [], 0, 0

    def read(self):
        return self.now

    def move(self, seconds):
        self.now += seconds
        while self.waiting and self.waiting[0][0] <= self.now:
            _, _, reached = heapq.heappop(self.waiting)
            reached.done() or reached.set_result(None)

    async def until(self, moment):
        if moment > self.now:
            self.count += 1
            reached = asyncio.get_running_loop().create_future()
            heapq.heappush(self.waiting, (moment, self.count, reached))
            await reached

    async def reply(self, asking):
        """A reply, which moves the clock."""
        self.asked += 1
        try:
            async with asyncio.timeout(self.longest):
                return await asking
        finally:
            self.asked -= 1
            self.move(self.step)

    async def keep_moving(self):
        """Moves it while nobody waits for a reply."""
        while True:
            await asyncio.sleep(0.002)
            if self.asked == 0 and self.waiting:
                self.move(max(0.0, self.waiting[0][0] - self.now))


class RealClock(Clock):
    """The machine's own clock, which nobody moves, and by which a client waits so many seconds at most."""

    def __init__(self, longest):
        super().__init__(1, longest)

    def read(self):
        return asyncio.get_running_loop().time()

    async def until(self, moment):
        await asyncio.sleep(max(0, moment - self.read()))

    def move(self, _):
        pass

    async def keep_moving(self):
        pass


class Hall:
    """What pages of a contest behind a port of nginx are answered, by status, and how often one of them said that the desk is
    away."""

    def __init__(self, port, contest, clock, patience=PATIENCE, seed=1):
        self.port, self.contest, self.clock, self.patience = port, contest, clock, patience
        self.statuses, self.away, self.chance = collections.Counter(), 0, random.Random(seed)

    async def ask(self, client, method, path, body=None, fields=()):
        """What a page is answered; nothing if it gave up by its clock."""
        begun = self.clock.read()
        try:
            status, reply = await self.clock.reply(client.ask(method, path, body, fields))
        except (OSError, TimeoutError):
            status, reply = None, b""
        self.statuses[status] += 1
        return (status, reply) if self.clock.read() - begun <= self.patience else (None, b"")


class Page:
    """A page of a kind, of an account's token or of nobody's. Several may share a connection."""

    def __init__(self, hall, kind, token=None, team=None, client=None):
        self.hall, self.kind, self.team, self.task, self.shown = hall, kind, team, None, None
        fields = [("accept-encoding", "gzip")]
        self.public = client or Http2(hall.port, fields)
        self.own = [] if token is None else [("authorization", f"Bearer {token}")]
        self.beats = [{"sooner": beat["seconds"], **beat} for beat in timetable()[kind]]

    def load(self):
        """Loads it, or loads it anew: what it waits for is given up."""
        self.leave()
        self.shown = asyncio.get_running_loop().create_future()
        self.task = asyncio.create_task(self.live())

    def leave(self):
        if self.task is not None:
            self.task.cancel()

    async def asked(self, path, fields):
        where = path_of(self.hall.contest, path.format(team=self.team))
        return (await self.hall.ask(self.public, "GET", f"/{self.hall.contest}{where}", None, fields))[0] == 200

    async def all_of(self, paths, fields):
        """Whether all of these came, which are asked for at once."""
        return all(await asyncio.gather(*(self.asked(path, fields) for path in paths)))

    async def persistently(self, paths, fields):
        """Asks until all of these came. What doesn't come tells the page that the desk is away."""
        while not await self.all_of(paths, fields):
            self.hall.away += 1
            await self.hall.clock.until(self.hall.clock.read() + AGAIN * (1 + self.hall.chance.random()))

    async def live(self):
        clock, chance = self.hall.clock, self.hall.chance
        await self.persistently(["contests"], [])
        for paths in BEFORE[self.kind] + [[path for beat in self.beats for path in beat["paths"]]] + AFTER[self.kind]:
            await self.persistently(paths, self.own)
        self.shown.set_result(clock.read())
        due = [clock.read() + beat["seconds"] for beat in self.beats]
        while True:
            await clock.until(min(due))
            now = [place for place, moment in enumerate(due) if moment <= clock.read()]
            for place in now:
                seconds = self.beats[place]["seconds"]
                due[place] = clock.read() + seconds * (chance.uniform(0.9, 1.1) if seconds < HASTE else 1)
            await self.persistently([path for place in now for path in self.beats[place]["paths"]], self.own)


async def opened(hall, pages, seconds):
    """Has pages loaded within so many seconds, and waits until each is shown; when the last was."""
    begun = hall.clock.read()
    for place, page in enumerate(pages):
        await hall.clock.until(begun + seconds * place / len(pages))
        page.load()
    await asyncio.gather(*(page.shown for page in pages))
    return hall.clock.read() - begun


@contextlib.asynccontextmanager
async def moving(clock):
    """A clock that moves by itself while nobody waits for a reply."""
    task = asyncio.create_task(clock.keep_moving())
    try:
        yield
    finally:
        task.cancel()
