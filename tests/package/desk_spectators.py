#!/usr/bin/env -S python3 -B
"""Has spectators load the public board of `desk serve` through nginx, and through a machine for spectators before it.

    desk_spectators.py [--program PATH] [--clients N] [--seconds N]

N clients (100) of wrk ask for the board without a pause for N seconds (6), compressed as browsers do: first nginx as
examples/nginx/ has it, then nginx of a machine for spectators (front.conf) before it. Meanwhile teams post in the
frozen hour, a judge accepts what they sent, and the jury and a team ask for their boards. The desk sees no more
requests of the public than the time lets it for which a reply is kept. Each body that came is one that the desk itself
gave the public, with no verdict of the freeze, and is soon another once the board is. Who has a token is answered by
the desk each time. What a machine for spectators doesn't hand on never comes to the desk: credentials, posts, other
paths, a path with a line's end. While the desk is away it shows the last board. A browser that loads the page of the
scoreboard from there gets each file that the page loads, and shows the board.

Takes nginx, haproxy, openssl, wrk, chromium, chromium-driver and faketime. Ends with the line `N passed, M failed`; the exit
status is 0 if M is 0.
"""

import gzip
import json
import os
import re
import subprocess
import sys
import time

from lib import demo, program
from lib.browsers import BACKS
from lib.import_opinion import compact
from lib.nginx import HERE, POSTED, Client, Front, Nginx, without_lookups
from lib.program import PATIENCE, ROOT, TESTS, Program
from lib.queue import Queue
from lib.relay import Relay
from lib.server import Server

CONTEST, NAME = "/contests/demo", "contest.example"
FREEZE = "2024-03-02 13:10:00"
# A reply is kept for a second, which may be nearly two; a busy machine may be so many seconds late.
KEPT, LATE = 2, 2
STEP = 0.2
# Paths that end in what would end a line of a request, or that have something behind it.
OURS = (f"{HERE}/scoreboard", "/demo/scoreboard.html", "/demo/", HERE)
ENDED = [f"{path}{end}" for path in OURS for end in ("%0a", "%0aX", "%0d%0a")]
# What a page has loaded, but for what the desk answers: each with its status.
LOADED = """return performance.getEntriesByType("resource").filter(({ name }) => /\\.(js|css)$/.test(name))
  .map(({ name, responseStatus }) => [new URL(name).pathname, responseStatus]);"""
# So many teams that nginx compresses their board.
FILES = {**demo.FILES, "teams-csv": demo.FILES["teams-csv"] + "".join(f"h{number},Team {number},,\n" for number in range(20))}


class Contest:
    """The demo contest in its frozen hour, at a desk behind a relay, the queue and nginx, with all boards that the public may see."""

    def __init__(self, desk):
        self.server = Server(desk, demo.made(desk, FILES))
        self.relay = Relay(self.server.port)
        queue = Queue(desk.new_folder(), self.relay.port)
        self.nginx = Nginx(desk.new_folder(), {"demo": queue.port}, is_limited=False, name=NAME)
        self.direct = {who: Client(self.server.port, who, is_plain=True) for who in (None, "token-a1", "token-a2", "token-j1")}
        self.send("token-a1")
        self.server.at(FREEZE)
        self.boards = [(time.monotonic(), self.board(None))]

    def board(self, who):
        """Somebody's board, by the desk itself."""
        return self.direct[who].ask("GET", f"{CONTEST}/scoreboard")[2]

    def send(self, team):
        """A team's submission; its id."""
        return json.loads(self.direct[team].ask("POST", f"{CONTEST}/submissions", compact(POSTED))[2])["id"]

    def accept(self, submission):
        body = compact({"submission_id": submission, "judgement_type_id": "AC"})
        return self.direct["token-j1"].ask("POST", "/jury/proposals", body)[0]

    def taken(self):
        """What the desk was asked since this was called last, with a credential and without, but for what nginx asks for itself."""
        sent = without_lookups(self.relay.take())
        known = [one for one in sent if b"authorization:" in one.lower()]
        return known, [one for one in sent if one not in known]

    def late(self, board, asked):
        """For how many seconds the desk had had another board when this one was asked for."""
        later = [moment for moment, other in self.boards if other != board]
        first = next(moment for moment, other in self.boards if other == board)
        return max([asked - moment for moment in later if moment > first], default=0)

    def stop(self):
        self.nginx.stop()
        self.server.stop()
        self.relay.close()


def spectators(desk, port, folder):
    """Clients that ask a port for the board, and keep each different body in a folder."""
    words = ["wrk", "-t", "2", "-c", str(desk.options.clients), "-d", f"{desk.options.seconds}s"]
    words += ["--timeout", f"{PATIENCE}s", "-s", TESTS / "lib/bodies.lua", "-H", "Accept-Encoding: gzip"]
    words.append(f"https://127.0.0.1:{port}{HERE}/scoreboard")
    return subprocess.Popen(words, env={**os.environ, "BODIES": str(folder)}, stdout=subprocess.PIPE)


def step(desk, contest, number):
    """A submission that shows on the board, or a verdict on it that doesn't. Callers are answered by the desk; how many asked it."""
    if number % 2 == 0:
        contest.last = contest.send(f"token-a{1 + number // 2 % 2}")
        contest.boards.append((time.monotonic(), contest.board(None)))
    else:
        desk.same("a verdict", contest.accept(contest.last), 200)
        desk.same("the public's board after a verdict", contest.board(None), contest.boards[-1][1])
    asked = 0
    for who in ("token-j1", "token-a1"):
        for _ in range(2):
            given, asked = Client(contest.nginx.port, who).ask("GET", f"{HERE}/scoreboard"), asked + 1
            desk.same(f"the board of {who}", given[2], contest.board(who))
    return asked


def watch(desk, contest, port, kept):
    """Spectators at a port, whose board may be so many seconds old."""
    folder, public = desk.new_folder(), Client(port)
    contest.taken()
    process, number, asked, late = spectators(desk, port, folder), 0, 0, 0
    while process.poll() is None:
        asked, number = asked + step(desk, contest, number), number + 1
        begun = time.monotonic()
        board = public.ask("GET", f"{HERE}/scoreboard")[2]
        late = max(late, contest.late(board, begun))
        time.sleep(STEP)
    out = process.stdout.read().decode()
    desk.note("Non-2xx" not in out and "Socket errors" not in out, f"spectators: {out}")
    known, unknown = contest.taken()
    desk.same("requests with a token that the desk saw", len(known), asked)
    most = desk.options.seconds + 2
    desk.note(1 < len(unknown) <= most, f"the desk saw {len(unknown)} requests of the public, of {most} at most")
    look_at(desk, contest, {gzip.decompress(file.read_bytes()) for file in folder.iterdir()})
    desk.note(late < kept + LATE, f"a board was shown {late:.1f} s after there was another")
    count = int(re.search(r"(\d+) requests in", out)[1])
    print(f"  {count} boards for {desk.options.clients} spectators, of which the desk made {len(unknown)}; {late:.1f} s late at most")


def look_at(desk, contest, bodies):
    """Each board that spectators were shown: the desk gave it to the public, and it shows no verdict of the freeze."""
    given = {board for _, board in contest.boards}
    desk.note(len(bodies) > 1, f"spectators were shown {len(bodies)} different boards")
    for body in bodies:
        desk.note(body in given, f"a board that the desk never gave the public: {body}")
        cells = [cell for row in json.loads(body)["rows"] for cell in row["problems"]]
        desk.note(not any(cell["solved"] for cell in cells), f"a board with a verdict of the freeze: {body}")
    jury = json.loads(contest.board("token-j1"))
    desk.note(any(cell["solved"] for row in jury["rows"] for cell in row["problems"]), f"nothing was held back: {jury}")


def try_contest_machine(desk):
    """Spectators at the contest's own machine."""
    contest = Contest(desk)
    watch(desk, contest, contest.nginx.port, KEPT)
    contest.stop()


def try_front_machine(desk):
    """Spectators at a machine before it, and what that hands on."""
    contest = Contest(desk)
    front = Front(desk.new_folder(), contest.nginx, NAME, is_limited=False)
    watch(desk, contest, front.port, 2 * KEPT)
    contest.taken()
    for token in ("token-j1", "token-nobody"):
        for path in (f"{HERE}/scoreboard", f"{HERE}/account", "/demo/scoreboard.html"):
            desk.note(Client(front.port, token).ask("GET", path)[0] in (403, 404), f"{path} with {token}")
    desk.same("a credential of another form", Client(front.port).ask("GET", f"{HERE}/scoreboard", Authorization="x")[0], 403)
    for path in (f"{HERE}/submissions", f"{HERE}/scoreboard", "/demo/jury/proposals"):
        desk.note(Client(front.port).ask("POST", path, compact(POSTED))[0] in (403, 404), f"a post to {path}")
    pages = ("/demo/team.html", "/demo/team/team.js", "/demo/judges/jury.js", "/demo/README.md")
    others = ("/demo/jury/proposals", "/demo/contests/other/scoreboard", "/contests/demo", *pages)
    for path in (f"{HERE}/clarifications", f"{HERE}/event-feed", *others, *ENDED):
        desk.same(path, Client(front.port).ask("GET", path)[0], 404)
    desk.same("what came to the desk of these", contest.taken(), ([], []))
    page = Client(front.port).ask("GET", "/demo/scoreboard.html")
    desk.same("the page", (page[0], page[2]), (200, (ROOT / "web/scoreboard.html").read_bytes()))
    last = Client(front.port).ask("GET", f"{HERE}/scoreboard")[2]
    contest.stop()
    time.sleep(KEPT + 0.1)
    desk.same("the board while the desk is away", Client(front.port).ask("GET", f"{HERE}/scoreboard")[2], last)
    front.stop()


def files_of(page):
    """The files of web/ that a page loads, by their paths there: its styles and scripts, and all that these import."""
    found, left = set(), re.findall(r'(?:href|src)="([^"]+)"', (ROOT / "web" / page).read_text(encoding="utf-8"))
    while left:
        file = left.pop()
        if file not in found:
            found.add(file)
            named = re.findall(r'^(?:import|\}).* from "([^"]+)";$', (ROOT / "web" / file).read_text(encoding="utf-8"), re.M)
            left += [os.path.normpath(f"{os.path.dirname(file)}/{name}") for name in named]
    return found


def try_front_page(desk):
    """The page of the scoreboard from a machine before the contest's, in a browser: each file that it loads comes."""
    contest = Contest(desk)
    front = Front(desk.new_folder(), contest.nginx, NAME, is_limited=False)
    browser = BACKS["chromium"](desk.new_folder(), front)
    browser.look_at("spectator", f"https://127.0.0.1:{front.port}/demo/scoreboard.html")
    desk.note(browser.shows("#board", "Team 19"), f"the board shows {browser.text('#board')!r}")
    wanted = {f"/demo/{file}": 200 for file in files_of("scoreboard.html")}
    desk.note(len(wanted) > 10, f"the page loads {sorted(wanted)}")
    desk.same("what the page has loaded", dict(browser.run(LOADED)), wanted)
    browser.end()
    front.stop()
    contest.stop()


PARTS = [try_contest_machine, try_front_machine, try_front_page]

if __name__ == "__main__":
    sys.exit(program.main(__doc__, Program, PARTS, program="desk", clients=100, seconds=6))
