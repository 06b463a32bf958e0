#!/usr/bin/env -S python3 -B
"""Has examples/judge/judge.py judge contests of `desk serve`, through nginx and the queue as examples/nginx/ has them.

    desk_judges.py [--program PATH] [--submissions N]

The command judges by the word that a program holds (lib/bridge.py): it names a type, fails, fails at first, takes too long,
prints without end or what is no type. N submissions (36) are judged by one bridge that proposes and one that verifies,
while both and the desk are killed and started again, and by two that propose beside a verifier and beside a judge: in the
end each has one verdict, the right one, and what the command can't say has none. Files are fetched as often as is said. A
bridge runs so many at once, and takes the oldest of the team that had the fewest turns of late: slow programs of one team
hold up another's by one of them. It gives the command its words and no token, and tells once what it leaves. It goes on
with a proposal that is mended, and beside a desk that goes on from an older copy. A made-up desk asks for patience by 429
and 503, and breaks off.

Takes nginx, haproxy, openssl and faketime. Ends with the line `N passed, M failed`; the exit status is 0 if M is 0.
"""

import base64
import collections
import http.server
import json
import signal
import sys
import threading
import time

from lib import demo, program, sqlite
from lib.bridge import LEFT, Bridge, Calls
from lib.import_opinion import compact
from lib.nginx import Client, Nginx, free_port
from lib.program import PATIENCE, Program
from lib.queue import Queue
from lib.server import Server

TWICE = demo.STARTED.replace('"duration"', '"verification":true,"duration"')
ACCOUNTS = demo.FILES["accounts-csv"] + "j3,judge,,token-j3\nwatch,analyst,,token-watch\n"
WORDS = ["AC", "WA", "CE", "LATER", *LEFT]
JOBS = 3


class Place:
    """A contest that is served behind nginx, the command, and what was submitted."""

    def __init__(self, desk, contest):
        self.desk, self.port = desk, free_port()
        self.folder = demo.made(desk, {**demo.FILES, "init": contest, "accounts-csv": ACCOUNTS})
        self.begin()
        self.queue = Queue(desk.new_folder(), self.port)
        self.nginx = Nginx(desk.new_folder(), {"demo": self.queue.port}, name="localhost")
        self.calls, self.words = Calls(desk.new_folder()), {}
        self.address = f"https://localhost:{self.nginx.port}/demo"

    def begin(self):
        self.server = Server(self.desk, self.folder, port=str(self.port))

    def restart(self, number):
        """The desk is away for a moment, and its queue with it."""
        self.server.stop(number)
        self.queue.stop()
        time.sleep(0.3)
        self.begin()
        self.queue.start()

    def client(self, who):
        return Client(self.server.port, f"token-{who}", is_plain=True)

    def submit(self, word, team=1, minute=5, **more):
        """A team submits a word, straight to the desk."""
        self.server.at(f"2024-03-02 09:{minute:02}:00")
        data = base64.b64encode(f"{word} {len(self.words)}\n".encode()).decode()
        body = compact({"problem_id": "a", "language_id": "cpp", "files": [{"data": data}], **more}).encode()
        status, _, reply = self.client(f"a{team}").ask("POST", "/contests/demo/submissions", body)
        self.desk.same("a submission", status, 200)
        which = json.loads(reply)["id"]
        self.words[which] = word
        return which

    def bridge(self, *options, **how):
        trust = self.nginx.folder / "desk/certificate.pem"
        return Bridge(self.calls.folder, self.address, self.calls.path, "--trust", trust, *options, **how)

    def judge(self, who, path, which, verdict):
        body = compact({"submission_id": which, "judgement_type_id": verdict})
        return self.client(who).ask("POST", f"/jury/{path}", body)[0]

    def verdicts(self):
        """What is released, asked of the desk."""
        served = json.loads(self.client("j1").ask("GET", "/contests/demo/judgements")[2])
        return {one["submission_id"]: one["judgement_type_id"] for one in served}

    def wanted(self):
        """What has to be released in the end."""
        return {which: "AC" if word == "LATER" else word for which, word in self.words.items() if word not in LEFT}

    def left(self):
        return sorted(which for which, word in self.words.items() if word in LEFT)

    def comes(self, what, is_there, seconds=300):
        """Waits until something holds."""
        end = time.monotonic() + seconds
        while not is_there() and time.monotonic() < end:
            time.sleep(0.1)
        self.desk.note(is_there(), f"{what} doesn't come: {self.verdicts()} of {self.words}")

    def fetched(self):
        """How often the file of each submission was had through nginx, since this was asked last."""
        paths = [path for status, method, path in self.nginx.answered() if status == 200 and path.endswith("/files")]
        return collections.Counter(path.split("/")[-2] for path in paths)

    def stop(self, bridges):
        """Ends it all, and looks into the tables: one release for each verdict, and nothing of what is left."""
        for bridge in bridges:
            self.desk.same("the status of a bridge that is ended", bridge.stop(), 0)
        wanted, proposed = self.wanted(), json.loads(self.client("j1").ask("GET", "/jury/proposals")[2])
        self.desk.same("the verdicts", self.verdicts(), wanted)
        self.desk.same("proposals that wait", proposed, [])
        self.nginx.stop()
        self.server.stop()
        with sqlite.opened(self.folder / "cup.db") as database:
            counts = database.execute("SELECT count(*), max(n) FROM releases").fetchone()
        self.desk.same("releases, and the most of one submission", counts, (len(wanted), 1 if wanted else None))


def left_by(lines):
    """The submissions that lines of a bridge leave for people, in order."""
    return sorted(line.split(" ")[1] for line in lines if " is left for people: " in line)


def try_kills(desk):
    """One proposes and one verifies, while they and the desk are killed: each submission has one verdict in the end."""
    place = Place(desk, TWICE)
    count = desk.options.submissions
    for number in range(count // 2):
        place.submit(WORDS[number % len(WORDS)], team=1 + number % 3)
    proposing, verifying = ("--jobs", str(JOBS)), ("--jobs", str(JOBS), "--verify")
    first, second = place.bridge(*proposing), place.bridge(*verifying, token="token-j2")
    lives = 2
    for number in range(count // 2, count):
        place.submit(WORDS[number % len(WORDS)], team=1 + number % 3)
        if number % 6 == 0:
            place.restart((signal.SIGKILL, signal.SIGTERM)[number // 6 % 2])
        elif number % 6 == 2:
            first.stop((signal.SIGKILL, signal.SIGTERM)[number // 6 % 2])
            first, lives = place.bridge(*proposing), lives + 1
        elif number % 6 == 4:
            second.stop((signal.SIGKILL, signal.SIGTERM)[number // 6 % 2])
            second, lives = place.bridge(*verifying, token="token-j2"), lives + 1
        time.sleep(0.5)
    place.comes("a call for each", lambda: place.words.keys() == {line[1] for line in place.calls.lines()})
    time.sleep(0.5)
    # What the command said nothing of at first is tried by the next who starts.
    first.stop(signal.SIGKILL)
    first, lives = place.bridge(*proposing), lives + 1
    place.comes("the last verdict", lambda: place.verdicts() == place.wanted())
    place.comes("the last that is left", lambda: left_by(first.told()) == place.left())
    fetched = place.fetched()
    # Whoever starts fetches again what it was killed over, and what is left.
    later = sum(word in (*LEFT, "LATER") for word in place.words.values())
    most = 2 * count + (lives - 2) * (JOBS + later)
    desk.note(fetched.total() <= most, f"{fetched.total()} files were fetched, and {most} at most are needed")
    desk.note(max(fetched.values()) <= lives, f"a file was fetched {max(fetched.values())} times by {lives} bridges")
    away = [line for bridge in (first, second) for line in bridge.told() if "Traceback" in line]
    desk.same("what went wrong in a bridge", away, [])
    print(f"  {count} submissions, {lives} bridges, {fetched.total()} files fetched", flush=True)
    place.stop([first, second])


def try_two_that_propose(desk):
    """Two bridges propose, beside a verifier, and beside a judge where nobody verifies: no refusal is an error."""
    for contest, more in ((TWICE, [("--verify", "token-j2")]), (demo.STARTED, [])):
        place = Place(desk, contest)
        for number in range(12):
            place.submit(WORDS[number % 3], team=1 + number % 3, minute=5 + number)
        bridges = [place.bridge("--jobs", "2", token=token) for token in ("token-j1", "token-j3")]
        bridges += [place.bridge(option, "--jobs", "2", token=token) for option, token in more]
        by_hand = [which for which, word in place.words.items() if word == "AC"][-2:]
        for which in by_hand if not more else []:
            desk.same(f"a judge's verdict on {which}", place.judge("adm", "proposals", which, "AC"), 200)
        place.comes("the last verdict", lambda: place.verdicts() == place.wanted())
        time.sleep(0.5)
        for bridge in bridges:
            desk.same("what a bridge tells", bridge.told(), [])
        fetched = place.fetched()
        desk.note(max(fetched.values()) <= len(bridges), f"{len(bridges)} bridges fetched files so often: {fetched}")
        place.stop(bridges)


def most_at_once(calls):
    """The most calls that ran side by side."""
    moments = sorted([(line[2], 1) for line in calls.lines()] + [(line[2], -1) for line in calls.lines("ends")])
    running, most = 0, 0
    for _, change in moments:
        running += change
        most = max(most, running)
    return most


# The turns of the submissions of `try_command`: first one of each team, then the next of each.
TURNS = [0, 1, 2, 6, 3, 4, 5, 7, 8, 9]


def try_command(desk):
    """The command has the oldest first of the team that had the fewest, so many at once, each submission's words, and no
    token."""
    for jobs in (1, 4):
        place = Place(desk, demo.STARTED)
        order = [place.submit("AC", team=team, minute=minute) for minute, team in enumerate([3, 1, 2, 1, 3, 2, 9, 1], 5)]
        order.append(place.submit("WA", team=2, minute=30, language_id="java", entry_point="-x 'é\" $(id)"))
        order.append(place.submit("ENVIRONMENT", team=2, minute=31))
        place.words[order[-1]] = "AC"
        turns = [order[at] for at in TURNS]
        bridge = place.bridge("--jobs", str(jobs), in_file=jobs == 1)
        place.comes("the last verdict", lambda: place.verdicts() == place.wanted())
        began = [line[1] for line in place.calls.lines()]
        desk.same(f"the first calls, by {jobs}", sorted(began[:jobs]), sorted(turns[:jobs]))
        desk.same(f"the calls, by {jobs}", began if jobs == 1 else sorted(began), turns if jobs == 1 else sorted(turns))
        desk.same(f"the most at once, by {jobs}", most_at_once(place.calls), jobs)
        words = {line[1]: " ".join(line[3:]) for line in place.calls.lines()}
        desk.same("the words of a submission", words[order[0]], "a cpp <> 0")
        desk.same("the words of one with an entry point", words[order[8]], "a java <-x 'é\" $(id)> 8")
        for name in ("environment", "environment-of-bridge"):
            seen = (place.calls.folder / name).read_text(encoding="utf-8")
            desk.note("PATH=" in seen and "token-j1" not in seen, f"the command sees the token in the {name}: {seen}")
        listed = (place.calls.folder / "words").read_text(encoding="utf-8")
        desk.note("judge.py" in listed and " token-j1" not in listed, f"the words of the bridge: {listed}")
        desk.same("files that were fetched", place.fetched(), collections.Counter(order))
        place.stop([bridge])


def try_slow_team(desk):
    """Slow programs of one team hold up another team's right one by the one that runs, also between two moments at which
    the bridge asks by itself."""
    place = Place(desk, demo.STARTED)
    slow = [place.submit("LONG", minute=minute) for minute in (5, 6)]
    for which in slow:
        place.words[which] = "WA"
    bridge = place.bridge("--pause", "30", limit="20")
    place.comes("the first call", lambda: len(place.calls.lines()) == 1)
    right = place.submit("AC", team=2, minute=7)
    place.comes("the last verdict", lambda: place.verdicts() == place.wanted())
    desk.same("the calls", [line[1] for line in place.calls.lines()], [slow[0], right, slow[1]])
    place.stop([bridge])


def try_left(desk):
    """What the command can't say is told once and left; a proposal that differs waits for a person."""
    place = Place(desk, TWICE)
    for word in LEFT:
        place.submit(word)
    differs, own = place.submit("AC"), place.submit("WA")
    desk.same("a proposal that differs", place.judge("j3", "proposals", differs, "WA"), 200)
    desk.same("a proposal of the verifier's own", place.judge("j2", "proposals", own, "WA"), 200)
    first, second = place.bridge(), place.bridge("--verify", token="token-j2")
    place.comes("what is left", lambda: left_by(first.told()) == place.left())
    place.comes("what isn't verified", lambda: left_by(second.told()) == sorted([differs, own]))
    time.sleep(1)
    causes = ["status 3", "longer than 1.5 seconds", "status -9", "printed b''", "printed b'AC WA", "400 UnknownReference"]
    for line, cause in zip(sorted(first.told()), causes):
        desk.note(cause in line, f"{line} doesn't say {cause}")
    desk.same("what the first tells, once each", len(first.told()), len(LEFT))
    desk.same("how often the command was called", len(place.calls.lines()), len(LEFT) + 1)
    for which, word in ((differs, "AC"), (own, "WA")):
        desk.same("the proposal of a person", place.judge("j3", "proposals", which, word), 200)
    place.comes("the verdicts then", lambda: place.verdicts() == {differs: "AC", own: "WA"})
    fetched = place.fetched()
    desk.same("how often files were fetched", set(fetched.values()), {1})
    desk.same("what the verifier tells, once each", len(second.told()), 2)
    place.stop([first, second])


def try_older_copy(desk):
    """A desk that goes on from an older copy gives an id again: what the command says of the one program isn't given to the
    other."""
    place = Place(desk, demo.STARTED)
    place.server.stop()
    kept = {file: file.read_bytes() for file in place.folder.glob("cup.db*")}
    place.begin()
    lost = place.submit("LONG", minute=5)
    bridge = place.bridge(limit="20")
    place.comes("the call", lambda: len(place.calls.lines()) == 1)
    place.server.stop(signal.SIGKILL)
    for file in place.folder.glob("cup.db*"):
        file.unlink()
    for file, data in kept.items():
        file.write_bytes(data)
    place.begin()
    desk.same("the id of another program", place.submit("AC", minute=6), lost)
    place.comes("the end of the first call", lambda: len(place.calls.lines("ends")) >= 1)
    place.comes("its verdict", lambda: place.verdicts() == {lost: "AC"})
    time.sleep(1)
    desk.same("how often the command was called", len(place.calls.lines()), 2)
    place.stop([bridge])


def try_ends(desk):
    """A bridge that is ended ends its commands; one that nobody lets in says so."""
    place = Place(desk, demo.STARTED)
    which = place.submit("SLOW")
    bridge = place.bridge(limit="50")
    place.comes("the call", lambda: len(place.calls.lines()) == 1)
    desk.same("the status of a bridge that is ended", bridge.stop(), 0)
    time.sleep(0.2)
    running = program.ran(["ps", "-eo", "args"])[1].decode().splitlines()
    desk.same("commands that go on", [line for line in running if str(place.calls.folder) in line], [])
    desk.same("what it tells", bridge.told(), [])
    cases = [("token-a1", {}, "of the type team"), ("token-watch", {}, "of the type analyst"), ("token-nobody", {}, "401 UnknownToken"),
             ("token-j1", {"contest": "another"}, "nothing of a desk")]  # fmt: skip
    for token, how, wanted in cases:
        bridge = place.bridge(token=token, **how)
        desk.same(f"the status with {token}", bridge.process.wait(PATIENCE), 1)
        desk.note(len(bridge.told()) == 1 and wanted in bridge.told()[0], f"{token}: {bridge.told()}")
    bridge = Bridge(place.calls.folder, place.address, place.calls.path)
    desk.same("the status without trust", bridge.process.wait(PATIENCE), 1)
    desk.note("certificate" in bridge.told()[0], f"without trust: {bridge.told()}")
    for address, command, wanted in (("http://desk.example/demo", "true", "https://"), (place.address, "no-such-program", "--run")):
        bridge = Bridge(place.calls.folder, address, command)
        desk.same(f"the status of {address} and {command}", bridge.process.wait(PATIENCE), 2)
        desk.note(wanted in bridge.told()[-1], f"{address} and {command}: {bridge.told()}")
    place.words[which] = "FAIL"
    place.stop([])


class Impatient(http.server.BaseHTTPRequestHandler):
    """A desk that gives each of its answers in turn, and then an account and empty lists. Each is a status, its Retry-After,
    and whether its body breaks off."""

    def do_GET(self):
        self.server.moments.append(time.monotonic())
        status, retry_after, breaks = self.server.answers.pop(0) if self.server.answers else (200, None, False)
        body = b'{"id":"j1","type":"judge"}' if self.path.endswith("/account") else b"[]"
        self.send_response(status)
        if retry_after is not None:
            self.send_header("Retry-After", retry_after)
        self.send_header("Content-Length", str(len(body) + breaks))
        self.end_headers()
        self.wfile.write(body)

    def log_message(self, *_):
        pass


def try_patience(desk):
    """What a desk says of when to come again is heeded, and pauses grow up to a bound."""
    server = http.server.ThreadingHTTPServer(("127.0.0.1", 0), Impatient)
    server.moments = []
    server.answers = [(503, "2", False), (429, "3", False), (503, None, False), (200, None, True)]
    server.answers += [(502, "soon", False), (503, "-1", False)]
    wanted = [(2, 2.5), (3, 3.5), (1.5, 2.5), (3, 4.5), (6, 8.5), (7.5, 10.5)]
    threading.Thread(target=server.serve_forever, daemon=True).start()
    folder = desk.new_folder()
    bridge = Bridge(folder, f"127.0.0.1:{server.server_address[1]}", "true")
    end = time.monotonic() + 300
    while len(server.moments) < 12 and time.monotonic() < end:
        time.sleep(0.1)
    desk.same("the status of a bridge that is ended", bridge.stop(), 0)
    pauses = [later - sooner for sooner, later in zip(server.moments, server.moments[1:])]
    for number, (pause, (least, most)) in enumerate(zip(pauses, wanted)):
        desk.note(least <= pause <= most, f"pause {number} was {pause:.1f} seconds, and not {least} to {most}")
    desk.same("what it tells", [line.split(":")[1].strip() for line in bridge.told()], ["the desk is away", "the desk is back"])
    server.shutdown()


PARTS = (try_kills, try_two_that_propose, try_command, try_slow_team, try_left, try_older_copy, try_ends, try_patience)

if __name__ == "__main__":
    sys.exit(program.main(__doc__, Program, PARTS, program="desk", submissions=36))
