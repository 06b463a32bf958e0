#!/usr/bin/env -S python3 -B
"""Goes on with a contest at a second desk, from the last copy, as docs/GUIDE.md says.

    desk_second_machine.py [--program PATH]

Two desks stand on one machine behind nginx, each with its queue and in a folder of its own, which stands for its
disk. Teams post, a judge gives verdicts, tools/desk-copy copies the contest to the second, and they go on. Then the
first desk and its queue are killed and the folder taken away, while teams post. The copy is put in its place, the
second desk starts, and nginx leads there. Who had no reply is answered. Who posts again by key what the copy has gets
the first reply, byte for byte; what the copy lacks is taken anew, once, and may get an id that another program had.
What was lost is what tools/posts-since reads from nginx's log. Then that tool by itself. Last the guide's commands
give the second machine the first one's address, in a network of three machines that are made for it: a machine of the
teams, which knew the first one, sends to the second at once. By the address alone it doesn't, as a control.

Takes nginx, haproxy, openssl, faketime, unshare, nsenter, ip and arping. Ends with the line `N passed, M failed` and,
if no network could be made, `, K skipped`; the exit status is 0 if M is 0.
"""

import concurrent.futures
import hashlib
import json
import os
import re
import shutil
import signal
import subprocess
import sys
import time

from lib import demo, program
from lib.copier import copied, rows_of
from lib.import_opinion import compact
from lib.nginx import GUIDE, HERE, Client, Nginx, post_until_taken
from lib.program import ROOT, Program, ran
from lib.queue import Queue
from lib.server import Server

SINCE = ROOT / "tools/posts-since"
TEAMS = (1, 2, 3)
LOG = """\
10.0.0.1 - - [08/May/2027:12:59:59 +0000] "POST /spring/contests/spring/submissions HTTP/1.1" 200 310 "-" "curl"
10.0.0.1 - - [08/May/2027:13:00:00 +0000] "POST /spring/contests/spring/submissions HTTP/1.1" 200 310 "-" "curl"
10.0.0.1 - - [08/May/2027:15:00:01 +0200] "POST /spring/contests/spring/submissions HTTP/2.0" 200 310 "-" "a [b] \\x22c\\x22"
10.0.0.1 - - [08/May/2027:07:30:01 -0530] "POST /spring/jury/proposals HTTP/2.0" 201 310 "-" "-"
10.0.0.1 - - [08/May/2027:14:59:59 +0200] "POST /spring/jury/proposals HTTP/2.0" 200 310 "-" "-"
10.0.0.1 - - [08/May/2027:13:00:02 +0000] "PATCH /spring/contests/spring?x=1 HTTP/1.1" 200 310 "-" "-"
10.0.0.1 - - [08/May/2027:13:00:02 +0000] "POST /spring/contests/spring/submissions HTTP/1.1" 503 31 "-" "-"
10.0.0.1 - - [08/May/2027:13:00:03 +0000] "GET /spring/contests/spring/submissions HTTP/1.1" 200 31 "-" "-"
10.0.0.1 - - [08/May/2027:13:00:03 +0000] "\\x16\\x03\\x01 POST / HTTP" 400 31 "-" "-"
\xff no line
"""
COUNTS = "1 /spring/contests/spring\n2 /spring/contests/spring/submissions\n1 /spring/jury/proposals\n"


# How the guide gives the second machine the first one's address, and which that is.
ADD, TELL = re.search(r"(?m)^   (ip address add 10\.1\.2\.3/24 dev eth0)\n   (.*)$", GUIDE).groups()
ADDRESS = "10.1.2.3"


def replies_of(answers):
    """The reply to each post, without how often the desk was away before."""
    return {one: reply for one, (_, reply, _) in answers.items()}


def ids_of(replies):
    return {one: json.loads(reply)["id"] for one, (_, reply, _) in replies.items()}


def digest_of(team, number):
    """The digest of what `post_until_taken` posts."""
    return hashlib.sha256(f"{team} {number}".encode()).hexdigest()


def next_second():
    """Waits for a new second of the clock, which nginx's log counts by."""
    time.sleep(1 - time.time() % 1 + 0.05)


class Hall:
    """Teams and a judge before nginx, and the folder of each machine."""

    def __init__(self, desk):
        self.desk, self.first, self.second = desk, demo.made(desk, demo.FILES), desk.new_folder()
        self.server = Server(desk, self.first, moment="2024-03-02 10:00:00")
        self.queue = Queue(desk.new_folder(), self.server.port)
        self.nginx = Nginx(desk.new_folder(), {"demo": self.queue.port}, is_limited=False)
        self.judge = Client(self.nginx.port, "token-j1")

    def post(self, posts):
        """What teams are answered to posts, each until there is an answer."""
        return {one: post_until_taken(self.nginx.port, *one) for one in posts}

    def give(self, which, verdict):
        return self.judge.ask("POST", "/demo/jury/proposals", compact({"submission_id": which, "judgement_type_id": verdict}))[0]

    def verdicts(self):
        judgements = json.loads(self.judge.ask("GET", f"{HERE}/judgements")[2])
        return {one["submission_id"]: one["judgement_type_id"] for one in judgements}

    def posts_since(self):
        """What nginx's log says was posted since the copy: how many of each path."""
        with (self.nginx.folder / "access.log").open("rb") as log:
            status, out, err = ran([SINCE, self.second / "copy.db"], stdin=log)
        self.desk.same("posts-since", (status, err), (0, b""))
        return {path: int(count) for count, path in map(str.split, out.decode().splitlines())}

    def take_over(self):
        """The copy in its place, a desk that serves it with its queue, and nginx, which leads there."""
        shutil.copy(self.second / "copy.db", self.second / "cup.db")
        self.server = Server(self.desk, self.second, moment="2024-03-02 11:00:00")
        self.queue = Queue(self.desk.new_folder(), self.server.port)
        self.nginx.lead("demo", self.queue.port)
        self.nginx.reload()

    def stop(self):
        self.nginx.stop()
        self.queue.stop()
        self.server.stop()


def numbered(numbers):
    return [(team, number) for number in numbers for team in TEAMS]


def try_take_over(desk):
    """A first machine that is gone, and what stands at the second."""
    hall = Hall(desk)
    before = hall.post(numbered(range(8)))
    desk.same("a verdict before the copy", hall.give("s1-1", "AC"), 200)
    next_second()
    desk.same("the copy", copied(desk, hall.first, "cup.db", hall.second / "copy.db"), (0, ""))
    next_second()
    after = hall.post(numbered(range(8, 12)))
    desk.same("a verdict after the copy", hall.give("s1-2", "WA"), 200)
    copy = rows_of(desk, hall.second, "copy.db")
    desk.same("what the copy has", {row[0] for row in copy.values()}, {digest_of(*one) for one in before})
    told = hall.posts_since()
    desk.same("what nginx says came since", told, {f"{HERE}/submissions": len(after), "/demo/jury/proposals": 1})
    with concurrent.futures.ThreadPoolExecutor(len(TEAMS)) as pool:
        hall.server.stop(signal.SIGKILL)
        hall.queue.stop()
        shutil.rmtree(hall.first)
        start = time.monotonic()
        running = {one: pool.submit(post_until_taken, hall.nginx.port, *one) for one in numbered([12])}
        time.sleep(1)
        hall.take_over()
        meanwhile = {one: done.result() for one, done in running.items()}
    print(f"  from the first desk's end to the last answer: {time.monotonic() - start:.1f} s")
    desk.note(all(away > 0 for _, _, away in meanwhile.values()), f"no post met a desk that was away: {meanwhile}")
    hold_second(desk, hall, before, after, meanwhile)
    hall.stop()


def hold_second(desk, hall, before, after, meanwhile):
    """What teams are answered at the second machine, and what stands there in the end."""
    desk.same("what the copy has, posted again", replies_of(hall.post(before)), replies_of(before))
    new = hall.post(reversed(list(after)))
    desk.same("what the copy lacks, posted again", {given[0] for given in [*new.values(), *meanwhile.values()]}, {200})
    desk.same("the same once more", replies_of(hall.post(after)), replies_of(new))
    had, has = ({which: one for one, which in ids_of(some).items()} for some in (after, {**meanwhile, **new}))
    others = sorted(which for which in had if which in has and had[which] != has[which])
    desk.note(others != [], f"no id is given to another program: {had}, {has}")
    print(f"  {len(others)} of {len(had)} ids that were lost are given to another program")
    ids = ids_of({**before, **new, **meanwhile})
    desk.same("verdicts", hall.verdicts(), {"s1-1": "AC"})
    desk.same("the lost verdict, given again", (hall.give("s1-2", "WA"), hall.verdicts()), (200, {"s1-1": "AC", "s1-2": "WA"}))
    hall.server.stop()
    rows = rows_of(desk, hall.second, "cup.db")
    wanted = {which: digest_of(*one) for one, which in ids.items()}
    desk.same("what stands", {which: row[0] for which, row in rows.items()}, wanted)


def try_posts_since(desk):
    """The tool by itself: a log of made lines, and what it refuses."""
    folder = desk.new_folder()
    copy = folder / "copy.db"
    copy.touch()
    os.utime(copy, (1_809_781_200, 1_809_781_200.9))
    desk.same("a log", ran([SINCE, copy], input=LOG.encode("latin-1")), (0, COUNTS.encode(), b""))
    desk.same("no log", ran([SINCE, copy], input=b""), (0, b"", b""))
    line = f"posts-since: {folder}/none: No such file or directory\n"
    desk.same("no copy", ran([SINCE, folder / "none"], input=b"")[::2], (1, line.encode()))
    for words in ((), (copy, copy), ("--help",)):
        desk.same(f"posts-since {words}", ran([SINCE, *words], input=b"")[:2], (2, b""))


class Machine:
    """A machine that has nothing but a network of its own."""

    def __init__(self):
        words = ["unshare", "--net", "sh", "-c", "echo; exec sleep 600"]
        self.process = subprocess.Popen(words, stdout=subprocess.PIPE, stderr=subprocess.DEVNULL)
        self.works = self.process.stdout.readline() == b"\n"

    def does(self, command):
        """What a command prints there."""
        words = ["nsenter", f"--target={self.process.pid}", "--net", "bash", "-c", command]
        return ran(words)[1].decode()

    def link(self, other):
        """A cable to another machine, where it is the device eth0. Answers that device's own address, or nothing if no cable
        can be made here."""
        at = f"to{other.process.pid}"
        self.does(f"ip link add {at} type veth peer name eth0 netns {other.process.pid}; ip link set {at} master br0 up")
        found = re.search(r"(?:[0-9a-f]{2}:){5}[0-9a-f]{2}", other.does("ip link set eth0 up; ip -brief link show eth0"))
        return found[0] if found else None

    def knows(self):
        """Where this machine sends what is for the address."""
        self.does(f"echo > /dev/udp/{ADDRESS}/9; sleep 0.3")
        return (re.findall(r"lladdr (\S+)", self.does(f"ip neighbour show {ADDRESS}")) + [""])[0]

    def end(self):
        self.process.kill()
        self.process.communicate()


def try_address(desk):
    """Step 4 of the take-over. A machine of the teams knows the first machine; that one is off, and the second has its
    address."""
    teams, first, second = machines = [Machine() for _ in range(3)]
    teams.does("ip link add br0 type bridge && ip link set br0 up && ip address add 10.1.2.1/24 dev br0")
    old, new = (teams.link(other) if other.works else None for other in (first, second))
    if old and new:
        first.does(f"ip address add {ADDRESS}/24 dev eth0")
        second.does("ip address add 10.1.2.9/24 dev eth0")
        desk.same("before", teams.knows(), old)
        first.does("ip link set eth0 down")
        second.does(ADD)
        desk.same("by the address alone", teams.knows(), old)
        second.does(TELL)
        desk.same("once it is told", teams.knows(), new)
    else:
        desk.skip("the address: no network can be made here")
    for machine in machines:
        machine.end()


PARTS = (try_take_over, try_posts_since, try_address)

if __name__ == "__main__":
    sys.exit(program.main(__doc__, Program, PARTS, program="desk"))
