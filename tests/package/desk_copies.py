#!/usr/bin/env -S python3 -B
"""Copies a contest by tools/desk-copy while `desk serve` answers, and holds what each copy keeps.

    desk_copies.py [--program PATH] [--copies N] [--seed N]

N copies (200) are made at random moments of a day, by a seed (1). Meanwhile four clients post for 32 teams, a judge gives
verdicts, and the desk is killed and started again, also while a copy is made. `desk export` opens each copy: it holds all that
was answered before the copy began, and nothing that nobody posted. Each tenth run of desk-copy is killed itself: then the copy
is the last one, or the next. The older copies that stay are in order.

Then two moments that are made to come: the log is moved into the file between the copies of the two, and TO has an old log. A
desk-copy that does one thing wrong has to be noticed there, as a control: it copies no log, it doesn't look whether the file was
written, it leaves the old log. Then four copies at once, and copies of another user between which root makes one. At last
what it refuses, each with its status and its words, which leaves all copies as they were.

Takes faketime and setpriv. Ends with the line `N passed, M failed`; the exit status is 0 if M is 0.
"""

import base64
import concurrent.futures
import hashlib
import http.client
import os
import queue
import random
import re
import shutil
import signal
import subprocess
import sys
import threading
import time

from lib import demo, program
from lib.clock import text_of
from lib.copier import TOOL, bytes_in, copied, edited, lacking, rows_of, words_of
from lib.demo import START
from lib.import_opinion import compact
from lib.nginx import Client, free_port
from lib.program import PATIENCE, Program, limited_to, ran
from lib.server import Server

TEAMS, CLIENTS, KEPT = 32, 4, 4
NAMES = [f"n{number}" for number in range(TEAMS)]
FILES = {
    **demo.FILES,
    "teams-csv": demo.FILES["teams-csv"] + "".join(f"{name},Team {name},,\n" for name in NAMES),
    "accounts-csv": demo.FILES["accounts-csv"] + "".join(f"{name},team,{name},token-{name}\n" for name in NAMES),
}
POSTS = "/contests/demo/submissions"
# Another user, whose the copies are.
USER = 64_002
AS_USER = ["setpriv", f"--reuid={USER}", f"--regid={USER}", "--clear-groups"]
# A day, in minutes after nine: from the first post into the freeze.
BEGIN, END = 5, 290
# A copier that stops between its two copies until it is told to go on.
WAITS = {"    if before[-1] is not None:\n": (
    '    pathlib.Path("at").touch()\n    while not pathlib.Path("go").exists():\n        time.sleep(0.01)\n'
    "    if before[-1] is not None:\n")}  # fmt: skip
# One that finds another time of the file after each copy.
WRITTEN = {"    shutil.copyfile(file, new)\n": "    shutil.copyfile(file, new)\n    os.utime(file, ns=(before[2] + 1,) * 2)\n"}
# And what is wrong with others.
ALWAYS_WHOLE = {"    return state_of(file) == before\n": "    return True\n"}
NO_LOG = {"    if before[-1] is not None:\n": "    if False:\n"}
OLD_LOG = {"        log_of(to).unlink(missing_ok=True)\n        new.rename(to)\n": "        new.rename(to)\n"}
UNREAD = {"        read_by_desk(new, options.desk)\n": ""}


def body_of(data):
    return compact({"problem_id": "a", "language_id": "cpp", "files": [{"data": base64.b64encode(data).decode()}]})


class Day:
    """A contest that is served, what was posted, and what was answered."""

    def __init__(self, desk):
        self.desk, self.folder, self.port, self.now = desk, demo.made(desk, FILES), free_port(), text_of(START + BEGIN * 60_000)
        self.lock, self.posted, self.answered, self.is_over, self.waiting = threading.Lock(), set(), {}, False, queue.Queue()
        self.serve()

    def serve(self):
        self.server = Server(self.desk, self.folder, port=str(self.port), moment=self.now)

    def at(self, minute):
        self.now = text_of(START + minute * 60_000)
        self.server.at(self.now)

    def ask(self, who, path, body, key=None):
        """Status and body of the reply to a post, which is sent again until there is one."""
        fields = {"Idempotency-Key": key} if key else {}
        while True:
            try:
                status, _, reply = Client(self.port, f"token-{who}", is_plain=True).ask("POST", path, body, **fields)
                return status, reply
            except (OSError, http.client.HTTPException):
                time.sleep(0.01)

    def post(self, team, number, data):
        digest = hashlib.sha256(data).hexdigest()
        with self.lock:
            self.posted.add(digest)
        status, reply = self.ask(team, POSTS, body_of(data), f"k{number}")
        self.desk.note(status == 200, f"a post of {team}: {status} {reply}")
        which = reply.split(b'"id":"', 1)[1].split(b'"', 1)[0].decode()
        with self.lock:
            self.answered[which] = digest, ""
        self.waiting.put(which)

    def judge(self, which, verdict):
        """A verdict, which stands also if only its repeat is answered."""
        status, reply = self.ask("j1", "/jury/proposals", compact({"submission_id": which, "judgement_type_id": verdict}))
        self.desk.note(status == 200 or b"AlreadyReleased" in reply, f"a verdict of {which}: {status} {reply}")
        with self.lock:
            self.answered[which] = self.answered[which][0], verdict

    def so_far(self):
        with self.lock:
            return dict(self.answered)

    def holds(self, what, name, wanted):
        """A copy holds what was answered, and nothing that wasn't posted. Answers its rows."""
        rows = rows_of(self.desk, self.folder, name)
        self.desk.same(f"{what}: what it lacks", lacking(rows, wanted), [])
        strange = [] if isinstance(rows, str) else [which for which, row in rows.items() if row[0] not in self.posted]
        self.desk.same(f"{what}: what nobody posted", strange, [])
        return rows

    def end(self):
        self.is_over = True
        self.server.stop()


def keep_posting(day, chance, teams):
    """Posts of some teams, each 0 to 60 ms after the last, up to the 500 that each may send."""
    number = 0
    while not day.is_over and number < 500 * len(teams):
        day.post(teams[number % len(teams)], number, chance.randbytes(chance.choice([100, 500, 1_000, 8_000])))
        number += 1
        time.sleep(chance.random() * 0.06)


def keep_judging(day, chance):
    while not day.is_over:
        try:
            day.judge(day.waiting.get(timeout=0.1), chance.choice(["AC", "WA", "CE"]))
        except queue.Empty:
            pass


def keep_killing(day, chance):
    """Ends the desk after 0 to 2 seconds, mostly by SIGKILL, and starts it again at once. Answers how often."""
    count = 0
    while not day.is_over:
        time.sleep(2 * chance.random())
        day.server.stop(chance.choice([signal.SIGKILL, signal.SIGKILL, signal.SIGTERM]))
        day.serve()
        count += 1
    return count


def kill_copy(day, chance):
    """A run of desk-copy that is killed. Answers whether it was done before."""
    running = subprocess.Popen(words_of(day.desk, "--keep", KEPT, "cup.db", "copy.db"), cwd=day.folder)
    time.sleep(chance.random() / 8)
    running.kill()
    return running.wait() == 0


def copy_at_random(day, chance, number, held):
    """One copy, whole or killed, and what it holds. Answers what it has to hold."""
    time.sleep(chance.random() / 5)
    wanted = day.so_far()
    if number % 10 == 9:
        wanted = wanted if kill_copy(day, chance) else held
    else:
        day.desk.same(f"copy {number}", copied(day.desk, day.folder, "--keep", KEPT, "cup.db", "copy.db"), (0, ""))
    day.holds(f"copy {number}", "copy.db", wanted)
    return wanted


def try_a_day(desk):
    """Copies at random moments, while there are posts, verdicts and kills."""
    day, random_of = Day(desk), lambda part: random.Random(f"{desk.options.seed} {part}")
    kills, chance, held = [], random_of("copies"), {}
    works = [(keep_posting, day, random_of(at), NAMES[at::CLIENTS]) for at in range(CLIENTS)]
    works.append((keep_judging, day, random_of("judge")))
    running = [threading.Thread(target=work, args=words) for work, *words in works]
    running.append(threading.Thread(target=lambda: kills.append(keep_killing(day, random_of("kills")))))
    for one in running:
        one.start()
    for number in range(desk.options.copies):
        day.at(BEGIN + (END - BEGIN) * number // desk.options.copies)
        held = copy_at_random(day, chance, number, held)
    day.is_over = True
    for one in running:
        one.join(120)
    desk.same("clients that go on once the day is over", [one.name for one in running if one.is_alive()], [])
    day.end()
    hold_older(day)
    rows = day.holds("the contest", "cup.db", day.so_far())
    verdicts = sum(1 for _, verdict in rows.values() if verdict)
    told = f"{desk.options.copies} copies of {len(rows)} submissions and {verdicts} verdicts, {sum(kills)} kills"
    desk.note(rows and verdicts and sum(kills), f"a day with too little in it: {told}")
    print(f"  {told}")


def hold_older(day):
    """As many copies stay as were asked for, or one that was killed on its way more. Each holds what the older ones hold."""
    numbers = sorted(int(name[8:]) for name in os.listdir(day.folder) if re.fullmatch(r"copy\.db\.\d+", name))
    day.desk.note(len(numbers) in (KEPT - 1, KEPT), f"older copies: {numbers}")
    wanted = {}
    for name in [*(f"copy.db.{number}" for number in numbers), "copy.db"]:
        wanted = {**wanted, **day.holds(name, name, wanted)}


def fill(day, count):
    for _ in range(count):
        number = len(day.answered)
        day.post(NAMES[number % TEAMS], number, random.Random(number).randbytes(20_000))


def head_of(day):
    return (day.folder / "cup.db-wal").read_bytes()[:32]


def moved(desk, texts):
    """What the copy lacks if the log is moved into the file while it is made, between its two copies."""
    day = Day(desk)
    fill(day, 60)
    wanted, tool = day.so_far(), edited(day.folder, {**WAITS, **texts})
    running = subprocess.Popen(words_of(desk, "cup.db", "copy.db", tool=tool), cwd=day.folder, stderr=subprocess.PIPE)
    while not (day.folder / "at").exists():
        time.sleep(0.01)
    head = head_of(day)
    while head_of(day) == head:
        fill(day, 1)
    fill(day, 3)
    (day.folder / "go").touch()
    said = running.communicate(timeout=PATIENCE)[1].decode()
    day.end()
    return said or lacking(rows_of(desk, day.folder, "copy.db"), wanted)


def beside_old_log(desk, texts):
    """What the copy lacks if TO is of before, with a log. What TO was, with its log, is the older copy."""
    day = Day(desk)
    fill(day, 5)
    before, tool = day.so_far(), edited(day.folder, texts)
    for name in ("cup.db", "cup.db-wal"):
        shutil.copy(day.folder / name, day.folder / name.replace("cup", "copy"))
    fill(day, 100)
    wanted = day.so_far()
    said = copied(desk, day.folder, "cup.db", "copy.db", tool=tool)[1]
    day.end()
    if not texts:
        day.holds("what TO was", "copy.db.1", before)
    return said or lacking(rows_of(desk, day.folder, "copy.db"), wanted)


def without_log(desk, texts):
    """What the copy lacks of a contest whose last posts are in the log."""
    day = Day(desk)
    fill(day, 5)
    said = copied(desk, day.folder, "cup.db", "copy.db", tool=edited(day.folder, texts))[1]
    day.end()
    return said or lacking(rows_of(desk, day.folder, "copy.db"), day.so_far())


MOMENTS = [
    ("a log that is moved meanwhile", moved, ALWAYS_WHOLE),
    ("an old log", beside_old_log, OLD_LOG),
    ("a log with the last posts", without_log, NO_LOG),
]


def try_moments(desk):
    """Moments that come seldom, and a desk-copy with a fault at each of them, which has to be noticed."""
    for what, lacks, fault in MOMENTS:
        desk.same(what, lacks(desk, {}), [])
        given = lacks(desk, fault)
        desk.note(given != [], f"{what}: the fault {fault} isn't noticed")
        print(f"  {what}: with a fault {'the copy lacks ' + str(len(given)) if isinstance(given, list) else given.strip()}")


def try_side_by_side(desk):
    """Copies that are asked for at once come one after the other, each whole."""
    day = Day(desk)
    fill(day, 5)
    with concurrent.futures.ThreadPoolExecutor(4) as pool:
        said = list(pool.map(lambda _: copied(desk, day.folder, "cup.db", "copy.db"), range(4)))
    desk.same("four at once", said, [(0, "")] * 4)
    desk.same("four copies", list(bytes_in(day.folder, "copy.db")), ["copy.db", "copy.db.1", "copy.db.2", "copy.db.3"])
    for name in bytes_in(day.folder, "copy.db"):
        day.holds(name, name, day.so_far())
    day.end()


def try_root(desk):
    """Copies of a user, between which root makes one: all are the user's, and the next one goes on."""
    if os.geteuid():
        return desk.skip("copies as root and as another user: this isn't root")
    desk.folder.chmod(0o755)
    place, folder = desk.new_folder(), demo.made(desk, FILES)
    words = [shutil.copy(TOOL, place), "--desk", shutil.copy(desk.path, place / "desk"), "cup.db", "copy.db"]
    for path in (folder, *folder.iterdir()):
        os.chown(path, USER, USER)
    for before in (AS_USER, [], AS_USER, []):
        desk.same(f"a copy by {before or 'root'}", ran([*before, *words], cwd=folder), (0, b"", b""))
        owners = {(about.st_uid, about.st_gid, about.st_mode & 0o777) for about in map(os.stat, folder.glob("copy.db*"))}
        desk.same("whose the copies are", owners, {(USER, USER, 0o600)})
    desk.same("their number", len(bytes_in(folder, "copy.db")), 4)


def refusals(desk, day, other):
    """What is refused: the words, more of how it is run, the status, and what is printed."""
    size = (day.folder / "cup.db").stat().st_size
    return [
        (("none.db", "copy.db"), {}, 1, "none.db: No such file or directory"),
        (("init", "copy.db"), {}, 4, "'desk export' doesn't take the copy: refused: E24 StoreFault"),
        (("cup.db", "cup.db"), {}, 1, "cup.db is FILE itself"),
        (("cup.db", "."), {}, 1, ". is a folder"),
        ((".", "copy.db"), {}, 1, ". is a folder"),
        (("cup.db", "none/copy.db"), {}, 1, "none: No such file or directory"),
        (("cup.db", "copy.db", "--desk", "none"), {}, 4, "the desk can't be run: none: No such file or directory"),
        (("cup.db", "copy.db", "--desk", "false"), {}, 4, "'desk export' doesn't take the copy: status 1"),
        (("cup.db", other / "cup.db"), {}, 5, f"{other}/cup.db is in use: another program serves or reads it"),
        (("cup.db", "copy.db"), {"preexec_fn": limited_to(50_000)}, 1, "cup.db to copy.db.new: File too large"),
        (("cup.db", "copy.db"), {"preexec_fn": limited_to(size)}, 4, "'desk export' doesn't take the copy: signal 25"),
        (("cup.db", "copy.db", "--desk", "true"), {}, 4, "'desk export' left the log of the copy beside it"),
    ]


def try_refusals(desk):
    """What is refused leaves the copies as they are, and the contest, and nothing more beside them."""
    day, second = Day(desk), Day(desk)
    fill(day, 40)
    day.server.stop()
    for _ in range(2):
        desk.same("a copy", copied(desk, day.folder, "cup.db", "copy.db"), (0, ""))
    # (a command that ends moves the log into the file, which is then larger than the next log)
    day.holds("the contest", "cup.db", day.so_far())
    day.serve()
    fill(day, 2)
    kept = {**bytes_in(day.folder, "c"), **bytes_in(second.folder, "c")}
    for words, how, status, line in refusals(desk, day, second.folder):
        desk.same(f"desk-copy {words}", copied(desk, day.folder, *words, **how), (status, f"desk-copy: {line}\n"))
    given = copied(desk, day.folder, "cup.db", "copy.db", "--tries", 3, tool=edited(day.folder, WRITTEN))
    desk.same("a file that is written", given, (3, "desk-copy: cup.db was written during each of 3 tries\n"))
    for words in ((), ("cup.db",), ("cup.db", "copy.db", "--keep", "0"), ("cup.db", "copy.db", "--tries", "-1"), ("a", "b", "c")):
        desk.same(f"desk-copy {words}", copied(desk, day.folder, *words)[0], 2)
    desk.note({**bytes_in(day.folder, "c"), **bytes_in(second.folder, "c")} == kept, f"after all: {sorted(os.listdir(day.folder))}")
    given = copied(desk, day.folder, "init", "no-contest.db", tool=edited(day.folder, UNREAD))
    desk.same("a desk-copy that has the desk read nothing", given, (0, ""))
    keep_fewer(desk, day)
    second.end()


def keep_fewer(desk, day):
    """Fewer copies than there were."""
    for _ in range(3):
        desk.same("a copy", copied(desk, day.folder, "cup.db", "copy.db"), (0, ""))
    desk.same("five copies", list(bytes_in(day.folder, "copy.db")), ["copy.db", *(f"copy.db.{number}" for number in range(1, 5))])
    day.end()
    desk.same("two", copied(desk, day.folder, "cup.db", "copy.db", "--keep", 2), (0, ""))
    desk.same("two copies", list(bytes_in(day.folder, "copy.db")), ["copy.db", "copy.db.5"])
    desk.same("one", copied(desk, day.folder, "cup.db", "copy.db", "--keep", 1), (0, ""))
    desk.same("one copy", list(bytes_in(day.folder, "copy.db")), ["copy.db"])
    day.holds("it", "copy.db", day.so_far())


PARTS = (try_a_day, try_moments, try_side_by_side, try_root, try_refusals)

if __name__ == "__main__":
    sys.exit(program.main(__doc__, Program, PARTS, program="desk", copies=200, seed=1))
