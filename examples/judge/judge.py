#!/usr/bin/env python3
"""Has a command judge the submissions of a contest that a desk serves.

    judge.py ADDRESS CONTEST --run COMMAND [--token FILE] [--verify] [--jobs N] [--limit SECONDS] [--pause SECONDS]
             [--trust FILE]

ADDRESS is what stands before /contests in the contest's paths, as https://desk.example/spring or 127.0.0.1:8081, and
CONTEST the contest's id. The token is a judge's: the first line of FILE, or of the variable DESK_TOKEN. README.md beside
this file says what COMMAND is given and what it prints. Each type that it prints is proposed; with --verify it confirms
a proposal of another account. N commands run at once (1). The next is for the team for which the fewest began lately,
and for its oldest submission. One that takes longer than --limit (300 seconds) is ended. The desk is asked every
--pause (5 seconds) what waits. --trust names a certificate that is trusted beside those of the machine.

Nothing is kept: it may be ended at any moment and started elsewhere. While the desk is away it asks again. What is left
for people is told on standard error, and isn't tried again until the next start. It ends by a signal, or with status 1
if the desk refuses its account.
"""

import argparse
import collections
import contextlib
import ctypes
import dataclasses
import http.client
import json
import os
import pathlib
import random
import re
import select
import shlex
import shutil
import signal
import ssl
import subprocess
import sys
import tempfile
import threading
import time

# Seconds: how long a reply is waited for, the first and the longest pause while the desk is away, and the longest that
# the desk may ask for by Retry-After.
PATIENCE, FIRST_PAUSE, LONGEST_PAUSE, LONGEST_RETRY_AFTER = 70, 0.5, 10, 60
# Seconds: how long a command counts for its team once it began; and how long one may wait for its turn before the desk is
# asked anew what waits.
LATELY, LONG_WAIT = 600, 1
# A judgement type's id and the end of its line have at most so many bytes; and more than a token and its own.
LONGEST_ID, LONGEST_TOKEN = 36, 1_000
TOKEN = re.compile(r"[-A-Za-z0-9._~+/]+=*")
# Somebody else has done what was to be done.
STANDS_ALREADY = {"AlreadyReleased", "NothingToVerify"}


class Away(Exception):
    """The desk gives no answer for now; after how many seconds it may be asked again, if it says so."""

    def __init__(self, why, retry_after=None):
        super().__init__(why)
        is_number = retry_after is not None and retry_after.isascii() and retry_after.isdigit()
        self.seconds = min(int(retry_after), LONGEST_RETRY_AFTER) if is_number else 0


class Fault(Exception):
    """The desk refuses what a bridge can't go on without."""


class Unsaid(Exception):
    """Why a command says no judgement type."""


def tell(text):
    print(f"judge.py: {text}", file=sys.stderr, flush=True)


def name_of(body):
    """The name in the body of a refusal."""
    try:
        return str(json.loads(body)["message"])
    except (ValueError, LookupError, TypeError):
        return "without a name"


class Desk:
    """Asks a desk with one token."""

    def __init__(self, address, contest, token, trust):
        scheme, _, rest = address.rpartition("://")
        self.host, _, base = rest.partition("/")
        self.base, self.contest = f"/{base}".rstrip("/"), f"/contests/{contest}"
        self.fields = {"Authorization": f"Bearer {token}"}
        self.kind, self.how = http.client.HTTPConnection, {"timeout": PATIENCE}
        if scheme == "https":
            self.kind, self.how = http.client.HTTPSConnection, {"timeout": PATIENCE, "context": trust}
        self.is_away, self.lock = False, threading.Lock()

    def once(self, method, path, body=None):
        """Status and body of one reply."""
        client = self.kind(self.host, **self.how)
        try:
            client.request(method, self.base + path, body, self.fields)
            reply = client.getresponse()
            status, data, retry_after = reply.status, reply.read(), reply.headers["Retry-After"]
        except ssl.SSLCertVerificationError as error:
            raise Fault(f"the certificate of {self.host}: {error.verify_message}; --trust names one") from error
        except (OSError, http.client.HTTPException) as error:
            raise Away(f"{type(error).__name__} {error}") from error
        finally:
            client.close()
        if status == 429 or status >= 500:
            raise Away(f"{status} {name_of(data)}", retry_after)
        self.note(None)
        return status, data

    def note(self, away):
        """Tells that the desk went away, or is back."""
        with self.lock:
            if self.is_away == (away is not None):
                return
            self.is_away = away is not None
        tell(f"the desk is away: {away}" if away else "the desk is back")

    def pause(self, away, count):
        """Waits before it is asked again, after so many times that it was away."""
        self.note(away)
        seconds = min(FIRST_PAUSE * 2 ** min(count, 9), LONGEST_PAUSE) * random.uniform(0.8, 1)
        time.sleep(max(seconds, away.seconds))

    def get(self, path):
        """The body for a path, or nothing if it isn't found, however long the desk is away."""
        count = 0
        while True:
            try:
                status, data = self.once("GET", path)
            except Away as away:
                self.pause(away, count)
                count += 1
                continue
            if status not in (200, 404):
                raise Fault(f"{status} {name_of(data)} for {self.base}{path}")
            return data if status == 200 else None

    def served(self, path):
        """The JSON that has to be at a path."""
        data = self.get(path)
        try:
            return json.loads(data)
        except (TypeError, ValueError) as error:
            raise Fault(f"nothing of a desk is at {self.base}{path} of {self.host}") from error


class Command:
    """The command, which is given a submission as its last four words."""

    def __init__(self, words, limit):
        self.words, self.limit = words, limit
        self.running, self.is_over, self.lock = set(), False, threading.Lock()

    def says(self, submission, file):
        """The judgement type's id that it prints."""
        more = [submission["problem_id"], submission["language_id"], submission.get("entry_point") or "", str(file)]
        with self.lock:
            if self.is_over:
                raise Unsaid("the bridge ends")
            process = subprocess.Popen(
                [*self.words, *more], stdin=subprocess.DEVNULL, stdout=subprocess.PIPE, start_new_session=True,
                env={**os.environ, "TMPDIR": str(file.parent)},
            )  # fmt: skip
            self.running.add(process)
        try:
            said = self.printed(process)
        finally:
            with self.lock:
                self.running.discard(process)
            process.stdout.close()
        found = re.fullmatch(r"\s*(\S+)\s*", said.decode("utf-8", "replace"))
        if process.returncode or not found:
            raise Unsaid(f"the command ended with status {process.returncode} and printed {said[:80]!r}")
        return found[1]

    def printed(self, process):
        """What it prints until it ends. It is ended if it prints more than an id, or takes too long."""
        end, said, is_open = time.monotonic() + self.limit, b"", True
        while is_open and len(said) <= 2 * LONGEST_ID and (left := end - time.monotonic()) > 0:
            if select.select([process.stdout], [], [], left)[0]:
                piece = os.read(process.stdout.fileno(), 4096)
                said, is_open = said + piece, bool(piece)
        try:
            process.wait(0 if is_open else max(0, end - time.monotonic()))
        except subprocess.TimeoutExpired:
            end_group(process)
            process.wait()
            if time.monotonic() >= end:
                raise Unsaid(f"the command took longer than {self.limit:g} seconds") from None
        return said

    def end(self):
        """Ends what runs, and lets nothing begin."""
        with self.lock:
            self.is_over = True
            for process in self.running:
                end_group(process)


def end_group(process):
    """Ends a process that has a session of its own, and all that it began there. The number of one that was waited for
    may be another's by now."""
    if process.returncode is None:
        with contextlib.suppress(ProcessLookupError):
            os.killpg(process.pid, signal.SIGKILL)


@dataclasses.dataclass(frozen=True)
class Waiting:
    """A submission that waits, and the proposal that waits to be verified."""

    submission: dict
    proposal: dict | None

    @property
    def id(self):
        return self.submission["id"]

    @property
    def program(self):
        """Which program it is: a desk that goes on from an old copy may give an id to another one."""
        return self.id, self.submission["time"]

    @property
    def key(self):
        """What is left for people: the program, and the proposal if it is about one."""
        return self.program, json.dumps(self.proposal, sort_keys=True)


class Bridge:
    """What waits goes to the command, and what that says goes to the desk."""

    def __init__(self, desk, command, options, folder):
        self.desk, self.command, self.options, self.folder = desk, command, options, folder
        self.slots, self.lock, self.has_failed = threading.Semaphore(options.jobs), threading.Lock(), threading.Event()
        self.busy, self.verdicts, self.left, self.fault = set(), {}, set(), None
        self.starts = collections.deque()
        account = desk.served(f"{desk.contest}/account")
        if account.get("type") not in ("judge", "admin"):
            raise Fault(f"the account {account.get('id')} is of the type {account.get('type')}, and no judge's")
        self.account = account["id"]

    def run(self):
        """Goes on until something fails, and raises that."""
        while True:
            with self.lock:
                busy = set(self.busy)
            queue = [one for one in self.waiting() if one.id not in busy]
            asked = time.monotonic()
            while queue and self.has_place(asked):
                self.begin(queue.pop(self.next_of(queue)))
            if not queue:
                self.has_failed.wait(max(0, asked + self.options.pause - time.monotonic()))
            if self.fault is not None:
                raise self.fault

    def has_place(self, asked):
        """Waits until one more command may run. Answers whether the desk needn't be asked anew what waits: if that was
        long ago, or this wait was long, somebody may have come who goes first."""
        start = time.monotonic()
        self.slots.acquire()
        now = time.monotonic()
        if self.fault is None and now - asked <= self.options.pause and now - start <= LONG_WAIT:
            return True
        self.slots.release()
        return False

    def next_of(self, queue):
        """The place in the queue of what comes next: the oldest of the team for which the fewest commands began lately.
        So slow programs of one team keep another waiting for one of them at most."""
        while self.starts and self.starts[0][0] < time.monotonic() - LATELY:
            self.starts.popleft()
        counts = collections.Counter(team for _, team in self.starts)
        return min(range(len(queue)), key=lambda at: counts[queue[at].submission["team_id"]])

    def proposals(self):
        """The last proposal for each submission without a verdict."""
        return {one["submission_id"]: one for one in self.desk.served("/jury/proposals")}

    def waiting(self):
        """What waits for this bridge, the oldest first. Proposals are asked for before judgements: one that is
        released in between is in one of both."""
        submissions, proposals = self.desk.served(f"{self.desk.contest}/submissions"), self.proposals()
        if self.options.verify:
            found = [Waiting(one, proposals[one["id"]]) for one in submissions if one["id"] in proposals]
        else:
            judged = {one["submission_id"] for one in self.desk.served(f"{self.desk.contest}/judgements")}
            found = [Waiting(one, None) for one in submissions if one["id"] not in judged | proposals.keys()]
        with self.lock:
            return [one for one in found if one.key not in self.left]

    def begin(self, waiting):
        self.starts.append((time.monotonic(), waiting.submission["team_id"]))
        with self.lock:
            self.busy.add(waiting.id)
        threading.Thread(target=self.work, args=(waiting,), daemon=True).start()

    def work(self, waiting):
        """Judges one submission, in a thread of its own."""
        try:
            self.judge(waiting)
        except (Unsaid, OSError) as why:
            self.leave(waiting, why)
        except Exception as error:
            self.fault = error
            self.has_failed.set()
        finally:
            with self.lock:
                self.busy.discard(waiting.id)
            self.slots.release()

    def leave(self, waiting, why):
        """Leaves a submission for people."""
        with self.lock:
            self.left.add(waiting.key)
        if not self.command.is_over:
            tell(f"{waiting.id} is left for people: {why}")

    def judge(self, waiting):
        if waiting.proposal is not None and waiting.proposal["account_id"] == self.account:
            raise Unsaid("this account proposed its verdict itself")
        if waiting.program not in self.verdicts:
            data = self.desk.get(f"{self.desk.contest}/submissions/{waiting.id}/files")
            if data is None:
                return
            self.verdicts[waiting.program] = None
            self.verdicts[waiting.program] = self.said_of(waiting, data)
        verdict = self.verdicts[waiting.program]
        if verdict is not None:
            self.post(waiting, verdict)
        else:
            # This was told already: another proposal changes nothing.
            with self.lock:
                self.left.add(waiting.key)

    def said_of(self, waiting, data):
        """What the command says of a program. Its file has a folder of its own meanwhile, where the command may leave
        what it likes."""
        with tempfile.TemporaryDirectory(dir=self.folder, ignore_cleanup_errors=True) as folder:
            file = pathlib.Path(folder, waiting.id)
            file.write_bytes(data)
            return self.command.says(waiting.submission, file)

    def still_waits(self, waiting):
        """Whether it is the same program still, and nobody gave the verdict meanwhile."""
        data = self.desk.get(f"{self.desk.contest}/submissions/{waiting.id}")
        if data is None or json.loads(data)["time"] != waiting.submission["time"]:
            return False
        is_same = self.proposals().get(waiting.id) == waiting.proposal
        return is_same and self.desk.get(f"{self.desk.contest}/judgements/{waiting.id}.1") is None

    def post(self, waiting, verdict):
        """Posts a verdict until it is answered. A post without an answer may stand, so it is looked at each time."""
        path = "/jury/verifications" if self.options.verify else "/jury/proposals"
        body, count = json.dumps({"submission_id": waiting.id, "judgement_type_id": verdict}), 0
        while self.still_waits(waiting):
            try:
                return self.settle(waiting, verdict, *self.desk.once("POST", path, body))
            except Away as away:
                self.desk.pause(away, count)
                count += 1
        return None

    def settle(self, waiting, verdict, status, data):
        """What the answer to a post means."""
        name = name_of(data)
        if status == 200:
            print(f"{waiting.id} {verdict}", flush=True)
        elif status == 409 and name == "TypeDiffers":
            raise Unsaid(f"{waiting.proposal['judgement_type_id']} is proposed, and the command says {verdict}")
        elif status in (400, 409) and name not in STANDS_ALREADY:
            raise Unsaid(f"the desk answers {status} {name} to the command's {verdict!r}")
        elif status != 409:
            raise Fault(f"{status} {name} for a post")


def hide_token():
    """Begins anew with a token that stood in the environment, where a command could read it: now it comes by a pipe. No
    other process of this user may look into the memory of this one (PR_SET_DUMPABLE)."""
    token = os.environ.pop("DESK_TOKEN", None)
    if token is not None:
        reader, writer = os.pipe()
        os.write(writer, token.encode()[:LONGEST_TOKEN])
        os.close(writer)
        os.set_inheritable(reader, True)
        os.environ["DESK_TOKEN_PIPE"] = str(reader)
        os.execv(sys.executable, [sys.executable, *sys.orig_argv[1:]])
    ctypes.CDLL(None).prctl(4, 0, 0, 0, 0)


def token_of(path):
    """The token in a file, or the one that `hide_token` left in a pipe."""
    pipe, text = os.environ.pop("DESK_TOKEN_PIPE", None), ""
    if pipe is not None:
        with os.fdopen(int(pipe), encoding="utf-8") as file:
            text = file.read()
    if path is not None:
        text = path.read_text(encoding="utf-8")
    first = text.partition("\n")[0].strip()
    if not TOKEN.fullmatch(first):
        raise SystemExit("judge.py: a judge's token has to be the first line of --token FILE, or of DESK_TOKEN")
    return first


def is_here(address):
    """Whether an address without TLS is one of this machine."""
    return bool(re.match(r"(http://)?(127\.0\.0\.1|localhost)(:\d+)?(/|$)", address))


def options_of_words():
    parser = argparse.ArgumentParser(description=__doc__, formatter_class=argparse.RawDescriptionHelpFormatter)
    parser.add_argument("address", metavar="ADDRESS")
    parser.add_argument("contest", metavar="CONTEST")
    parser.add_argument("--run", required=True, type=shlex.split, metavar="COMMAND")
    parser.add_argument("--token", type=pathlib.Path, metavar="FILE")
    parser.add_argument("--verify", action="store_true")
    parser.add_argument("--jobs", type=int, default=1, metavar="N")
    parser.add_argument("--limit", type=float, default=300, metavar="SECONDS")
    parser.add_argument("--pause", type=float, default=5, metavar="SECONDS")
    parser.add_argument("--trust", type=pathlib.Path, metavar="FILE")
    options = parser.parse_args()
    if not options.run or shutil.which(options.run[0]) is None:
        parser.error("there is no program that --run names")
    if options.jobs < 1 or options.limit <= 0 or options.pause <= 0:
        parser.error("--jobs, --limit and --pause are above 0")
    if not options.address.startswith("https://") and not is_here(options.address):
        parser.error("the token goes to another machine by https:// alone")
    return options


def main():
    hide_token()
    options = options_of_words()
    try:
        token, trust = token_of(options.token), ssl.create_default_context()
        if options.trust is not None:
            trust.load_verify_locations(options.trust)
    except OSError as error:
        raise SystemExit(f"judge.py: {error}") from error
    signal.signal(signal.SIGTERM, lambda *_: sys.exit(0))
    desk, command = Desk(options.address, options.contest, token, trust), Command(options.run, options.limit)
    with tempfile.TemporaryDirectory(prefix="judge-", ignore_cleanup_errors=True) as folder:
        try:
            Bridge(desk, command, options, folder).run()
        except KeyboardInterrupt:
            return 0
        except Fault as error:
            tell(error)
            return 1
        finally:
            command.end()


if __name__ == "__main__":
    sys.exit(main())
