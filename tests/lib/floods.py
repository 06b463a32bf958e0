"""Clients of nginx that ask without a pause, and a team's posts beside them. How long these take is told and isn't
judged: it says as much of the machine, and of what else runs there."""

import atexit
import collections
import resource
import signal
import statistics
import subprocess
import time

from .import_opinion import compact
from .nginx import HERE, POSTED, Client
from .program import LIB, PATIENCE

POSTS, GAP = 100, 0.01
# Seconds until all clients of a flood are connected; and how long it lasts at most, for it ends once the posts are done.
BEGUN, LONGEST = 1.5, 300


def many_files():
    hard = resource.getrlimit(resource.RLIMIT_NOFILE)[1]
    resource.setrlimit(resource.RLIMIT_NOFILE, (min(hard, 4_096), hard))


class Flood:
    """wrk, with so many threads and connections, at a path of nginx; with a script of lib/, and compressed if it is told."""

    def __init__(self, nginx, path, threads, connections, script=None, is_pressed=False):
        words = ["wrk", "-t", str(threads), "-c", str(connections), "-d", f"{LONGEST}s", "--timeout", f"{LONGEST}s"]
        words += [] if script is None else ["-s", LIB / script]
        words += ["-H", "Accept-Encoding: gzip"] if is_pressed else []
        words.append(f"https://127.0.0.1:{nginx.port}{path}")
        self.nginx = nginx
        nginx.statuses()
        self.process = subprocess.Popen(words, stdout=subprocess.PIPE, stderr=subprocess.STDOUT, preexec_fn=many_files)
        atexit.register(self.process.kill)

    def __enter__(self):
        time.sleep(BEGUN)
        return self

    def __exit__(self, *_):
        self.process.send_signal(signal.SIGINT)
        self.said = self.process.communicate(timeout=PATIENCE)[0].decode()


def posts_of(nginx, token, count=POSTS, problem=POSTED["problem_id"]):
    """The statuses and the seconds of a team's posts."""
    body = compact({**POSTED, "problem_id": problem})
    client, found = Client(nginx.port, token), []
    for _ in range(count):
        start = time.monotonic()
        status = client.ask("POST", f"{HERE}/submissions", body)[0]
        found.append((status, time.monotonic() - start))
        time.sleep(GAP)
    return found


def times_of(posts):
    """The median, the 99th of a hundred and the longest of the milliseconds of posts, as words."""
    took = sorted(seconds * 1000 for _, seconds in posts)
    median, far, longest = statistics.median(took), took[len(took) * 99 // 100 - 1], took[-1]
    return f"{median:.0f} ms, the 99th of 100 {far:.0f}, the longest {longest:.0f}"


def note_taken(tally, what, posts, alone=None):
    """Notes whether posts were all taken, and prints how long they took, beside those of a run without a flood."""
    statuses = collections.Counter(status for status, _ in posts)
    tally.same(f"{what}: what another team's posts are answered", statuses, {200: len(posts)})
    print(f"  {what}: a post takes {times_of(posts)}" + (f"; alone {times_of(alone)}" if alone else ""))
