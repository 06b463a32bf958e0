"""The queue of a contest, HAProxy by examples/nginx/queue.cfg, between nginx and a desk."""

import atexit
import os
import socket
import subprocess
import time

from .nginx import free_port, with_texts
from .program import PATIENCE, ROOT

# What queue.cfg adds to the queue's port, to have the desk's.
BEHIND = "127.0.0.1:+10000"


class Queue:
    """The queue before a desk that listens at a port. It ends with the script."""

    def __init__(self, folder, desk_port, port=None, texts=None):
        self.folder, self.port = folder, port or free_port()
        own = {BEHIND: f"127.0.0.1:{desk_port}", **(texts or {})}
        (folder / "queue.cfg").write_text(with_texts("queue.cfg", own), encoding="utf-8")
        for name in ("away.http", "malformed.http"):
            (folder / name).write_bytes((ROOT / "examples/nginx" / name).read_bytes())
        self.start()

    def start(self):
        words = ["haproxy", "-db", "-f", "queue.cfg"]
        with open(self.folder / "queue.log", "ab") as said:
            env = {**os.environ, "PORT": str(self.port)}
            self.process = subprocess.Popen(words, cwd=self.folder, env=env, stdout=said, stderr=said)
        atexit.register(self.process.kill)
        self.wait()

    def wait(self):
        """Waits until it listens, unless it has ended."""
        end = time.monotonic() + PATIENCE
        while self.process.poll() is None and time.monotonic() < end:
            with socket.socket() as client:
                if client.connect_ex(("127.0.0.1", self.port)) == 0:
                    return
            time.sleep(0.05)
        raise SystemExit(f"the queue doesn't listen: {(self.folder / 'queue.log').read_text(encoding='utf-8')[-2000:]}")

    def stop(self):
        self.process.kill()
        self.process.wait(PATIENCE)
