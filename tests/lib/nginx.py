"""Debian's nginx in front of desks, and before that one for spectators, as examples/nginx/ has it, each in a folder and on
ports of its own; and what asks it."""

import atexit
import base64
import collections
import getpass
import http.client
import os
import pathlib
import re
import resource
import signal
import socket
import ssl
import subprocess
import time

from .import_opinion import compact
from .program import PATIENCE, ROOT

# Where nginx has the demo contest, and what a team posts there.
HERE, POSTED = "/demo/contests/demo", {"problem_id": "a", "language_id": "cpp", "files": [{"data": "YWJj"}]}
# What another machine has instead: where things lie, and the ports that the system gives.
MAIN = """worker_processes {workers};
user {user};
pid {folder}/nginx.pid;
error_log {folder}/error.log;
daemon off;
include files.conf;
load_module /usr/lib/nginx/modules/ngx_http_js_module.so;
events {{ worker_connections {connections}; }}
http {{
    include /etc/nginx/mime.types;
    default_type application/octet-stream;
    access_log {folder}/access.log;
    client_body_temp_path {folder}/body;
    proxy_temp_path {folder}/proxy;
    fastcgi_temp_path {folder}/fastcgi;
    uwsgi_temp_path {folder}/uwsgi;
    scgi_temp_path {folder}/scgi;
    include {conf};
}}
"""
# What docs/GUIDE.md does: it makes a certificate, and sets a worker's connections.
GUIDE = (ROOT / "docs/GUIDE.md").read_text(encoding="utf-8")
CERTIFICATE = re.search(r"^openssl req .*?certificate\.pem$", GUIDE, re.M | re.S)[0]
CONNECTIONS = re.search(r"s/worker_connections \.\*/worker_connections (\d+);/", GUIDE)[1]
# What desk.conf and the files of the contests include.
OWN_FILES = ("ask.conf", "public.conf", "replies.conf", "refusals.conf", "account.conf", "account.js", "pages.conf")
# So much of what nginx says is told where it isn't as it should be.
TOLD = 2_000
# The files that a worker may have open if nothing is said of them.
FILES_OF_DEBIAN = 1_024
FIRST_PORT, ALL_PORTS, OWN_PORTS = 10_000, 20_000, 20
PORTS = iter(range(1_000))
TRUSTING = ssl.create_default_context()
TRUSTING.check_hostname, TRUSTING.verify_mode = False, ssl.CERT_NONE


def free_port():
    """A port that nobody listens on. Each script has some of its own, below those that the system gives to connections: so it isn't
    taken by another one before something listens on it."""
    for at in PORTS:
        port = FIRST_PORT + os.getpid() * OWN_PORTS % ALL_PORTS + at % OWN_PORTS
        try:
            with socket.create_server(("127.0.0.1", port)):
                return port
        except OSError:
            continue
    raise SystemExit("no port is free")


def with_texts(name, texts):
    """A file of examples/nginx/ with texts in the place of others, each of which has to be there."""
    text = (ROOT / "examples/nginx" / name).read_text(encoding="utf-8")
    for old, new in texts.items():
        if old not in text:
            raise SystemExit(f"examples/nginx/{name} has no {old!r} any more")
        text = text.replace(old, new)
    return text


def without_limits(text):
    """A text of examples/nginx/ with limits that nothing reaches."""
    return re.sub(r"(limit_conn \w+) \d+", r"\1 65535", re.sub(r"rate=\d+r/[sm]", "rate=1000000r/s", text))


def few_files():
    """What Debian's systemd starts nginx with."""
    resource.setrlimit(resource.RLIMIT_NOFILE, (FILES_OF_DEBIAN, resource.getrlimit(resource.RLIMIT_NOFILE)[1]))


class Started:
    """nginx in a folder and on a port of its own, by one of the files of examples/nginx/, with a certificate of a name. It ends
    with the script."""

    def __init__(self, folder, conf, workers, name):
        self.folder, self.port, self.seen = folder, free_port(), 0
        (folder / "desk/contests").mkdir(parents=True)
        words = ["bash", "-c", CERTIFICATE.replace("/etc/nginx/desk", str(folder / "desk")).replace("$(hostname -f)", name)]
        subprocess.run(words, check=True, capture_output=True)
        own = {"folder": folder, "user": getpass.getuser(), "workers": workers, "connections": CONNECTIONS, "conf": conf}
        self.write("nginx.conf", MAIN.format(**own))
        self.write("files.conf", with_texts("files.conf", {}))

    def start(self):
        words = ["nginx", "-p", self.folder, "-c", self.folder / "nginx.conf", "-e", self.folder / "error.log"]
        self.process = subprocess.Popen(words, preexec_fn=few_files)
        atexit.register(self.process.terminate)
        self.wait()

    def write(self, name, text):
        """Writes a file, of which nginx reads the whole or the one before, also where it takes up another just then."""
        new = self.folder / f"{name}.new"
        new.write_text(text, encoding="utf-8")
        new.replace(self.folder / name)

    def wait(self):
        """Waits until it listens, unless it has ended."""
        end = time.monotonic() + PATIENCE
        while self.process.poll() is None and time.monotonic() < end:
            with socket.socket() as client:
                if client.connect_ex(("127.0.0.1", self.port)) == 0:
                    return
            time.sleep(0.05)
        raise SystemExit(f"nginx doesn't listen: {self.errors()[-TOLD:]}")

    def errors(self):
        return (self.folder / "error.log").read_text(encoding="utf-8")

    def answered(self):
        """The status, the method and the path of each request since this or `statuses` was called last."""
        text = (self.folder / "access.log").read_text(encoding="utf-8")
        seen, self.seen = self.seen, text.rfind("\n") + 1
        asked = re.findall(r'\] "([^"]*)" (\d{3}) ', text[seen : self.seen])
        return [(int(status), *(line.split(" ") + [""])[:2]) for line, status in asked]

    def statuses(self):
        """How many requests were answered by each status since this or `answered` was called last."""
        return collections.Counter(status for status, _, _ in self.answered())

    def workers(self):
        """The folders of /proc of its workers."""
        children = pathlib.Path(f"/proc/{self.process.pid}/task/{self.process.pid}/children").read_text(encoding="utf-8")
        return [pathlib.Path("/proc", child) for child in children.split()]

    def memory(self):
        """Megabytes that its workers hold, but for what they share."""
        lines = [line for worker in self.workers() for line in (worker / "status").read_text(encoding="utf-8").splitlines()]
        return sum(int(line.split()[1]) for line in lines if line.startswith("RssAnon:")) / 1024

    def open_files(self, name):
        """How many files of one of its folders are open, those that are gone from it too."""
        links = [os.readlink(link) for worker in self.workers() for link in (worker / "fd").iterdir()]
        return sum(link.startswith(f"{self.folder}/{name}/") for link in links)

    def stop(self):
        self.process.terminate()
        self.process.wait(PATIENCE)

    def connected_plainly(self):
        """A client's end of a new connection without TLS."""
        return socket.create_connection(("127.0.0.1", self.plain_port), timeout=PATIENCE)

    def connected(self, address="127.0.0.1"):
        """A client's end of a new connection, for bytes, of an address of this machine."""
        return TRUSTING.wrap_socket(socket.create_connection(("127.0.0.1", self.port), PATIENCE, (address, 0)))


class Nginx(Started):
    """nginx before desks, each named by its contest and its port. For a script that asks more than people do, the limits can be
    taken away. Its certificate is one of the machine's name, or of another."""

    def __init__(self, folder, desks, is_limited=True, workers=2, name="$(hostname -f)"):
        super().__init__(folder, "desk.conf", workers, name)
        self.plain_port, self.account_port = free_port(), free_port()
        listens = {
            "listen 443 ssl": f"listen 127.0.0.1:{self.port} ssl",
            "listen 80": f"listen 127.0.0.1:{self.plain_port}",
            "listen 127.0.0.1:8079": f"listen 127.0.0.1:{self.account_port}",
        }
        places = {"/var/lib/nginx/desk": "cache", "/run/nginx-accounts": "accounts", "/run/nginx-replies": "replies"}
        shown = (lambda text: text) if is_limited else without_limits
        own = {place: f"{folder}/{name}" for place, name in places.items()}
        self.write("desk.conf", shown(with_texts("desk.conf", {**listens, **own})))
        for name in OWN_FILES:
            self.write(f"desk/{name}", shown(with_texts(name, {})))
        for contest, port in desks.items():
            self.lead(contest, port)
        self.start()

    def lead(self, contest, port):
        """Leads a contest's paths to a port; if nginx runs it takes that up by `reload`."""
        own = {"riverside": contest, "8081": str(port), "8079": str(self.account_port), "/srv/desk/web/": f"{ROOT}/web/"}
        own["/run/desk-copied/"] = f"{self.folder}/"
        self.write(f"desk/contests/{contest}.conf", with_texts("riverside.conf", own))

    def reload(self):
        self.process.send_signal(signal.SIGHUP)


class Front(Started):
    """nginx of a machine for spectators, before that of a contest's machine, whose certificate is of a name."""

    def __init__(self, folder, behind, name, is_limited=True, workers=2):
        super().__init__(folder, "front.conf", workers, "spectators.example")
        shown = (lambda text: text) if is_limited else without_limits
        own = {
            "listen 443 ssl": f"listen 127.0.0.1:{self.port} ssl",
            "listen 80": f"listen 127.0.0.1:{free_port()}",
            "server contest.example:443": f"server 127.0.0.1:{behind.port}",
            "/var/lib/nginx/front": f"{folder}/front",
        }
        self.write("front.conf", shown(with_texts("front.conf", own)))
        self.write("desk/through.conf", shown(with_texts("through.conf", {"contest.example": name})))
        self.write("desk/contest.pem", (behind.folder / "desk/certificate.pem").read_text(encoding="utf-8"))
        self.start()


class Client:
    """One client, which keeps its connection."""

    def __init__(self, port, token=None, is_plain=False):
        kind = http.client.HTTPConnection if is_plain else http.client.HTTPSConnection
        self.client = kind("127.0.0.1", port, timeout=PATIENCE, **({} if is_plain else {"context": TRUSTING}))
        self.fields = {} if token is None else {"Authorization": f"Bearer {token}"}

    def ask(self, method, path, body=None, **fields):
        """Status, fields and body of a reply; a connection that was closed is opened anew once."""
        try:
            self.client.request(method, path, body, {**self.fields, **fields})
            answer = self.client.getresponse()
        except (http.client.RemoteDisconnected, BrokenPipeError, ConnectionResetError, ssl.SSLEOFError):
            self.client.close()
            self.client.request(method, path, body, {**self.fields, **fields})
            answer = self.client.getresponse()
        return answer.status, answer.headers, answer.read()

    def close(self):
        self.client.close()


def without_lookups(requests):
    """Requests as a desk gets them, but for those by which nginx asks whether a credential is an account's: these name an
    address and show a credential."""

    def is_lookup(sent):
        head = sent.partition(b"\r\n\r\n")[0].lower()
        return head.startswith(b"get /contests http/") and b"\r\nx-address:" in head and b"\r\nauthorization:" in head

    return [sent for sent in requests if not is_lookup(sent)]


def post_until_taken(port, team, number):
    """Posts until the desk has answered, as a page does; the reply, and how often nginx said that the desk is away, or
    a reply broke off."""
    client, away = Client(port, f"token-a{team}"), 0
    body = compact({**POSTED, "files": [{"data": base64.b64encode(f"{team} {number}".encode()).decode()}]})
    while away < 1_000:
        try:
            status, _, reply = client.ask("POST", f"{HERE}/submissions", body, **{"Idempotency-Key": f"k{number}"})
            if status != 503:
                return status, reply, away
        except http.client.IncompleteRead:
            client.close()
        away += 1
        time.sleep(0.02)
    return 0, b"", away
