#!/usr/bin/env -S python3 -B
"""Has curl and Chromium trust the certificate that docs/GUIDE.md makes, by its own lines, and nothing beside it.

    desk_certificate.py

nginx serves the pages under a certificate that the guide's command makes for desk.example. It is no authority. Whoever trusts
nobody more than Debian does is refused. Whoever trusts it, as the guide says, has the page. A second server has a certificate
for bank.example that was signed with the same key, as somebody could make who came by `key.pem`: it is refused by all. With a
certificate that is an authority, as a control, it is let in.

Takes nginx, openssl, curl, chromium and certutil. Ends with the line `N passed, M failed`; the exit status is 0 if M is 0.
"""

import http.server
import os
import pathlib
import re
import shlex
import ssl
import subprocess
import sys
import tempfile
import threading

from lib import nginx
from lib.program import ran
from lib.tally import Tally

MACHINE, OTHER = "desk.example", "bank.example"
PLACE = "/usr/local/share/ca-certificates/desk.crt"
TRUST = re.search(r"^su - team -c '(.*certutil.*)'$", nginx.GUIDE, re.M)[1]
OF_DEBIAN = pathlib.Path("/etc/ssl/certs/ca-certificates.crt")
# What would make the same certificate one of an authority, which Chromium then trusts as one.
NO_AUTHORITY, IS_TRUSTED, AS_AUTHORITY = "-addext basicConstraints=critical,CA:FALSE ", "-t P,,", "-t C,,"
TITLE = "<title>Scoreboard</title>"
BROWSER = ["timeout", "180", "chromium", "--headless=new", "--no-sandbox", "--disable-gpu", "--disable-dev-shm-usage"]


class Page(http.server.BaseHTTPRequestHandler):
    """The page of another site."""

    def do_GET(self):
        self.send_response(200)
        self.end_headers()
        self.wfile.write(TITLE.encode())

    def log_message(self, *_):
        pass


def signed(folder, name):
    """A certificate for a name, signed with the machine's key, behind it the machine's own; and its key."""
    own, key, file = folder / "desk/certificate.pem", folder / f"{name}.key", folder / f"{name}.pem"
    (folder / "names").write_text(f"subjectAltName=DNS:{name}\n", encoding="utf-8")
    make = f"openssl req -newkey rsa:2048 -nodes -subj /CN={name} -keyout {key} | openssl x509 -req -CA {own} \
        -CAkey {folder}/desk/key.pem -set_serial 7 -days 10 -extfile {folder}/names -out {file}"
    subprocess.run(["bash", "-c", f"set -o pipefail; {make}"], check=True, capture_output=True)
    file.write_text(file.read_text(encoding="utf-8") + own.read_text(encoding="utf-8"), encoding="utf-8")
    return file, key


def other_site(folder):
    """The port of another site, with such a certificate."""
    server = http.server.ThreadingHTTPServer(("127.0.0.1", 0), Page)
    trusting = ssl.SSLContext(ssl.PROTOCOL_TLS_SERVER)
    trusting.load_cert_chain(*signed(folder, OTHER))
    server.socket = trusting.wrap_socket(server.socket, server_side=True)
    threading.Thread(target=server.serve_forever, daemon=True).start()
    return server.server_address[1]


class People:
    """A user of a machine of the teams, who may trust the certificate."""

    def __init__(self, home, certificate, trust):
        self.home, self.bundle = home, home / "bundle.pem"
        home.mkdir()
        added = certificate.read_bytes() if trust else b""
        # (this is what `update-ca-certificates` makes)
        self.bundle.write_bytes(OF_DEBIAN.read_bytes() + added)
        if trust:
            words = ["bash", "-c", trust.replace(PLACE, shlex.quote(str(certificate)))]
            subprocess.run(words, cwd=home, check=True, capture_output=True)

    def reaches(self, name, port):
        """Whether curl and Chromium show the page of a site."""
        url = f"https://{name}:{port}/demo/scoreboard.html"
        by_curl = ran(["curl", "-sS", "--cacert", self.bundle, "--resolve", f"{name}:{port}:127.0.0.1", url])
        words = [*BROWSER, f"--user-data-dir={self.home}/browser", "--host-resolver-rules=MAP * 127.0.0.1", "--dump-dom", url]
        by_chromium = ran(words, env={**os.environ, "HOME": str(self.home)})
        return TITLE.encode() in by_curl[1], TITLE.encode() in by_chromium[1]


class Certificates(Tally):
    def __init__(self, folder):
        super().__init__()
        self.folder = folder

    def tried(self, what, trust):
        """What of the machine and of the other site curl and Chromium show to a user."""
        folder = self.folder / what.replace(" ", "-")
        server = nginx.Nginx(folder, {"demo": nginx.free_port()}, name=MACHINE)
        people = People(folder / "home", folder / "desk/certificate.pem", trust)
        given = people.reaches(MACHINE, server.port), people.reaches(OTHER, other_site(folder))
        server.stop()
        return given


def try_guide(tally):
    """What the guide makes, for who trusts it and who doesn't."""
    tally.same("without trust", tally.tried("without trust", ""), ((False, False), (False, False)))
    tally.same("with trust", tally.tried("with trust", TRUST), ((True, True), (False, False)))
    said = ran(["openssl", "x509", "-noout", "-ext", "basicConstraints", "-in", tally.folder / "with-trust/desk/certificate.pem"])[1]
    tally.note(b"CA:FALSE" in said and b"CA:TRUE" not in said, f"the certificate: {said}")


def try_authority(tally):
    """A certificate of an authority, as a control: its key opens any other site."""
    tally.note(NO_AUTHORITY in nginx.CERTIFICATE and IS_TRUSTED in TRUST, "the guide makes another certificate")
    nginx.CERTIFICATE = nginx.CERTIFICATE.replace(NO_AUTHORITY, "")
    given = tally.tried("authority", TRUST.replace(IS_TRUSTED, AS_AUTHORITY))
    tally.same("with trust in an authority", given, ((True, True), (True, True)))


def main():
    with tempfile.TemporaryDirectory(ignore_cleanup_errors=True) as folder:
        tally = Certificates(pathlib.Path(folder))
        tally.run_parts((try_guide, try_authority))
        return tally.end()


if __name__ == "__main__":
    sys.exit(main())
