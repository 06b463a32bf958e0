"""The pages of web/ before the demo contest, in a browser with a tab for each person."""

import contextlib
import functools
import json
import os
import pathlib
import sys
import tempfile
import threading

from . import demo
from .browsers import BACKS, BrowserError, CantDo
from .cutter import Breaker
from .led_nginx import LedNginx
from .nginx import Client, free_port
from .program import Program
from .server import Server

SIZES = {"wide": (1600, 900), "narrow": (390, 844)}
KEPT = "return Object.entries(sessionStorage).map((one) => one.join(' '))"
# Of so many failed cases a picture is kept. At the first so many lines of each log are told, none of them longer.
PICTURES, LINES, LONGEST_LINE = 3, 16, 300


def in_short(text):
    """A text in one line, which isn't too long."""
    return " ".join(str(text).split())[:LONGEST_LINE]


class Pages(Program):
    """The program behind nginx, and a browser. The clock stands at a moment. Pictures of the first failed cases are
    kept in the folder that the environment names as GATE_KEPT, or in a new one. What the console and nginx say is told.
    """

    FILES = demo.FILES
    BROWSERS = tuple(BACKS)
    MOMENT = "2024-03-02 09:05:00"

    def __init__(self, options, folder):
        self.browser, self.nginx, self.pictures, self.keeping = None, None, 0, threading.Lock()
        super().__init__(options, folder)
        self.place, self.port = demo.made(self, self.FILES), free_port()
        self.begin(self.MOMENT)
        self.nginx = LedNginx(self.new_folder(), {"demo": self.port})
        self.browser = BACKS[options.browser](self.new_folder(), self.nginx)
        self.program_file = folder / "main.cpp"
        self.program_file.write_text("int main() { /* é <b>bold</b> */ }\n", encoding="utf-8")

    def run_parts(self, parts):
        try:
            super().run_parts(parts)
        finally:
            self.tries("the browser's end", self.browser.end)

    def broke(self, what, error):
        super().broke(what, error)
        if isinstance(error, BrowserError):
            self.tries("pictures", lambda: self.shoot("failed"))

    def note(self, is_right, what):
        super().note(is_right, what)
        # What another thread keeps just then, or this one, needs no second picture.
        if not is_right and self.browser is not None and self.keeping.acquire(blocking=False):
            try:
                self.keep_failed()
            finally:
                self.keeping.release()

    def tries(self, what, does):
        """Does what tells of failures and is no case itself. If it fails that is told in a line; whether it didn't."""
        try:
            does()
        except Exception as error:
            print(f"  {what}: {type(error).__name__}: {in_short(error)}", flush=True)
            return False
        return True

    def keep_failed(self):
        """Keeps a picture of the page as it stands. A browser that makes none isn't asked again."""
        self.pictures += 1
        if self.pictures > PICTURES:
            return
        is_first = self.pictures == 1
        if not self.tries("no picture", self.keep_picture):
            self.pictures = PICTURES
        elif is_first:
            self.tell_last("the console", self.browser.console)
        if is_first:
            self.tell_last("nginx's error log", lambda: self.nginx.errors().splitlines())

    @functools.cached_property
    def pictures_folder(self):
        folder = pathlib.Path(os.environ.get("GATE_KEPT") or tempfile.mkdtemp(prefix="failed-pages-")).resolve()
        folder.mkdir(parents=True, exist_ok=True)
        return folder

    def keep_picture(self):
        browser = "" if self.browser.NAME == self.BROWSERS[0] else f"-{self.browser.NAME}"
        number = "" if self.pictures == 1 else f"-{self.pictures}"
        file = self.pictures_folder / f"{pathlib.Path(sys.argv[0]).stem}{browser}-failed{number}.png"
        file.write_bytes(self.browser.picture())
        print(f"  its picture: {file}", flush=True)

    def tell_last(self, what, log):
        """Prints the last lines of a log, if there is one."""

        def tell():
            lines = log()
            if lines is not None:
                print("\n    ".join([f"  {what}:", *map(in_short, lines[-LINES:])]), flush=True)

        self.tries(what, tell)

    @contextlib.contextmanager
    def if_it_can(self, what, count=1):
        """Checks, or so many, that count as left out where the browser has no way to do what they take."""
        try:
            yield
        except CantDo as error:
            self.skip(f"{what}: {error}", count)

    def begin(self, moment):
        """Starts the desk at a moment."""
        self.server = Server(self, self.place, port=str(self.port))
        self.at(moment)

    @contextlib.contextmanager
    def breaking(self, **how):
        """The desk goes on behind a server that answers posts by other bytes, such as replies that break off. Then it is away."""
        self.server.stop()
        port = free_port()
        self.server = Server(self, self.place, port=str(port))
        self.at(self.moment)
        breaker = Breaker(self.port, port, **how)
        yield breaker
        breaker.close()
        self.server.stop()

    def at(self, moment):
        self.moment = moment
        self.server.at(moment)

    def page(self, who, name):
        self.browser.look_at(who, f"https://127.0.0.1:{self.nginx.port}/demo/{name}.html")

    def sees(self, what, css, text):
        self.note(self.browser.shows(css, text), f"{what}: {css} shows {self.browser.text(css)!r}, wanted {text!r}")

    def lacks(self, what, css):
        self.note(self.browser.comes(lambda: self.browser.text(css) is None), f"{what}: {css} stays")

    def shoot(self, name):
        """Keeps pictures of the page that is looked at."""
        if self.options.shots == pathlib.Path():
            return
        self.options.shots.mkdir(parents=True, exist_ok=True)
        for kind, size in SIZES.items():
            self.browser.shot(self.options.shots / f"{name}-{kind}.png", *size)

    def sign_in(self, who, page, token):
        self.page(who, page)
        self.browser.type("#token", token)
        self.browser.click("#sign-in button")

    def sign_out(self):
        self.browser.click("#sign-out")
        is_out = self.browser.comes(lambda: self.browser.run("return !document.getElementById('sign-in').hidden"))
        self.note(is_out, "signed out")

    def kept(self):
        """What the tab keeps, each as a name and its value, but for what its account has read, sent, and when it was used."""
        return [one for one in self.browser.run(KEPT) if one.split()[1] not in ("read", "used", "own")]

    def keeps_nothing(self, what):
        self.same(what, self.browser.run(KEPT), [])

    def is_signed_in(self, what):
        is_in = self.browser.comes(lambda: self.browser.run("return !document.getElementById('inside').hidden"))
        self.note(is_in, f"{what}: nobody is signed in")

    def is_sure(self, what, question, answer="yes"):
        """The page asks once more, and is answered."""
        self.sees(what, "dialog", question)
        if self.browser.text("dialog") is not None:
            self.browser.click(f"dialog .{answer}")
        self.lacks(what, "dialog")

    def submits(self, problem, language="cpp", file=None):
        self.browser.choose("#problem", problem)
        self.browser.choose("#language", language)
        self.browser.give_file("#file", file or self.program_file)
        self.browser.click("#submit-button")

    def looks_anew(self, who):
        """Somebody loads a page anew, which then needn't wait for the next list."""
        self.browser.look_at(who)
        self.browser.reload()

    def is_there(self, css):
        return self.browser.run("return document.querySelector(arguments[0]) !== null", css)

    def looks_at(self, who, submission):
        """A judge looks at a submission that waits."""
        self.browser.look_at(who)
        if not self.is_there(f'[data-look="{submission}"]'):
            self.looks_anew(who)
        self.browser.click("#tab-Judging")
        self.browser.click(f'[data-look="{submission}"]')
        self.sees("the submission", "#verdict-title", f"{submission}, ")
        self.sees("the program", "#program", "int main() { /* é <b>bold</b> */ }")

    def chooses(self, verdict):
        self.browser.click(f'[data-verdict="{verdict}"]')

    def judges(self, who, submission, verdict, step):
        """A judge's verdict on the page."""
        self.looks_at(who, submission)
        self.chooses(verdict)
        self.browser.click(f"#{step}")

    def asks_desk(self, token, method, path, body=None):
        """What somebody is answered who asks without a page, through nginx."""
        client = Client(self.nginx.port, token)
        try:
            return client.ask(method, f"/demo/{path}", body)[2]
        finally:
            client.close()

    def listed(self, path, token="token-j1"):
        """What a judge is served, or another."""
        return json.loads(self.asks_desk(token, "GET", path))

    def posts(self, token, path, **value):
        return json.loads(self.asks_desk(token, "POST", path, json.dumps(value)))
