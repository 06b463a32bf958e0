"""Debian's WebKit in its MiniBrowser, on a screen that nobody sees (Xvfb), driven by Debian's WebKitWebDriver."""

import atexit
import os
import pathlib
import subprocess
import time
import urllib.request

from ..nginx import free_port
from ..program import line_of
from .by_nginx import Served
from .common import PATIENCE, environment, is_ended
from .theme import Theme
from .webdriver import ELEMENT, Driven

PLACES = pathlib.Path("/usr/lib/x86_64-linux-gnu")
SCREEN, SIZE = "4000x2400x24", (1600, 900)
# Whoever runs the tests may be root, as whom it can make no sandbox; and its bar of buttons may be as narrow as a phone.
OWN = {"WEBKIT_DISABLE_SANDBOX_THIS_IS_DANGEROUS": "1", "NO_AT_BRIDGE": "1", "GDK_BACKEND": "x11", "LC_ALL": "C"}
NARROW = "toolbar, toolbar *, headerbar, headerbar *, entry, button { min-width: 0; padding: 0; margin: 0; border: none; }\n"
SIZES = "return [innerWidth, innerHeight]"
IS_SCHEME = "return matchMedia(`(prefers-color-scheme: ${arguments[0]})`).matches"
TO_MIDDLE = "document.querySelector(arguments[0])?.scrollIntoView({ block: 'center' })"
LONG = 200
TAKE = """const field = document.querySelector(arguments[0]);
field.value = arguments[1];
field.dispatchEvent(new Event("input", { bubbles: true }));"""
DRAWN = "return new Promise((done) => requestAnimationFrame(() => requestAnimationFrame(done)))"
# Ends once the browser knows how a chosen file is, from where on it tells a change: it asks for that beside the page.
TAKEN = """const [file] = document.querySelector(arguments[0])?.files ?? [];
return file?.slice(0, 1).arrayBuffer().then(() => true, () => false);"""
BY_CONTENT = ("cell", "columnheader", "rowheader")


def screen(folder):
    """The name of a new screen, and its process."""
    reader, writer = os.pipe()
    words = ["Xvfb", "-displayfd", str(writer), "-screen", "0", SCREEN, "-nolisten", "tcp"]
    process = subprocess.Popen(words, pass_fds=[writer], stderr=subprocess.DEVNULL, env=environment(folder))
    atexit.register(process.terminate)
    os.close(writer)
    with os.fdopen(reader, "rb") as told:
        return f":{line_of(told).decode().strip()}", process


def is_ready(port):
    try:
        with urllib.request.urlopen(f"http://127.0.0.1:{port}/status", timeout=PATIENCE):
            return True
    except OSError:
        return False


class WebKit(Served, Driven):
    # It scrolls to a field once it draws the page, so by the next key.
    NAME, SCROLLED = "webkit", "keydown"

    def __init__(self, folder, nginx):
        super().__init__(folder, nginx)
        # Which window is looked at, and how large windows are with what is around their pages.
        self.shown, self.whole = None, SIZE
        (folder / ".config/gtk-3.0").mkdir(parents=True)
        (folder / ".config/gtk-3.0/gtk.css").write_text(NARROW, encoding="utf-8")
        display, self.screen = screen(folder)
        self.theme = Theme(display)
        port, env = free_port(), environment(folder, DISPLAY=display, XDG_RUNTIME_DIR=str(folder), **OWN)
        driver = subprocess.Popen(["WebKitWebDriver", f"--port={port}"], env=env)
        atexit.register(driver.terminate)
        self.until(lambda: is_ready(port), "WebKitWebDriver")
        binary, *_ = [*PLACES.glob("webkit2gtk-4.*/MiniBrowser"), "MiniBrowser"]
        options = {"binary": str(binary), "args": ["--automation"]}
        self.begin(driver, port, {"acceptInsecureCerts": True, "webkitgtk:browserOptions": options})

    def end(self):
        super().end()
        self.theme.end()
        self.screen.terminate()
        is_ended(self.screen)

    def new_window(self):
        """A window of its own, since a tab that is gone to isn't shown by that."""
        self.hide()
        handle = self.call("POST", "/window/new", {"type": "window"})["handle"]
        super().go_to(handle)
        self.shown = handle
        self.as_usual()
        return handle

    def go_to(self, window):
        """Goes to a window. The one before is hidden, as a tab is behind another."""
        if window == self.shown:
            super().go_to(window)
            return
        self.hide()
        super().go_to(window)
        self.shown = window
        self.take_size(*self.whole)
        self.until(lambda: self.run("return document.visibilityState") == "visible", "a window that is seen")

    def hide(self):
        """Hides the window that is looked at, if there is one."""
        if self.shown is not None:
            super().go_to(self.shown)
            self.call("POST", "/window/minimize", {})

    def run_here(self, script, *values):
        return Driven.run(self, script, *values)

    def find(self, css):
        """Finds an element that is to be filled, and brings it out from under the head of the page, where its driver fills none."""
        self.run_here(TO_MIDDLE, css)
        return super().find(css)

    def write(self, css, text):
        """Types a text. The driver takes long for each key, so all of a long text but its end is put into the field at once. It
        refuses to type nothing."""
        if len(text) > LONG:
            self.run_here(TAKE, css, text[:-LONG])
        if text:
            super().write(css, text[-LONG:])

    def press(self, *keys):
        """As a person does, who presses a key once what the one before did is drawn."""
        for key in keys:
            super().press(key)
            self.run_here(DRAWN)

    def give_file(self, css, file):
        Driven.write(self, css, str(file))
        self.run_here(TAKEN, css)

    def load(self, address):
        Driven.open(self, address)
        self.is_whole()

    def load_anew(self):
        Driven.reload(self)
        self.is_whole()

    def load_before(self):
        Driven.back(self)
        self.is_whole()

    def is_whole(self):
        """Waits for a page, for which the driver doesn't always wait."""
        self.until(lambda: self.run("return document.readyState") == "complete", "the whole page")

    def as_wide_as(self, width, height, is_phone=None):
        """Shows the page as a screen of so many pixels does, until it is told to be as usual."""
        self.take_size(width, height)
        wide, high = self.run(SIZES)
        self.whole = 2 * width - wide, 2 * height - high
        self.take_size(*self.whole)
        self.until(lambda: self.run(SIZES) == [width, height], f"a size of {width} by {height}")

    def take_size(self, width, height):
        """Gives the window a size with what is around the page."""
        self.call("POST", "/window/rect", {"x": 0, "y": 0, "width": width, "height": height})
        time.sleep(0.2)

    def as_usual(self):
        self.as_wide_as(*SIZE)

    def sheets(self):
        self.cannot("way to print")

    def shows_scheme(self, scheme):
        """Has the screen look like a machine whose user chose bright or dark."""
        self.theme.shows(scheme)
        self.until(lambda: self.run(IS_SCHEME, scheme), f"the colour scheme {scheme}")

    def shows_zone(self, _zone):
        self.cannot("time zone but the machine's")

    def spoken(self, role):
        """As in the other browsers; but it says nothing of what is named by what is in it alone."""
        if role in BY_CONTENT:
            self.cannot(f"name of a {role}")
        return super().spoken(role)

    def role_of(self, element):
        return self.call("GET", f"/element/{element[ELEMENT]}/computedrole")

    def label_of(self, element):
        return self.call("GET", f"/element/{element[ELEMENT]}/computedlabel")
