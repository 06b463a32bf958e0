"""Debian's firefox-esr without a screen, driven at its own port. What pages can't be told from within, its own windows can."""

import atexit
import base64
import re
import subprocess
import time
import zlib

from ..nginx import free_port
from .by_nginx import Served
from .common import PATIENCE, BrowserError, environment, is_ended
from .marionette import Marionette
from .webdriver import ELEMENT

SIZE = {"width": 1600, "height": 986}
# It lends a page room of its storage ahead, which it takes back some seconds later: then a full storage isn't full. None is lent.
SETTINGS = """user_pref("marionette.port", %d);
user_pref("dom.storage.snapshot_peak_usage.initial_preincrement", 0);
user_pref("dom.storage.snapshot_peak_usage.reduced_initial_preincrement", 0);
user_pref("dom.storage.snapshot_peak_usage.gradual_preincrement", 0);
user_pref("dom.storage.snapshot_peak_usage.reduced_gradual_preincrement", 0);
user_pref("browser.tabs.unloadOnLowMemory", false);
user_pref("browser.shell.checkDefaultBrowser", false);
"""
# A page in a tab has the size that its part of the window is given; "" is as large as that is.
FIT = """const { style } = gBrowser.selectedBrowser;
[style.minWidth, style.maxWidth, style.minHeight, style.maxHeight] = [arguments[0], arguments[0], arguments[1], arguments[1]];"""
# What a script comes to, in an array, which is never null.
ANSWERED = """const value = (function () {
%s
}).apply(null, arguments);
return typeof value?.then === "function" ? value.then((one) => [one]) : [value];"""
# Whether nothing of the page has the focus; and what puts it before all that can have it.
IS_AWAY = "return document.activeElement === document.body || !document.hasFocus()"
TO_TOP = """const { body } = document;
body.tabIndex = -1;
body.focus({ preventScroll: true });
body.removeAttribute("tabindex");"""
SCHEME = "gBrowser.selectedBrowser.browsingContext.top.prefersColorSchemeOverride = arguments[0]"
ZONE = "gBrowser.selectedBrowser.browsingContext.top.timezoneOverride = arguments[0]"


def sheets_of(pdf):
    """How many pages a file has, which keeps what tells of them packed."""
    found = 0
    for piece in re.findall(rb"stream\r?\n(.*?)\r?\nendstream", pdf, re.S):
        try:
            found += len(re.findall(rb"/Type /Page\b", zlib.decompress(piece)))
        except zlib.error:
            continue
    return found + len(re.findall(rb"/Type /Page\b", pdf))


class Firefox(Served):
    NAME = "firefox"

    def __init__(self, folder, nginx):
        super().__init__(folder, nginx)
        port = free_port()
        (folder / "user.js").write_text(SETTINGS % port, encoding="utf-8")
        words = ["firefox-esr", "--marionette", "--remote-allow-system-access", "--headless", "--profile", str(folder)]
        silent = {"stdout": subprocess.DEVNULL, "stderr": subprocess.DEVNULL}
        self.process = subprocess.Popen(words, env=environment(folder), **silent)
        atexit.register(self.process.terminate)
        self.port = Marionette(port)
        self.port.tell("WebDriver:NewSession", acceptInsecureCerts=True)
        self.port.tell("WebDriver:SetWindowRect", **SIZE)

    def end(self):
        try:
            self.port.tell("Marionette:Quit", flags=["eForceQuit"])
        except (BrowserError, OSError):
            self.process.terminate()
        is_ended(self.process)
        self.is_gone()

    def new_window(self):
        return self.port.tell("WebDriver:NewWindow", type="tab")["handle"]

    def go_to(self, window):
        self.port.tell("WebDriver:SwitchToWindow", handle=window)

    def load(self, address):
        self.port.tell("WebDriver:Navigate", url=address)

    def load_anew(self):
        self.port.tell("WebDriver:Refresh")

    def load_before(self):
        self.port.tell("WebDriver:Back")

    def run_here(self, script, *values):
        """Runs a script. One of a page that is left just then is answered by null, and runs in the page that comes."""
        end = time.monotonic() + PATIENCE
        while time.monotonic() < end:
            answered = self.port.value("WebDriver:ExecuteScript", script=ANSWERED % script, args=list(values))
            if answered is not None:
                return answered[0]
            time.sleep(0.1)
        raise BrowserError("no page answers a script")

    def run_within(self, script, *values):
        """Runs a script in the window around the pages."""
        self.port.tell("Marionette:SetContext", value="chrome")
        try:
            return self.run_here(script, *values)
        finally:
            self.port.tell("Marionette:SetContext", value="content")

    def find(self, css):
        return self.port.value("WebDriver:FindElement", using="css selector", value=css)[ELEMENT]

    def clear(self, css):
        return self.port.value("WebDriver:ElementClear", id=self.find(css))

    def write(self, css, text):
        self.port.tell("WebDriver:ElementSendKeys", id=self.find(css), text=text)

    def press(self, *keys):
        """Behind the last of a page Tab goes to the window around it, where no key goes. So it comes back from there at once."""
        for key in keys:
            super().press(key)
            if key == "Tab" and self.run_here(IS_AWAY):
                self.run_within("gBrowser.selectedBrowser.focus()")
                self.run_here(TO_TOP)
                super().press(key)

    def act(self, actions):
        self.port.tell("WebDriver:PerformActions", actions=actions)

    def picture(self):
        return base64.b64decode(self.port.value("WebDriver:TakeScreenshot", full=False))

    def as_wide_as(self, width, height, is_phone=None):
        """Shows the page as a screen of so many pixels does, until it is told to be as usual."""
        self.port.tell("WebDriver:SetWindowRect", width=max(width, 1600), height=height + 100)
        self.run_within(FIT, f"{width}px", f"{height}px")
        self.is_as_wide_as(width)

    def as_usual(self):
        self.run_within(FIT, "", "")
        self.port.tell("WebDriver:SetWindowRect", **SIZE)
        self.is_as_usual()

    def sheets(self):
        """How many sheets of paper the page takes."""
        return sheets_of(base64.b64decode(self.port.value("WebDriver:Print")))

    def shows_scheme(self, scheme):
        """Has the window look like a machine whose user chose bright or dark."""
        self.run_within(SCHEME, scheme)

    def shows_zone(self, zone):
        """Has the window look like a machine in a time zone."""
        self.run_within(ZONE, zone)

    def role_of(self, element):
        return self.port.value("WebDriver:GetComputedRole", id=element[ELEMENT])

    def label_of(self, element):
        return self.port.value("WebDriver:GetComputedLabel", id=element[ELEMENT])
