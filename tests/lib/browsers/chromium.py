"""Debian's chromium without a screen, driven by Debian's chromedriver, which also hands on Chromium's own commands (CDP)."""

import atexit
import base64
import re
import subprocess
import time

from ..program import line_of
from .common import PATIENCE, BrowserError, environment
from .webdriver import Driven

WORDS = [
    "--headless=new",
    "--no-sandbox",
    "--disable-gpu",
    "--disable-dev-shm-usage",
    "--window-size=1600,900",
    "--lang=en",
]


def port_of(driver):
    """The port that chromedriver tells."""
    end = time.monotonic() + PATIENCE
    while line := line_of(driver.stdout, end - time.monotonic()):
        if found := re.search(rb"successfully on port (\d+)", line):
            return int(found[1])
    raise BrowserError("chromedriver told no port")


class Chromium(Driven):
    NAME = "chromium"

    def __init__(self, folder, _nginx):
        super().__init__(folder)
        driver = subprocess.Popen(["chromedriver", "--port=0"], stdout=subprocess.PIPE, env=environment(folder))
        atexit.register(driver.terminate)
        options = {"args": WORDS, "binary": "/usr/bin/chromium"}
        wanted = {"browserName": "chrome", "goog:chromeOptions": options, "goog:loggingPrefs": {"browser": "ALL"}}
        self.begin(driver, port_of(driver), {**wanted, "acceptInsecureCerts": True})

    def tell(self, command, **values):
        return self.call("POST", "/goog/cdp/execute", {"cmd": command, "params": values})

    def as_wide_as(self, width, height, is_phone=None):
        """Shows the page as a screen of so many pixels does, until it is told to be as usual. A phone, as a narrow one is unless it
        is told not to be, shows what is too wide by making everything small."""
        is_phone = width < 600 if is_phone is None else is_phone
        self.tell("Emulation.setDeviceMetricsOverride", width=width, height=height, deviceScaleFactor=1, mobile=is_phone)
        self.is_as_wide_as(width)

    def as_usual(self):
        self.tell("Emulation.clearDeviceMetricsOverride")
        self.is_as_usual()

    def console(self):
        """A line for each of what pages have written to the console since this was asked last."""
        said = self.call("POST", "/se/log", {"type": "browser"})
        return [f"{one['level']}: {one['message']}" for one in said]

    def sheets(self):
        """How many sheets of paper the page takes."""
        return len(re.findall(rb"/Type /Page\b", base64.b64decode(self.call("POST", "/print", {}))))

    def shows_scheme(self, scheme):
        """Has the window look like a machine whose user chose bright or dark."""
        self.tell("Emulation.setEmulatedMedia", features=[{"name": "prefers-color-scheme", "value": scheme}])

    def shows_zone(self, zone):
        """Has the window look like a machine in a time zone."""
        self.tell("Emulation.setTimezoneOverride", timezoneId=zone)

    def spoken(self, role):
        """The names of what has a role, as a program that reads the page aloud is told them."""
        nodes = self.tell("Accessibility.getFullAXTree")["nodes"]
        shown = [one for one in nodes if not one["ignored"] and one["role"]["value"] == role]
        return [one["name"]["value"] for one in shown]

    def runs_first(self, script):
        """Has each page of the window run a script before its own."""
        self.tell("Page.addScriptToEvaluateOnNewDocument", source=script)

    def without(self, *paths):
        """Pages don't come by what ends so, until they may again."""
        if paths:
            self.tell("Network.enable")
        self.tell("Network.setBlockedURLs", urls=[f"*{path}" for path in paths])
