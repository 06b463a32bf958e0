"""What every browser of the page tests does: windows, clicks, keys, choices, and waiting. Each back says how its browser is
told so."""

import contextlib
import os
import pathlib
import re
import signal
import subprocess
import time

from ..program import PATIENCE

# Seconds for a command, such as a page that is loaded; and until what doesn't end by itself is killed.
COMMAND, ENDING = 180, 20
# Keys that write nothing, as WebDriver names them.
KEYS = {"Enter": "\ue007", "Escape": "\ue00c", "Tab": "\ue004", "Shift": "\ue008", "ArrowDown": "\ue015", "ArrowLeft": "\ue012",
        "ArrowRight": "\ue014", "PageUp": "\ue00e", "PageDown": "\ue00f", "Backspace": "\ue003"}  # fmt: skip
CLICK = """const at = document.querySelector(arguments[0]);
if (at === null || at.offsetParent === null || at.disabled) return false;
at.click();
return true;"""
CHOICE_OF_TEXT = """const at = document.querySelector(arguments[0]);
const found = [...(at?.options ?? [])].find((one) => one.text === arguments[1]);
if (!found) return false;
found.selected = true;
at.dispatchEvent(new Event('change'));
return true;"""
CHOICE = """const at = document.querySelector(arguments[0]);
if (at === null) return false;
at.value = arguments[1];
at.dispatchEvent(new Event('change'));
return at.tagName !== 'SELECT' || at.value === arguments[1];"""


class BrowserError(Exception):
    """The browser refused a command, or something isn't on a page in time."""


class CantDo(BrowserError):
    """What this browser has no way to do, by name."""


class Gone(BrowserError):
    """The browser has ended, or what drives it."""


def words_of(process):
    """The words by which a process was started, unless it has ended."""
    try:
        return (process / "cmdline").read_bytes()
    except OSError:
        return b""


def is_ended(process):
    """Waits until a process that was told to end has; one that doesn't is killed."""
    try:
        process.wait(ENDING)
    except subprocess.TimeoutExpired:
        process.kill()
        process.wait()


def environment(folder, **more):
    """What a browser finds around it. What it keeps lies in a folder."""
    return {**os.environ, "TZ": "UTC", "LC_ALL": "C.UTF-8", "TMPDIR": str(folder), "HOME": str(folder), **more}


class Browser:
    """A browser with windows, each with its own session. What it keeps lies in a folder.

    A back has: open, reload, back, run, new_window, go_to, clear, write, act, picture and end; and what not every browser can:
    as_wide_as, as_usual, sheets, shows_scheme, shows_zone, spoken, runs_first and without."""

    # SCROLLED: the event by which a page is scrolled to what a key has given the focus.
    NAME, SCROLLED = "", "focusin"

    def __init__(self, folder):
        self.folder, self.windows = folder, {}

    def cannot(self, what):
        raise CantDo(f"{self.NAME} has no {what}")

    def running(self):
        """The processes of the browser that still are, which may write to the folder."""
        folder = re.compile(re.escape(str(self.folder).encode()) + rb"(?!\d)")
        return [process for process in pathlib.Path("/proc").glob("[0-9]*") if folder.search(words_of(process))]

    def is_gone(self):
        """Waits until none of them is left; what doesn't end is killed."""
        end = time.monotonic() + ENDING
        while (left := self.running()) and time.monotonic() < end:
            time.sleep(0.1)
        for process in left:
            with contextlib.suppress(OSError):
                os.kill(int(process.name), signal.SIGKILL)

    def console(self):
        """What pages have written to the console since this was asked last; None, where the driver doesn't tell."""
        return None

    def look_at(self, name, address=None):
        """Goes to a window by its name, and opens an address in it."""
        if name not in self.windows:
            self.windows[name] = self.new_window()
        self.go_to(self.windows[name])
        if address is not None:
            self.open(address)

    def shot(self, file, width, height):
        """Keeps the page as a screen of so many pixels shows it."""
        self.as_wide_as(width, height)
        file.write_bytes(self.picture())
        self.as_usual()

    def is_as_wide_as(self, width):
        self.until(lambda: self.run("return innerWidth") == width, f"a width of {width}")

    def is_as_usual(self):
        self.until(lambda: self.run("return innerWidth") > 1000, "the usual width")

    def click(self, css):
        """Clicks on what is shown and not off. By a script: a mouse would miss it if the page moved just then."""
        self.until(lambda: self.run(CLICK, css), f"a click on {css}")

    def type(self, css, text):
        """Types a text in the place of what a field holds, once it is there."""
        self.until(lambda: self.clear(css) is None, f"the field {css}")
        self.write(css, text)

    def press(self, *keys):
        """Presses keys, one after the other, wherever the focus is, as a person does."""
        actions = [{"type": step, "value": KEYS.get(key, key)} for key in keys for step in ("keyDown", "keyUp")]
        self.act([{"type": "key", "id": "keys", "actions": actions}])

    def give_file(self, css, file):
        self.write(css, str(file))

    def choose(self, css, value):
        """Sets a field that no keys fill alike everywhere, once it takes the value."""
        self.until(lambda: self.run(CHOICE, css, value), f"{value} in {css}")

    def choose_text(self, css, text):
        """Chooses by the words that are shown, once they are there."""
        self.until(lambda: self.run(CHOICE_OF_TEXT, css, text), f"{text} in {css}")

    def text(self, css):
        return self.run("return document.querySelector(arguments[0])?.innerText ?? null", css)

    def until(self, is_so, what):
        """Waits until something is so; it is told if it never is."""
        end, last = time.monotonic() + PATIENCE, ""
        while time.monotonic() < end:
            try:
                if is_so():
                    return True
            except (CantDo, Gone):
                raise
            except BrowserError as error:
                last = str(error)
            time.sleep(0.1)
        raise BrowserError(f"{what} doesn't come {last}")

    def comes(self, is_so):
        """Whether something comes to be so within some seconds."""
        try:
            return self.until(is_so, "")
        except (CantDo, Gone):
            raise
        except BrowserError:
            return False

    def shows(self, css, text):
        """Whether an element comes to show a text."""
        return self.comes(lambda: text in (self.text(css) or ""))
