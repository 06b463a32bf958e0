"""A browser that is told what to do by the WebDriver protocol (W3C) over HTTP."""

import base64
import http.client
import json
import urllib.error
import urllib.request

from .common import COMMAND, Browser, BrowserError, Gone, is_ended

ELEMENT = "element-6066-11e4-a52e-4f735466cecf"


def told_in(error):
    """The name of what a driver says of a command that it refuses, and that in words."""
    try:
        told = json.load(error)["value"]
        return told["error"], told["message"] or told["error"]
    except (OSError, http.client.HTTPException, ValueError, KeyError, TypeError):
        return "", str(error)


class Driven(Browser):
    """A browser behind a driver, which is a process of its own."""

    def begin(self, driver, port, wanted):
        """Has the driver at a port start a browser."""
        self.driver, self.base = driver, f"http://127.0.0.1:{port}"
        self.base += f"/session/{self.call('POST', '/session', {'capabilities': {'alwaysMatch': wanted}})['sessionId']}"

    def end(self):
        try:
            self.call("DELETE", "")
        except BrowserError:
            pass
        self.driver.terminate()
        is_ended(self.driver)
        self.is_gone()

    def call(self, method, path, value=None):
        body = None if value is None else json.dumps(value).encode()
        request = urllib.request.Request(self.base + path, body, {"Content-Type": "application/json"}, method=method)
        try:
            with urllib.request.urlopen(request, timeout=COMMAND) as reply:
                return json.load(reply)["value"]
        except urllib.error.HTTPError as error:
            name, words = told_in(error)
            raise (Gone if name == "invalid session id" else BrowserError)(f"{method} {path}: {words}") from None
        except (OSError, http.client.HTTPException, ValueError) as error:
            is_refused = isinstance(getattr(error, "reason", error), ConnectionRefusedError)
            raise (Gone if is_refused else BrowserError)(f"{method} {path}: {type(error).__name__}: {error}") from None

    def new_window(self):
        return self.call("POST", "/window/new", {"type": "tab"})["handle"]

    def go_to(self, window):
        self.call("POST", "/window", {"handle": window})

    def open(self, address):
        self.call("POST", "/url", {"url": address})

    def reload(self):
        self.call("POST", "/refresh", {})

    def back(self):
        self.call("POST", "/back", {})

    def run(self, script, *values):
        return self.call("POST", "/execute/sync", {"script": script, "args": list(values)})

    def find(self, css):
        return "/element/" + self.call("POST", "/element", {"using": "css selector", "value": css})[ELEMENT]

    def clear(self, css):
        return self.call("POST", self.find(css) + "/clear", {})

    def write(self, css, text):
        self.call("POST", self.find(css) + "/value", {"text": text})

    def act(self, actions):
        self.call("POST", "/actions", {"actions": actions})

    def picture(self):
        return base64.b64decode(self.call("GET", "/screenshot"))
