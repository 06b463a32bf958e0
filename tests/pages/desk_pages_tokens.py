#!/usr/bin/env -S python3 -B
"""Looks at how long the pages of web/ know a token, in a browser, and what stays of it; and at browsers that are too old.

    desk_pages_tokens.py [--program PATH] [--shots PATH] [--browser NAME]

The demo contest is served by the program behind Debian's nginx. A tab that a browser opens again asks for the token anew, unless a
page of it was open in the last ten minutes; then nothing is kept that only its account may know, but what waits for an answer is.
An open page counts as use, whichever it is. Who signs out is forgotten at once, and whoever signs in by another token begins with
nothing. A browser that lacks what the pages need is told so.

Takes nginx, openssl, chromium, chromium-driver and faketime. Ends with the line `N passed, M failed`; the exit status
is 0 if M is 0.
"""

import pathlib
import sys

from lib import demo, program
from lib.pages import KEPT, Pages

AT = "contests/demo"
# A page of the same place that runs no script, at which a tab stands as it was left.
QUIET = "shared/desk.css"
NAMED = "return sessionStorage.getItem('/demo/ ' + arguments[0])"
MINUTES_AGO = "sessionStorage.setItem('/demo/ used', String(Date.now() - arguments[0] * 60_000))"
FRESH = "return Math.abs(Date.now() - Number(sessionStorage.getItem('/demo/ used'))) < 20_000"
OLD = {"Map.groupBy": "delete Map.groupBy", "AbortSignal.timeout": "delete AbortSignal.timeout", "Object.hasOwn": "delete Object.hasOwn"}


class Tokens(Pages):
    FILES = {**demo.FILES, "accounts-csv": demo.FILES["accounts-csv"] + "o1,analyst,,token-o1\n"}

    def rests(self, minutes):
        """The tab is left for so many minutes, and opened again at a page."""
        self.browser.open(f"https://127.0.0.1:{self.nginx.port}/demo/{QUIET}")
        self.browser.run(MINUTES_AGO, minutes)

    def is_out(self, what):
        is_shown = self.browser.comes(lambda: self.browser.run("return !document.getElementById('sign-in').hidden"))
        self.note(is_shown, f"{what}: somebody is signed in")
        self.same(f"{what}: its token", self.browser.run(NAMED, "token"), None)


def try_old(pages):
    """A tab that was closed for longer than ten minutes asks for the token anew, whatever its page is."""
    for page, token in (("team", "token-a1"), ("jury", "token-j1"), ("ceremony", "token-o1"), ("balloons", "token-o1")):
        who = f"{page} again"
        pages.sign_in(who, page, token)
        pages.note(pages.browser.comes(lambda: pages.browser.run(NAMED, "used") is not None), f"{page}: its use is kept")
        pages.rests(9)
        pages.page(who, page)
        is_in = pages.browser.comes(lambda: pages.browser.run("return document.getElementById('sign-in').hidden"))
        pages.note(is_in, f"{page}, after nine minutes: nobody is signed in")
        pages.same(f"{page}, after nine minutes: its token", pages.browser.run(NAMED, "token"), token)
        pages.note(pages.browser.run(FRESH), f"{page}: an open page counts as use")
        pages.rests(11)
        pages.page(who, page)
        pages.is_out(f"{page}, after eleven minutes")
        pages.same(f"{page}: what is kept", pages.browser.run(KEPT), [])


def try_board(pages):
    """The scoreboard counts as use of the tab, too; and it ends an old session like the other pages."""
    pages.sign_in("at the board", "team", "token-a1")
    pages.is_signed_in("the team")
    pages.rests(9)
    pages.page("at the board", "scoreboard")
    pages.sees("the board", "#board", "Alpha")
    pages.note(pages.browser.run(FRESH), "an open board counts as use")
    pages.page("at the board", "team")
    pages.is_signed_in("back from the board")
    pages.rests(11)
    pages.page("at the board", "scoreboard")
    pages.sees("the board", "#board", "Alpha")
    pages.same("the token", pages.browser.run(NAMED, "token"), None)


def try_waiting(pages):
    """What waits for an answer stays while its token ends, and goes out once its account is there again."""
    pages.sign_in("waiting", "team", "token-a2")
    pages.sees("its board", "#board", "Alpha")
    pages.server.stop()
    pages.submits("a")
    pages.sees("it waits", "#told", "Sending ..")
    pages.rests(11)
    pages.begin(pages.moment)
    pages.page("waiting", "team")
    pages.is_out("after eleven minutes")
    pages.same("what is kept", [one.split()[1] for one in pages.browser.run(KEPT)], ["unanswered"])
    pages.browser.type("#token", "token-a2")
    pages.browser.click("#sign-in button")
    pages.sees("it goes out", "#told", "The desk has your submission s2-1.")


def try_signed_out(pages):
    """Who signs out is forgotten at once, with the programs that the tab had kept."""
    pages.note(any(" own program " in one for one in pages.browser.run(KEPT)), "a program is kept")
    pages.sign_out()
    pages.keeps_nothing("what the tab keeps")


def try_too_old(pages):
    """A browser that lacks something is told which versions do."""
    for name, taken in OLD.items():
        pages.browser.look_at(name)
        pages.browser.runs_first(taken)
        pages.page(name, "team")
        pages.sees(f"without {name}", "#too-old", "It takes Chromium, Chrome or Edge 117, Firefox 121, Safari 17.4")
    for page in ("team", "jury", "scoreboard", "balloons", "ceremony", "slips"):
        pages.page("new", page)
        pages.same(f"a new browser at {page}", pages.browser.run("return document.getElementById('too-old').hidden"), True)


PARTS = [try_old, try_board, try_waiting, try_signed_out, try_too_old]

if __name__ == "__main__":
    sys.exit(program.main(__doc__, Tokens, PARTS, program="desk", shots=pathlib.Path(), browser=Tokens.BROWSERS))
