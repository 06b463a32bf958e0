#!/usr/bin/env -S python3 -B
"""Looks at what a team is told on its page of web/, in a browser: who it is, what is new, and what it has read.

    desk_pages_team.py [--program PATH] [--shots PATH] [--browser NAME]

The demo contest is served by the program behind Debian's nginx. The page names the team as soon as it shows anything. What the jury
writes, and each verdict, is counted in the title and marked until it is read, also on a page that is loaded anew or that nobody looks
at, and the newest word of the jury is on a screen of 1366 by 768 beside sixteen submissions. A verdict is told within 30 seconds. A
desk that is away, a reply that breaks off, a second tab and a token that is replaced lose nothing of it.

Takes nginx, openssl, chromium, chromium-driver and faketime. Ends with the line `N passed, M failed`; the exit status
is 0 if M is 0.
"""

import base64
import json
import pathlib
import sys
import time

from lib import program
from lib.cutter import Cutter
from lib.pages import Pages

AT, SCREEN, COUNT, SECONDS = "contests/demo", (1366, 768), 16, 30
# What a page says of who is signed in when it shows what is behind the form, kept by the page itself.
WATCH = """addEventListener("DOMContentLoaded", () => {
  const inside = document.getElementById("inside");
  if (inside === null) return;
  new MutationObserver(() => { window.first ??= document.getElementById("who").innerText; })
    .observe(inside, { attributeFilter: ["hidden"] });
});"""
# Whether the newest word of the jury is on the screen, below the head, and above the submissions.
ON_SCREEN = """const box = (css) => document.querySelector(css).getBoundingClientRect();
const word = box("#clarifications li"), head = box("header"), rows = box("#submissions");
return [word.top >= head.bottom, word.bottom <= innerHeight, word.bottom <= rows.top];"""
NEW = "return [...document.querySelectorAll('[data-read]')].map((one) => one.closest('[data-id]').dataset.id)"
FOCUS = "return document.activeElement.closest('[data-id]')?.dataset.id ?? document.activeElement.id"


class Team(Pages):
    def submit(self, team, problem="a"):
        value = {"problem_id": problem, "language_id": "cpp", "files": [{"data": base64.b64encode(b"x").decode()}]}
        return self.posts(f"token-a{team}", f"{AT}/submissions", **value)["id"]

    def says(self, text, **to):
        """A word of the jury; its id."""
        return self.posts("token-j1", f"{AT}/clarifications", text=text, **to)["id"]

    def judge(self, submission, verdict):
        self.posts("token-j1", "jury/proposals", submission_id=submission, judgement_type_id=verdict)

    def title(self):
        return self.browser.run("return document.title")

    def is_titled(self, what, title):
        self.note(self.browser.comes(lambda: self.title() == title), f"{what}: the title is {self.title()!r}, wanted {title!r}")

    def marks(self, what, wanted):
        """What is marked as new."""
        self.browser.comes(lambda: sorted(self.browser.run(NEW)) == sorted(wanted))
        self.same(f"{what}: what is new", sorted(self.browser.run(NEW)), sorted(wanted))

    def enters(self, who, token):
        self.sign_in(who, "team", token)
        self.sees(who, "#board", "Alpha")


def try_name(pages):
    """The page says from its first moment whose it is."""
    browser = pages.browser
    browser.look_at("alpha")
    browser.runs_first(WATCH)
    pages.enters("alpha", "token-a1")
    pages.same("who is signed in at first", browser.run("return window.first"), "Alpha")
    browser.reload()
    pages.sees("loaded anew", "#board", "Alpha")
    pages.same("who is signed in when it is loaded anew", browser.run("return window.first"), "Alpha")
    pages.is_titled("nothing is new", "Demo Cup")


def try_words(pages):
    """Words of the jury are new until they are read, also on a page that is loaded anew."""
    browser = pages.browser
    for _ in range(COUNT):
        pages.submit(1)
    browser.reload()
    pages.sees("its submissions", "#submissions", f"s1-{COUNT}")
    first = pages.says("Water is in the hall.")
    pages.is_titled("a word to all", "(1) Demo Cup")
    second, _ = pages.says("The sample of B is wrong. <b>Use the new one.</b>", problem_id="b"), pages.says("For Beta.", to_team_id="t2")
    pages.is_titled("two words", "(2) Demo Cup")
    pages.sees("the newest", "#news-words", "2 new. The jury: The sample of B is wrong. <b>Use the new one.</b>")
    pages.marks("two words", [first, second])
    browser.as_wide_as(*SCREEN)
    pages.same("the newest word is on the screen", browser.run(ON_SCREEN), [True, True, True])
    pages.shoot("team-news")
    browser.as_usual()
    browser.reload()
    pages.is_titled("a page that is loaded anew", "(2) Demo Cup")
    browser.click("#news-look")
    pages.same("what is looked at", browser.run(FOCUS), second)
    browser.press("Enter")
    pages.is_titled("one is read", "(1) Demo Cup")
    pages.same("what is looked at then", browser.run(FOCUS), first)
    browser.press("Enter")
    pages.is_titled("all is read", "Demo Cup")
    pages.marks("all is read", [])
    pages.same("where the focus goes", browser.run(FOCUS), "news-rest")
    browser.reload()
    pages.sees("loaded anew", "#submissions", f"s1-{COUNT}")
    pages.marks("loaded anew", [])


def try_verdicts(pages):
    """A verdict is told within half a minute, also by the title of a page that nobody looks at."""
    browser = pages.browser
    pages.enters("hidden", "token-a1")
    pages.marks("a second tab", ["g-1", "g-2"])
    pages.is_titled("a second tab", "(2) Demo Cup")
    browser.run("Object.defineProperty(document, 'hidden', { get: () => true })")
    browser.look_at("alpha")
    began = time.monotonic()
    pages.judge("s1-1", "WA")
    while "s1-1: WA" not in (browser.text("#news-words") or "") and time.monotonic() < began + SECONDS + 10:
        time.sleep(0.5)
    took = time.monotonic() - began
    pages.note(took <= SECONDS + 2, f"the verdict was told after {took:.0f} s")
    pages.is_titled("a verdict", "(1) Demo Cup")
    pages.sees("its row", '#submissions .new[data-id="s1-1"]', "WA: wrong answer")
    browser.look_at("hidden")
    pages.is_titled("a page that nobody looks at", "(3) Demo Cup")
    pages.marks("a page that nobody looks at", ["g-1", "g-2", "s1-1"])
    browser.look_at("alpha")
    pages.marks("what is read in one tab is read in that alone", ["s1-1"])
    browser.click('#submissions [data-read]')
    pages.is_titled("it is read", "Demo Cup")
    rejudging = pages.posts("token-j1", "jury/rejudgings", reason="0 is allowed", submission_ids=["s1-1"])["id"]
    pages.posts("token-j1", f"jury/rejudgings/{rejudging}/verdicts", submission_id="s1-1", judgement_type_id="AC")
    pages.asks_desk("token-j1", "POST", f"jury/rejudgings/{rejudging}/apply", "")
    browser.reload()
    pages.sees("another verdict is new again", "#news-words", "1 new. s1-1: AC: correct")


def try_away(pages):
    """A desk that is away, and replies that break off: what is new comes once it is there again."""
    browser = pages.browser
    browser.look_at("alpha")
    pages.server.stop()
    cutter = Cutter(pages.port)
    pages.sees("replies that break off", "#away", "The desk doesn't answer at the moment.")
    cutter.close()
    pages.begin("2024-03-02 09:06:00")
    pages.says("The desk is back.")
    pages.sees("what came since", "#news-words", "2 new. The jury: The desk is back.")
    pages.lacks("a desk that is there", "#away:not([hidden])")


def try_token(pages):
    """A token that is replaced: the page says so; by the new one all words are new again, and another team reads its own."""
    browser = pages.browser
    pages.asks_desk("token-adm", "POST", "jury/tokens", json.dumps({"account_id": "a1", "token": "token-new-a1"}))
    pages.sees("the old token", "#away", "No account has this token.")
    pages.sign_out()
    pages.keeps_nothing("what the tab keeps")
    browser.type("#token", "token-new-a1")
    browser.click("#sign-in button")
    pages.is_titled("by the new token", "(3) Demo Cup")
    pages.marks("by the new token", ["g-1", "g-2", "g-3"])
    pages.sign_out()
    browser.type("#token", "token-a2")
    browser.click("#sign-in button")
    pages.sees("who is signed in", "#who", "Beta")
    pages.marks("another team", ["c2-1", "g-1", "g-2", "g-3"])


PARTS = [try_name, try_words, try_verdicts, try_away, try_token]

if __name__ == "__main__":
    sys.exit(program.main(__doc__, Team, PARTS, program="desk", shots=pathlib.Path(), browser=Team.BROWSERS))
