#!/usr/bin/env -S python3 -B
"""Counts what the pages of web/ ask a desk for, in a browser, and how often.

    desk_pages_asking.py [--program PATH] [--shots PATH] [--browser NAME]

The demo contest is served by the program behind Debian's nginx. The pages of a team, of a judge and of an analyst ask for what
web/shared/timetable.js names, and for nothing else: lists of all submissions and judgements every 30 seconds, or every two minutes for a team of
which no submission waits, and not sooner but after a post of their own; the board every few seconds. A page that nobody looks at asks
every 30 seconds. After a desk that was away, and after
replies that broke off, they go on so. A token that was replaced gets them nothing.

Takes nginx, openssl, chromium, chromium-driver and faketime. Ends with the line `N passed, M failed`; the exit status
is 0 if M is 0.
"""

import itertools
import json
import pathlib
import sys
import time

from lib import demo, program
from lib.cutter import Cutter
from lib.pages import Pages
from lib.timetable import path_of, timetable

AT, LONG, SECONDS = "contests/demo", ("/submissions", "/judgements"), 30
PAGES = {"team": ("team", "token-a3"), "judge": ("jury", "token-j1"), "analyst": ("jury", "token-o1"), "hidden": ("team", "token-a2")}
# What a page asked for since it was loaded: each path at the desk with the moments, in seconds, by its own clock.
TIMES = """const found = {};
for (const { name, startTime } of performance.getEntriesByType("resource")) {
  const path = new URL(name).pathname.replace("/demo/", "/");
  if (/^\\/(contests|jury)/.test(path) && !path.includes(".")) (found[path] ??= []).push(startTime / 1000);
}
return found;"""
# All pages but one are looked at all the time: the browser shows but one of its tabs.
LOOKED_AT = """Object.defineProperty(document, "hidden", { get: () => %s });
performance.setResourceTimingBufferSize(5000);"""
NOW = "return performance.now() / 1000"
# What a page asks for once, before it shows anything; a judge's page also asks for what it opens.
ONCE = ["/contests", f"/{AT}/account", *(f"/{AT}/{name}" for name in ("problems", "languages", "teams", "groups", "judgement-types"))]
JUDGE_ONCE = [f"/{AT}/submissions/s3-1/files"]
TEAM_ONCE = [f"/{AT}/teams/t2", f"/{AT}/teams/t3"]
# Each page asks for it once more, before it shows anything and before each post.
STATE = f"/{AT}/state"


class Asking(Pages):
    FILES = {**demo.FILES, "init": demo.STARTED.replace('"duration"', '"verification":true,"duration"'),
             "accounts-csv": demo.FILES["accounts-csv"] + "o1,analyst,,token-o1\n"}  # fmt: skip

    def times(self, who):
        self.browser.look_at(who)
        return self.browser.run(TIMES)

    def beats(self, who):
        """The seconds of each path that a page is to ask for again and again. A submission of the team waits."""
        pace = "sooner" if who == "team" else "seconds"
        return {path_of("demo", path): beat.get(pace, beat["seconds"]) for beat in timetable()[PAGES[who][0]] for path in beat["paths"]}

    def asks_again(self, who, path, since):
        """A page asks for a path at once."""
        is_so = self.browser.comes(lambda: any(one > since for one in self.browser.run(TIMES).get(path, [])))
        self.note(is_so, f"{who} doesn't ask for {path} after {since:.1f} s")


def try_names(pages):
    """What the bench reads in web/shared/timetable.js is what the pages do."""
    value = {"problem_id": "b", "language_id": "cpp", "files": [{"data": "eA=="}]}
    pages.same("what waits", pages.posts("token-a3", f"{AT}/submissions", **value)["id"], "s3-1")
    for who, (page, token) in PAGES.items():
        pages.browser.look_at(who)
        source = LOOKED_AT % json.dumps(who == "hidden")
        pages.browser.runs_first(source)
        pages.sign_in(who, page, token)
        pages.sees(who, "#board", "Alpha")
    said = pages.browser.run("return import('./shared/timetable.js').then(({ TIMETABLE }) => TIMETABLE)")
    pages.same("what is asked", timetable(), said)


def gaps_of(times):
    return [later - sooner for sooner, later in itertools.pairwise(times)]


def try_pace(pages):
    """Each path as often as it is said, for 31 seconds; and no other one."""
    time.sleep(SECONDS + 3)
    for who in PAGES:
        times, beats = pages.times(who), pages.beats(who)
        others = sorted(set(times) - set(beats) - set(ONCE) - set(TEAM_ONCE) - set(JUDGE_ONCE) - {STATE})
        pages.same(f"what else {who} asks for", others, [])
        for path, seconds in beats.items():
            pace, found = max(seconds, SECONDS) if who == "hidden" else seconds, times.get(path, [])[path == STATE :]
            gaps = gaps_of(found)
            pages.note(len(found) >= (2 if pace <= SECONDS else 1), f"{who} asks for {path} at {found}")
            is_right = all(0.85 * pace <= gap <= 1.15 * pace + 1 for gap in gaps)
            pages.note(is_right, f"{who} asks for {path} after {[round(gap, 1) for gap in gaps]} s, wanted {pace}")
            if path.endswith(LONG):
                pages.note(min(gaps, default=SECONDS) >= SECONDS - 0.1, f"{who} asks for {path} after {gaps} s")
        if PAGES[who][0] == "team":
            pages.same(f"how often {who} asks for the state", len(times[STATE]), 1)
        for path in set(ONCE) & set(times):
            pages.same(f"how often {who} asks for {path}", len(times[path]), 1)


def try_post(pages):
    """After a post of its own a page asks for the long lists at once, and nobody else's does."""
    browser = pages.browser
    before = {who: pages.times(who) for who in PAGES}
    browser.look_at("team")
    since = browser.run(NOW)
    pages.submits("a")
    pages.sees("a post", "#told", "The desk has your submission s3-2.")
    for name in LONG:
        pages.asks_again("team", f"/{AT}{name}", since)
    pages.sees("what was posted", '[data-id="s3-2"]', "waits")
    counts = {who: len(pages.times(who)[f"/{AT}/judgements"]) - len(before[who][f"/{AT}/judgements"]) for who in PAGES}
    pages.note(counts["team"] == 1 and all(count <= 1 for count in counts.values()), f"lists asked for meanwhile: {counts}")
    browser.look_at("judge")
    browser.reload()
    pages.sees("what is open", "#verdict-title", "s3-1, ")
    since = browser.run(NOW)
    pages.chooses("WA")
    browser.click("#propose")
    pages.sees("a verdict", "#told", "s3-1: WA is proposed.")
    for name in LONG:
        pages.asks_again("judge", f"/{AT}{name}", since)


def try_away(pages):
    """A desk that is away, and replies that break off: pages ask on, and show what is there once it is back."""
    browser = pages.browser
    browser.look_at("team")
    pages.server.stop()
    cutter = Cutter(pages.port)
    pages.sees("replies that break off", "#away", "The desk doesn't answer at the moment.")
    cutter.close()
    pages.begin(pages.moment)
    pages.lacks("the desk is back", "#away:not([hidden])")
    since = browser.run(NOW)
    pages.asks_again("team", f"/{AT}/scoreboard", since)
    browser.look_at("part")
    browser.without("/judgements")
    pages.sign_in("part", "team", "token-a2")
    pages.sees("a page of which a part doesn't come", "#away", "The desk doesn't answer at the moment.")
    time.sleep(SECONDS / 5)
    pages.same("what it shows", browser.text("#board"), "")
    browser.without()
    pages.sees("all of it", "#board", "Alpha")
    pages.lacks("all of it", "#away:not([hidden])")


def try_token(pages):
    """A token that was replaced: the page says so, and shows nothing that came since."""
    browser = pages.browser
    browser.look_at("team")
    pages.asks_desk("token-adm", "POST", "jury/tokens", json.dumps({"account_id": "a3", "token": "token-new-a3"}))
    pages.sees("the old token", "#away", "No account has this token.")
    pages.posts("token-j1", f"{AT}/clarifications", text="Not for the old token.")
    time.sleep(6)
    pages.same("what it shows", browser.text("#clarifications"), "")


PARTS = [try_names, try_pace, try_post, try_away, try_token]

if __name__ == "__main__":
    sys.exit(program.main(__doc__, Asking, PARTS, program="desk", shots=pathlib.Path(), browser=Asking.BROWSERS))
