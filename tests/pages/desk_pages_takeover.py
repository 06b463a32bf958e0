#!/usr/bin/env -S python3 -B
"""Takes over a contest from an older copy while its pages are open in a browser, and makes it anew, and looks at what they do.

    desk_pages_takeover.py [--program PATH] [--shots PATH] [--browser NAME]

Two desks of the demo contest with verification went on from one copy, so ids that both gave are of other submissions, questions and
rejudgings. The first is served by the program behind Debian's nginx; then the second is in its place, at the same address. No
verdict that was chosen on a page, nor one that waited while no desk was there, is given to what has the id now: not as a proposal,
not as a verification, not in a rejudging; and no answer goes to another question. The team is told which of its programs are gone,
and sends one again; the jury is told which submissions are gone. Then the contest is made anew, and one of another id is served:
each page says so, and nothing that was for the one before is sent to it.

Takes nginx, openssl, chromium, chromium-driver and faketime. Ends with the line `N passed, M failed`; the exit status
is 0 if M is 0.
"""

import base64
import json
import pathlib
import shutil
import sys
import urllib.request

from lib import demo, program
from lib.nginx import free_port
from lib.pages import Pages
from lib.program import PATIENCE
from lib.server import Server

AT = "contests/demo"
FILES = {**demo.FILES, "init": demo.STARTED.replace('"duration"', '"verification":true,"duration"')}
ANEW = FILES["init"].replace("09:00:00", "09:30:00")
CHOSEN = "return document.querySelector('#verdict-types :checked')?.value ?? null"
LEFT = "return [...document.querySelectorAll('#left-list li')].map((one) => one.innerText)"


class Desk:
    """A desk without nginx, asked as programs do, at a moment of its own."""

    def __init__(self, pages):
        self.pages, self.server = pages, Server(pages, pages.place, port=str(free_port()))

    def at(self, moment):
        self.server.at(f"2024-03-02 {moment}")

    def post(self, account, path, **value):
        request = urllib.request.Request(f"http://127.0.0.1:{self.server.port}/{path}", json.dumps(value).encode())
        request.add_header("Authorization", f"Bearer token-{account}")
        with urllib.request.urlopen(request, timeout=PATIENCE) as reply:
            return json.load(reply)

    def submit(self, account, problem):
        text = f"// {problem} by {account}\n"
        data = base64.b64encode(text.encode()).decode()
        value = {"problem_id": problem, "language_id": "cpp", "files": [{"data": data}]}
        return self.post(account, f"{AT}/submissions", **value)["id"]

    def judge(self, submission, verdict):
        for judge, step in (("j1", "proposals"), ("j2", "verifications")):
            self.post(judge, f"jury/{step}", submission_id=submission, judgement_type_id=verdict)

    def rejudge(self, submission, reason):
        return self.post("j1", "jury/rejudgings", submission_ids=[submission], reason=reason)["id"]


class TakeOver(Pages):
    FILES = FILES

    def keep_file(self, name, place=None):
        """Keeps the contest's file and its log, of a desk that has ended."""
        (self.folder / name).mkdir()
        for file in (place or self.place).glob("cup.db*"):
            shutil.copy(file, self.folder / name)

    def put_file(self, name):
        for file in self.place.glob("cup.db*"):
            file.unlink()
        for file in (self.folder / name).glob("cup.db*"):
            shutil.copy(file, self.place)

    def take_over(self, name, moment="09:40:00"):
        """Another desk in the place of the one that is served, or was."""
        if self.server.process.poll() is None:
            self.server.stop()
        self.put_file(name)
        self.begin(f"2024-03-02 {moment}")

    def goes_away(self):
        self.server.stop()

    def makes(self, name, front, fill):
        """A file of a name, that goes on from another one."""
        self.put_file(front)
        desk = Desk(self)
        fill(desk)
        desk.server.stop()
        self.keep_file(name)

    def is_unjudged(self, what):
        """Nobody has judged, or proposed anything for, what the second desk has."""
        found = [(one["submission_id"], one["account_id"]) for one in self.listed("jury/proposals")]
        self.same(f"{what}: proposals", found, [("s3-1", "j1")])
        self.same(f"{what}: verdicts", len(self.listed(f"{AT}/judgements")), 2)

    def opens(self, who, submission):
        self.looks_anew(who)
        self.browser.click("#tab-Judging")
        self.browser.click(f'[data-look="{submission}"]')
        self.sees("what is open", "#verdict-title", f"{submission}, ")

    def left(self, what, words):
        """What a page says isn't at the desk."""
        is_said = self.browser.comes(lambda: any(words in one for one in self.browser.run(LEFT)))
        self.note(is_said, f"{what}: {self.browser.run(LEFT)}, wanted {words!r}")


def fill_first(desk):
    """What the first desk has after the copy."""
    desk.at("09:10:00")
    desk.submit("a1", "a")
    desk.submit("a2", "a")
    desk.submit("a3", "a")
    desk.post("j1", "jury/proposals", submission_id="s3-1", judgement_type_id="AC")
    desk.post("a1", f"{AT}/clarifications", text="Is 0 allowed?")
    desk.rejudge("s2-1", "0 is allowed")


def fill_second(desk):
    """What the second one has: the same ids, of others."""
    desk.at("09:20:00")
    desk.submit("a1", "b")
    desk.submit("a3", "b")
    desk.post("j1", "jury/proposals", submission_id="s3-1", judgement_type_id="AC")
    desk.post("a1", f"{AT}/clarifications", text="Is the input sorted?")
    desk.rejudge("s2-1", "the limit was wrong")


def fill_copy(desk):
    desk.at("09:05:00")
    desk.submit("a1", "a")
    desk.submit("a2", "b")
    desk.judge("s1-1", "AC")
    desk.judge("s2-1", "WA")


def try_files(pages):
    """The copy, and what two desks made of it."""
    pages.server.stop()
    pages.keep_file("empty")
    pages.makes("copy", "empty", fill_copy)
    pages.makes("first", "copy", fill_first)
    pages.makes("second", "copy", fill_second)
    pages.take_over("first")
    pages.same("what both have", len(pages.listed(f"{AT}/submissions")), 5)


def try_open(pages):
    """A submission that is open when the desk is taken over: its verdict isn't given to another one, which opens instead."""
    browser = pages.browser
    pages.sign_in("judge", "jury", "token-j1")
    pages.opens("judge", "s1-2")
    pages.sees("the first desk's", "#verdict-title", "problem A")
    pages.take_over("second")
    pages.chooses("AC")
    browser.press("Enter")
    pages.sees("another under its id", "#verdict-told", "This is another submission than the one that was open under this id")
    pages.sees("what opens", "#verdict-title", "problem B")
    pages.sees("its program", "#program", "// b by a1")
    pages.same("what is chosen", browser.run(CHOSEN), None)
    pages.is_unjudged("an open one")
    pages.left("the jury", "s2-2 (A, Beta, 0:10:00)")
    pages.left("the jury", "s1-2 (A, Alpha, 0:10:00)")
    pages.shoot("jury-takeover")


def try_waiting(pages):
    """A verdict that waits while no desk is there isn't given to another one, also by a page that is loaded anew."""
    browser = pages.browser
    for is_loaded in (False, True):
        pages.take_over("first")
        pages.opens("judge", "s1-2")
        pages.goes_away()
        pages.chooses("AC")
        browser.press("Enter")
        pages.sees("a verdict that waits", "#told", "Sending ..")
        if is_loaded:
            browser.reload()
        pages.take_over("second")
        pages.sees("a verdict that waited", "#told", "s1-2: Under this id there is something else now than what you were shown.")
        pages.is_unjudged("one that waited")
        pages.same("what is kept", [one for one in pages.kept() if " unanswered " in one], [])


def try_verified(pages):
    """A second judge doesn't verify what another proposed for another one."""
    browser = pages.browser
    pages.take_over("first")
    pages.sign_in("second", "jury", "token-j2")
    pages.opens("second", "s3-1")
    pages.sees("a proposal", "#verdict-proposal", "j1 proposes AC.")
    pages.take_over("second")
    pages.chooses("AC")
    browser.click("#verify")
    pages.sees("another under its id", "#verdict-told", "This is another submission than the one that was open")
    pages.is_unjudged("a verification")


def try_member(pages):
    """A verdict in a rejudging, and its cancelling, don't go to another one."""
    browser = pages.browser
    for css, is_asked in (('[data-member="s2-1"] [data-type="AC"]', False), ('[data-step="cancel"]', True)):
        pages.take_over("first")
        pages.looks_anew("judge")
        browser.click("#tab-Rejudgings")
        pages.sees("the first desk's", '#rejudgings [data-id="1"]', "0 is allowed")
        pages.goes_away()
        browser.click(css)
        if is_asked:
            pages.is_sure("to cancel it", "Cancel rejudging 1?")
        pages.sees("it waits", "#told", "Sending ..")
        pages.take_over("second")
        pages.sees("another rejudging", "#told", "Rejudging 1: Under this id there is something else now")
        found = pages.listed("jury/rejudgings")[0]
        pages.same("what it has", (found["state"], found["members"][0]["judgement_type_id"]), ("open", None))


def try_answers(pages):
    """An answer doesn't go to another question: neither one that waits, nor one that is half written."""
    browser = pages.browser

    def answered():
        return [one["text"] for one in pages.listed(f"{AT}/clarifications") if one["from_team_id"] is None]

    for is_sent in (True, False):
        pages.take_over("first")
        pages.looks_anew("judge")
        browser.click("#tab-Questions")
        browser.click('[data-answer="c1-1"]')
        browser.type("#answer-text", "Yes.")
        pages.goes_away()
        if is_sent:
            browser.click("#answer-button")
            pages.sees("it waits", "#told", "Sending ..")
        pages.take_over("second")
        pages.sees("another question", "#told", "c1-1 isn't the question that it was")
        pages.sees("what was written", "#told", 'Nothing was sent of what you wrote: "Yes."')
        pages.sees("what is answered now", "#answer-title", "Answer c1-1: Is the input sorted?")
        pages.same("the text", browser.run("return document.getElementById('answer-text').value"), "")
        pages.same("what is answered", answered(), [])


def try_team(pages):
    """A team is told which of its programs are gone, also on a page that is loaded anew, and sends one again by its own act."""
    browser = pages.browser
    pages.take_over("first")
    pages.sign_in("team", "team", "token-a1")
    pages.submits("b")
    pages.sees("a submission", "#told", "The desk has your submission s1-3.")
    pages.sees("its row", '[data-id="s1-3"]', "waits")
    pages.same("what is said of it", browser.run(LEFT), [])
    pages.take_over("second")
    browser.reload()
    pages.left("one that is another now", "Your submission to problem A of 0:10:00, s1-2. It isn't there any more")
    pages.left("it isn't kept", "Submit its file once more.")
    pages.left("one that is gone", "Your submission to problem B of 0:40:00, s1-3.")
    pages.shoot("team-takeover")
    browser.reload()
    pages.left("loaded anew", "Your submission to problem B of 0:40:00, s1-3.")
    browser.click('#left-list li:last-child [data-left="send"]')
    pages.sees("it is sent again", "#told", "The desk has your submission s1-3.")
    again = pages.asks_desk("token-a1", "GET", f"{AT}/submissions/s1-3/files")
    pages.same("its bytes", again, pages.program_file.read_bytes())
    browser.click('[data-left="forget"]')
    pages.note(browser.comes(lambda: browser.run(LEFT) == []), f"what is left: {browser.run(LEFT)}")
    pages.sign_out()
    pages.keeps_nothing("what the tab keeps of a team that signed out")
    pages.sign_in("team", "team", "token-a1")


def try_own_waiting(pages):
    """A post of the team that waited gets the id of a program that is gone: the team is told of that one nevertheless."""
    pages.sign_out()
    pages.take_over("first")
    pages.sign_in("team", "team", "token-a1")
    pages.submits("b")
    pages.sees("a submission", "#told", "The desk has your submission s1-3.")
    pages.goes_away()
    pages.submits("a")
    pages.sees("another waits", "#told", "Sending ..")
    pages.take_over("second", "09:41:00")
    pages.sees("it has the same id", "#told", "The desk has your submission s1-3.")
    pages.sees("its row", '[data-id="s1-3"]', "0:41:0")
    pages.left("the one of before", "Your submission to problem B of 0:40:00, s1-3.")


def try_jury(pages):
    """The jury is told on a page that is loaded anew, until it has read it."""
    pages.take_over("first")
    pages.looks_anew("judge")
    pages.sees("all that waits", "#tab-Judging", "Judging (3)")
    pages.take_over("second")
    pages.browser.reload()
    pages.left("loaded anew", "These submissions are gone")
    pages.browser.click('[data-left="gone"]')
    pages.note(pages.browser.comes(lambda: pages.browser.run(LEFT) == []), "it is read")


def make_anew(pages, head, name):
    """A contest that is made anew of another head."""
    pages.keep_file(name, demo.made(pages, {**FILES, "init": head}))


def try_anew(pages):
    """The contest is made anew: every page says so, and what was for the one before isn't sent to it but by the team's own act."""
    browser, words = pages.browser, "Another contest is served here now, or this one was made anew"
    make_anew(pages, ANEW, "anew")
    pages.take_over("first")
    pages.looks_anew("team")
    pages.sees("its own", "#submissions", "s1-2")
    pages.page("public", "scoreboard")
    pages.sees("the board", "#board", "Alpha")
    pages.page("balloons", "balloons")
    browser.click('[data-balloon="t1 a"] [data-mark="delivered"]')
    pages.sees("a balloon that is delivered", '[data-balloon="t1 a"].delivered', "Alpha")
    browser.look_at("team")
    pages.goes_away()
    pages.submits("a")
    pages.sees("it waits", "#told", "Sending ..")
    pages.take_over("anew")
    pages.sees("a post of before", "#told", "Your submission to problem A: Another contest is served here now")
    pages.sees("the team", "#other", words)
    for who in ("judge", "balloons"):
        browser.look_at(who)
        pages.sees(who, "#other", words)
    browser.look_at("public")
    pages.sees("the board goes over", "#clock", "0:10:0")
    pages.same("what was sent to it", pages.listed(f"{AT}/submissions"), [])
    browser.look_at("team")
    browser.click("#other-load")
    pages.left("a post of before", "Your submission to problem A, ")
    pages.lacks("loaded anew", "#other")
    pages.same("what was sent to it then", pages.listed(f"{AT}/submissions"), [])
    browser.click('[data-left="send"]')
    pages.sees("by its own act", "#told", "The desk has your submission s1-1.")
    pages.same("what is left", browser.run(LEFT), [])
    for token, step in (("token-j1", "proposals"), ("token-j2", "verifications")):
        pages.posts(token, f"jury/{step}", submission_id="s1-1", judgement_type_id="AC")
    browser.look_at("balloons")
    browser.click("#other-load")
    pages.sees("a balloon of the contest that was made anew", '[data-balloon="t1 a"]', "Alpha")
    pages.same("it isn't delivered", pages.is_there('[data-balloon="t1 a"].delivered'), False)


def try_other(pages):
    """A contest of another id is served: the pages say so."""
    make_anew(pages, FILES["init"].replace('"demo"', '"other"'), "other")
    pages.take_over("other")
    for who in ("team", "judge"):
        pages.browser.look_at(who)
        pages.sees(who, "#other", "Another contest is served here now")


PARTS = [
    try_files, try_open, try_waiting, try_verified, try_member, try_answers, try_team, try_own_waiting, try_jury, try_anew,
    try_other,
]  # fmt: skip

if __name__ == "__main__":
    sys.exit(program.main(__doc__, TakeOver, PARTS, program="desk", shots=pathlib.Path(), browser=TakeOver.BROWSERS))
