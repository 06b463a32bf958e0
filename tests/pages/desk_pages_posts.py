#!/usr/bin/env -S python3 -B
"""Tries what the pages of web/ post, in a browser: whose it is, how long it is kept, and what isn't sent.

    desk_pages_posts.py [--program PATH] [--shots PATH] [--browser NAME]

The demo contest with verification is served by the program behind Debian's nginx. What a team or a judge posts while the desk is
away stays in the tab when they sign out; another account that signs in there doesn't send it, and its own one does, also by a new
token. Of a token nothing stays. A desk that gets too many requests, as nginx says by 429, has the post later; so it has if a portal
or another server answers in its place. A file that was changed after it was chosen, one over the limit and an empty one aren't sent
unasked, nor what is more than the desk takes. An administrator replaces its own token. Other pages may be looked at in a team's tab.

Takes nginx, openssl, chromium, chromium-driver and faketime. Ends with the line `N passed, M failed`; the exit status
is 0 if M is 0.
"""

import json
import os
import pathlib
import sys
import time

from lib import cutter, demo, program
from lib.pages import Pages

TOKENS = ["token-a1", "token-a2", "token-j1", "token-j2"]
AT = "contests/demo"
# How long a page waits for each reply from now on, in milliseconds.
PATIENCE = """const real = AbortSignal.timeout.bind(AbortSignal);
window.patience = [];
AbortSignal.timeout = (milliseconds) => {
  window.patience.push(milliseconds);
  return real(milliseconds);
};"""
# More ids than the desk takes; fewer, of more bytes each, where a field holds 524,288 characters at most, as it does in WebKit.
TOO_LARGE = """const field = document.getElementById('rejudge-ids'), text = 's1-1 '.repeat(350_000);
field.value = text;
if (field.value !== text) field.value = '\\u0001'.repeat(500_000);"""


class Posts(Pages):
    FILES = {**demo.FILES, "init": demo.STARTED.replace('"duration"', '"verification":true,"duration"')}

    def submissions(self, token):
        """A team's own, each with its problem and the bytes of its file."""
        own = [one for one in self.listed(f"{AT}/submissions", token) if "files" in one]
        return [(one["id"], one["problem_id"], self.file_of(token, one["id"])) for one in own]

    def file_of(self, token, submission):
        return self.asks_desk(token, "GET", f"{AT}/submissions/{submission}/files")

    def goes_away(self, action):
        """Somebody posts while the desk is away, and signs out; then the desk is there again. What the tab keeps meanwhile."""
        self.server.stop()
        action()
        self.sees("a desk that is away", "#told", "Sending ..")
        self.browser.click("#sign-out")
        is_out = self.browser.comes(lambda: not any(one.split()[1] == "token" for one in self.kept()))
        self.note(is_out, "the token stays")
        kept = self.kept()
        self.begin(self.moment)
        return kept

    def is_shown(self, token):
        """All of somebody's page is there."""
        self.is_signed_in(token)
        self.sees(token, "#board", "Alpha")

    def enters(self, who, page, token):
        self.sign_in(who, page, token)
        self.is_shown(token)

    def signs_in(self, token):
        """Another account in the same tab."""
        self.browser.type("#token", token)
        self.browser.click("#sign-in button")
        self.is_shown(token)

    def replaces(self, account, token, by="token-adm"):
        """An account gets another token."""
        self.asks_desk(by, "POST", "jury/tokens", json.dumps({"account_id": account, "token": token}))

    def keeps_post(self, what, kept):
        """The tab keeps one post and nothing else; there is no token in it."""
        self.same(f"{what}: what is kept", len(kept), 1)
        self.note(not any(token in one for token in TOKENS for one in kept), f"{what}: a token stays: {kept}")


def try_submission(pages):
    """A submission that isn't answered is its team's, also if another one uses the tab."""
    program_bytes = pages.program_file.read_bytes()
    pages.enters("shared", "team", "token-a1")
    kept = pages.goes_away(lambda: pages.submits("a"))
    pages.keeps_post("a submission", kept)
    pages.note(" a1 " in kept[0], f"its account names it: {kept}")
    pages.signs_in("token-a2")
    other = pages.folder / "other.cpp"
    other.write_text("// of another team\n", encoding="utf-8")
    pages.submits("b", file=other)
    pages.sees("the other team's own", "#told", "The desk has your submission s2-1.")
    pages.same("what the other team has", pages.submissions("token-a2"), [("s2-1", "b", b"// of another team\n")])
    pages.same("what the team has", pages.submissions("token-a1"), [])
    pages.sign_out()
    pages.keeps_post("after the other team", pages.kept())
    pages.signs_in("token-a1")
    pages.sees("the team is there again", "#told", "The desk has your submission s1-1.")
    pages.same("what the team has then", pages.submissions("token-a1"), [("s1-1", "a", program_bytes)])
    pages.sign_out()
    pages.keeps_nothing("what the tab keeps in the end")


def hold_kept(pages, what, accounts, action, found, words):
    """What somebody posts while the desk is away is sent neither by another account nor never: what is found at the desk says
    that it is there, or isn't."""
    mine, other = accounts
    pages.keeps_post(what, pages.goes_away(action))
    pages.signs_in(other)
    time.sleep(1)
    pages.same(f"{what}: what another account sent", found(), False)
    pages.sign_out()
    pages.signs_in(mine)
    pages.sees(f"{what} of who is there again", "#told", words)
    pages.same(f"{what}: what its own account sent", found(), True)


def try_question(pages):
    browser = pages.browser

    def asks():
        browser.type("#question-text", "Is 0 allowed?")
        browser.click("#question-button")

    def asked():
        return [one["from_team_id"] for one in pages.listed(f"{AT}/clarifications")]

    pages.enters("asking", "team", "token-a1")
    hold_kept(pages, "a question", ("token-a1", "token-a2"), asks, lambda: asked() != [], "The jury has your question.")
    pages.same("who asked", asked(), ["t1"])


def try_jury(pages):
    """An answer, a proposal and a rejudging of one judge, in a tab that another uses meanwhile."""
    browser, both = pages.browser, ("token-j1", "token-j2")

    def answers():
        browser.click("#tab-Questions")
        browser.type("#answer-text", "Water is in the hall.")
        browser.click("#answer-button")

    def is_answered():
        return any(one["from_team_id"] is None for one in pages.listed(f"{AT}/clarifications"))

    pages.enters("judge", "jury", "token-j1")
    hold_kept(pages, "an answer", both, answers, is_answered, "Sent as g-1.")

    def proposes():
        pages.chooses("WA")
        browser.click("#propose")

    pages.looks_at("judge", "s1-1")
    hold_kept(pages, "a proposal", both, proposes, lambda: pages.listed("jury/proposals") != [], "s1-1: WA is proposed.")
    pages.posts("token-j2", "jury/verifications", submission_id="s1-1", judgement_type_id="WA")

    def opens():
        browser.click("#tab-Rejudgings")
        browser.type("#rejudge-reason", "0 was refused")
        browser.type("#rejudge-ids", "s1-1")
        browser.click("#rejudge-button")

    hold_kept(
        pages, "a rejudging", both, opens, lambda: pages.listed("jury/rejudgings") != [], "Rejudging 1 is open."
    )
    pages.sign_out()
    pages.keeps_nothing("what the tab keeps in the end")


def try_new_token(pages):
    """What waits for an answer goes out by the new token of its account, too."""
    pages.enters("renewed", "team", "token-a2")
    pages.keeps_post("a submission", pages.goes_away(lambda: pages.submits("b")))
    pages.replaces("a2", "token-newer-a2")
    pages.signs_in("token-newer-a2")
    pages.sees("by the new token", "#told", "The desk has your submission s2-2.")
    pages.replaces("a2", "token-a2")
    pages.submits("a")
    pages.sees("by a token that was replaced", "#told", "Sending .. No account has this token.")
    pages.sign_out()
    pages.signs_in("token-a2")
    pages.sees("by the token that it has", "#told", "The desk has your submission s2-3.")
    pages.sign_out()
    pages.keeps_nothing("what the tab keeps in the end")


def try_own_token(pages):
    """An administrator who replaces its own token is shown it first, and goes on by it, also if the reply breaks off."""
    browser = pages.browser
    pages.sign_in("director", "jury", "token-adm")
    browser.click("#tab-Teams")
    browser.type("#replace-account", "adm")
    with pages.breaking():
        browser.click("#replace-button")
        pages.sees("its own token", "dialog", "This is your own. Write the new one down first: ")
        token = browser.text("dialog b")
        browser.click("dialog .yes")
        pages.sees("the reply breaks off", "#told", f"The new token of adm is {token} .")
    pages.begin(pages.moment)
    pages.same("whose token it is", pages.listed(f"{AT}/account", token)["id"], "adm")
    pages.lacks("by the new token", "#away:not([hidden])")
    browser.reload()
    pages.sees("loaded anew", "#who", "adm (admin)")
    browser.click("#tab-Teams")
    browser.type("#replace-account", "adm")
    browser.click("#replace-button")
    token = browser.text("dialog b")
    browser.click("dialog .yes")
    pages.sees("once more", "#told", f"The new token of adm is {token} .")
    pages.lacks("by that", "#away:not([hidden])")
    pages.replaces("adm", "token-adm", by=token)


def try_others(pages):
    """Nothing but the desk's own word ends a post: neither another server's, nor one of nginx."""
    browser = pages.browser
    pages.enters("others", "team", "token-a2")
    pages.server.stop()
    portal = cutter.Cutter(pages.port, cutter.PORTAL)
    pages.submits("a")
    pages.sees("a portal", "#told", "Sending .. Another server answers in the desk's place")
    pages.sees("a portal", "#away", "Another server answers in the desk's place")
    portal.close()
    pages.begin(pages.moment)
    pages.sees("the desk is back", "#told", "The desk has your submission s2-4.")
    forbidden = cutter.json_reply("403 Forbidden", b'{"code":403,"message":"AddressForbids"}')
    other = cutter.json_reply("409 Conflict", b'{"code":404,"message":"NotFound"}')
    for what, reply in (("a portal", cutter.PORTAL), ("an address", forbidden), ("another's word", other)):
        with pages.breaking(reply=reply, is_handed=False) as breaker:
            pages.submits("a")
            is_posted = browser.comes(lambda: any(one.startswith(b"POST ") for one in breaker.requests))
            pages.note(is_posted, f"{what}: it is posted")
            time.sleep(1)
            pages.sees(f"{what} answers a post", "#told", "Sending .. ")
            pages.keeps_post(what, [one for one in pages.kept() if one.split()[1] == "unanswered"])
        pages.begin(pages.moment)
        pages.sees(f"{what}: the desk is back", "#told", "The desk has your submission s2-")
    pages.submits("a", "java")
    pages.sees("the desk's own word", "#told", "This language needs an entry point")
    pages.same("what is kept then", [one for one in pages.kept() if one.split()[1] == "unanswered"], [])


def try_large(pages):
    """What is more than the desk takes isn't sent; what is large has more time on its way."""
    browser = pages.browser
    pages.sign_in("director", "jury", "token-adm")
    browser.click("#tab-Rejudgings")
    browser.type("#rejudge-reason", "all")
    browser.run(TOO_LARGE)
    pages.nginx.answered()
    browser.click("#rejudge-button")
    pages.sees("too large", "#told", "This is too large: a file may have 1,048,576 bytes")
    posted = [one for one in pages.nginx.answered() if one[1] == "POST"]
    pages.same("what was sent", posted, [])
    browser.look_at("others")
    large = pages.folder / "slow.cpp"
    large.write_bytes(b"x" * 1_048_576)
    browser.run(PATIENCE)
    pages.submits("b", file=large)
    pages.sees("the largest file", "#told", "The desk has your submission s2-")
    longest = max(browser.run("return window.patience"))
    pages.note(75_000 + 139_000 < longest < 75_000 + 145_000, f"it has {longest} ms on its way")


def try_too_many(pages):
    """What nginx answers by 429 is told in words, and the post goes out later, also from a page that was loaded anew."""
    browser, words = pages.browser, "The desk gets too many requests from here. This page tries again by itself."
    pages.enters("busy", "team", "token-a3")
    with pages.breaking(reply=cutter.TOO_MANY, is_handed=False) as breaker:
        pages.submits("a")
        is_refused = browser.comes(lambda: any(one.startswith(b"POST ") for one in breaker.requests))
        pages.note(is_refused, "a post is answered by 429")
        pages.sees("a post too many", "#told", f"Sending .. {words}")
    busy = cutter.Cutter(pages.port, cutter.TOO_MANY)
    pages.sees("a look too many", "#away", words)
    browser.reload()
    pages.sees("a page that is loaded meanwhile", "#away", words)
    busy.close()
    pages.begin(pages.moment)
    pages.sees("the post that was sent again", "#told", "The desk has your submission s3-1.")
    pages.same("what the team has", len(pages.submissions("token-a3")), 1)


def try_changed_file(pages):
    """A file that was changed after it was chosen isn't sent, and nothing of the page says so."""
    browser, file = pages.browser, pages.folder / "changed.cpp"
    file.write_text("// old\n", encoding="utf-8")
    pages.enters("files", "team", "token-a3")
    pages.submits("b", file=file)
    pages.sees("a first one", "#told", "The desk has your submission s3-2.")
    browser.choose("#problem", "b")
    browser.choose("#language", "cpp")
    browser.give_file("#file", file)
    file.write_text("// a new one\n", encoding="utf-8")
    os.utime(file, (time.time() + 10, time.time() + 10))
    browser.click("#submit-button")
    pages.sees("a changed file", "#told", "it has changed since you chose it")
    pages.note("s3-2" not in browser.text("#told"), "nothing old is told")
    pages.same("files that are chosen", browser.run("return document.getElementById('file').files.length"), 0)
    pages.same("what the team has", len(pages.submissions("token-a3")), 2)
    browser.give_file("#file", file)
    browser.run("for (let n = 0; n < 2; n += 1) document.getElementById('submit').requestSubmit()")
    pages.sees("it is chosen again", "#told", "The desk has your submission s3-3.")
    pages.same("what the desk has", pages.file_of("token-a3", "s3-3"), b"// a new one\n")
    time.sleep(0.5)
    pages.same("what two clicks sent", len(pages.submissions("token-a3")), 3)


def try_sizes(pages):
    """A file over the limit is told while the desk is away, so before it is sent; an empty one is asked about."""
    browser = pages.browser
    large, empty = pages.folder / "large.cpp", pages.folder / "empty.cpp"
    empty.write_bytes(b"")
    pages.server.stop()
    for size in (1_048_577, 6_000_000):
        large.write_bytes(b"x" * size)
        pages.submits("b", file=large)
        pages.sees("a large file", "#told", f"This file has {size:,} bytes, and may have 1,048,576.")
        pages.same("what is kept", len(pages.kept()), 1)
    pages.begin(pages.moment)
    large.write_bytes(b"x" * 1_048_576)
    browser.choose("#problem", "b")
    browser.choose("#language", "cpp")
    browser.give_file("#file", large)
    browser.run("for (let n = 0; n < 8; n += 1) try { sessionStorage.setItem(n, 'x'.repeat(1_000_000)); } catch {}")
    browser.click("#submit-button")
    pages.sees("the largest file, in a tab that is full", "#told", "The desk has your submission s3-4.")
    browser.run("for (let n = 0; n < 8; n += 1) sessionStorage.removeItem(n)")
    pages.submits("b", file=empty)
    pages.is_sure("an empty file", "This file is empty.", "no")
    pages.same("what the team has", len(pages.submissions("token-a3")), 4)
    browser.click("#submit-button")
    pages.is_sure("an empty file", "This file is empty.")
    pages.sees("an empty file", "#told", "The desk has your submission s3-5.")
    pages.same("what the desk has", pages.file_of("token-a3", "s3-5"), b"")


def try_board(pages):
    """Who looks at the board in a team's tab sees what the public sees, and stays signed in."""
    browser = pages.browser
    pages.enters("looking", "team", "token-a1")
    pages.page("looking", "scoreboard")
    pages.sees("the board", "#board", "Alpha")
    pages.note(any("token-a1" in one for one in pages.kept()), "the tab keeps its token")
    browser.back()
    pages.is_signed_in("back from the board")
    pages.at("2024-03-02 13:30:00")
    pages.submits("b")
    pages.sees("a submission then", "#told", "The desk has your submission s1-2.")
    for token, step in (("token-j1", "proposals"), ("token-j2", "verifications")):
        pages.posts(token, f"jury/{step}", submission_id="s1-2", judgement_type_id="AC")
    pages.looks_anew("looking")
    pages.sees("its verdict in the freeze", '[data-id="s1-2"]', "AC: correct")
    pages.page("looking", "scoreboard")
    pages.sees("the board in the freeze", "#board .pending", "?1")
    pages.lacks("the board in the freeze", "#board .solved")
    pages.page("looking", "team")
    pages.is_signed_in("from the board to the page")
    pages.page("looking", "jury")
    pages.sees("a team on the jury's page", "#told", "Your account may not do this.")
    pages.same("the jury's page stays shut", browser.run("return document.getElementById('inside').hidden"), True)
    pages.page("looking", "ceremony")
    pages.sees("a team at the ceremony", "#told", "Your account may not do this.")
    pages.page("looking", "team")
    pages.is_signed_in("the team, after pages that aren't for it")
    browser.run("sessionStorage.setItem('/demo/ token', 'nobody')")
    pages.page("looking", "scoreboard")
    pages.sees("the board in a tab of nobody's token", "#board", "Alpha")
    pages.same("what the tab keeps", pages.kept(), ["/demo/ token nobody"])


def try_tokens(pages):
    """A text that can't even be sent is nobody's token; and a judge is no team."""
    pages.sign_in("no team", "team", "token-j1")
    pages.sees("a judge on a team's page", "#told", "This account is the jury's.")
    for text in ("nobody", "tökén", "токен-a1"):
        pages.sign_in("nobody", "team", text)
        pages.sees(text, "#told", "No account has this token.")
        pages.same(f"what is kept of {text}", pages.kept(), [])


PARTS = [
    try_submission, try_question, try_jury, try_new_token, try_own_token, try_others, try_large, try_too_many, try_changed_file,
    try_sizes, try_board, try_tokens,
]  # fmt: skip

if __name__ == "__main__":
    sys.exit(program.main(__doc__, Posts, PARTS, program="desk", shots=pathlib.Path(), browser=Posts.BROWSERS))
