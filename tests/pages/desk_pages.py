#!/usr/bin/env -S python3 -B
"""Goes through a contest on the pages of web/, in a browser, as teams, judges, a director and the public do.

    desk_pages.py [--program PATH] [--shots PATH] [--browser NAME]

The demo contest, with verification and with names that look like markup or run from right to left, is served by the
program behind Debian's nginx; the clock is set by faketime. In one tab each: a director sets the start, a team
submits and asks, one judge proposes and answers, another verifies, an analyst watches, the public looks at the board
before, in and after the freeze. The director adds a team, replaces its token, corrects its name, and extends the
contest in the freeze. A post whose reply breaks off, or whose desk is away, is sent again by a page that was
loaded anew. With --shots the pages are kept as pictures in that folder, wide and narrow.

Takes nginx, openssl, chromium, chromium-driver and faketime. Ends with the line `N passed, M failed`; the exit status
is 0 if M is 0.
"""

import pathlib
import sys

from lib import demo, program
from lib.cutter import Cutter
from lib.pages import Pages

MARKUP, IMAGE = "<script>alert(1)</script>", '<img src=x onerror="alert(2)">'
RIGHT, TURNED = "فريق النيل", "\u202egnitros\u202c & Söhne"
NAMES = {"t1,Alpha": f"t1,{MARKUP}", "t2,Beta": f"t2,{RIGHT}", "t3,Gamma": f"t3,{TURNED}"}


def files():
    """The demo contest's, with these names, an analyst, a second judge's eye, and no start yet."""
    teams, problems = demo.FILES["teams-csv"], demo.FILES["problems"].replace("Apples", IMAGE.replace('"', '\\"'))
    for old, new in NAMES.items():
        teams = teams.replace(old, new)
    contest = demo.CONTEST.replace('"duration"', '"verification":true,"duration"').replace(
        "Demo Cup", f"Demo {MARKUP} Cup"
    )
    accounts = demo.FILES["accounts-csv"] + "o1,analyst,,token-o1\n"
    return {**demo.FILES, "init": contest, "teams-csv": teams, "problems": problems, "accounts-csv": accounts}


class Day(Pages):
    FILES = files()
    MOMENT = "2024-03-02 08:30:00"


def try_start(pages):
    """The director sets the start; the public's board says when it is."""
    browser = pages.browser
    pages.page("public", "scoreboard")
    pages.sees("before", "#banner", "The start isn't set yet.")
    pages.sign_in("director", "jury", "token-adm")
    browser.click("#tab-Clock")
    browser.choose("#start-time", "2024-03-02T09:00:00")
    browser.click("#start button")
    pages.is_sure("the start", "Let the contest begin at Mar 2, 2024, 9:00:00")
    pages.sees("the start", "#told", "The clock is set.")
    browser.click("#start button")
    pages.is_sure("the same start", "Let the contest begin at")
    browser.look_at("public")
    pages.sees("the start", "#clock", "starts in 0:")
    pages.sees("the name", "#name", f"Demo {MARKUP} Cup")
    pages.at("2024-03-02 09:05:00")
    pages.sees("the contest runs", "#clock", "0:05:0")
    pages.note(browser.run("return document.getElementById('banner').hidden"), "no banner while the contest runs")


def try_team(pages):
    """A team signs in and submits; a page that is loaded anew sends a post again whose reply broke off."""
    browser = pages.browser
    pages.sign_in("team", "team", "token-wrong")
    pages.sees("a wrong token", "#told", "No account has this token.")
    pages.sign_in("team", "team", "token-a1")
    pages.submits("a")
    pages.sees("a submission", "#told", "The desk has your submission s1-1.")
    pages.sees("its row", '[data-id="s1-1"]', "waits")
    pages.sees("the team's name", "#who", MARKUP)
    pages.submits("a", "java")
    pages.sees("a refusal", "#told", "This language needs an entry point")
    browser.type("#entry", "Main")
    with pages.breaking() as breaker:
        pages.submits("a", "java")
        is_cut = browser.comes(lambda: any(one.startswith(b"POST ") for one in breaker.requests))
        pages.note(is_cut, "a post whose reply breaks off")
        pages.sees("a post whose reply breaks off", "#told", "Sending .. The desk doesn't answer at the moment.")
    cutter = Cutter(pages.port)
    pages.sees("replies that break off", "#away", "The desk doesn't answer at the moment.")
    cutter.close()
    pages.sees("a desk that is away", "#told", "Sending ..")
    pages.sees("a desk that is away", "#away", "The desk doesn't answer at the moment.")
    browser.reload()
    pages.sees("a page that is loaded meanwhile", "#away", "The desk doesn't answer at the moment.")
    pages.begin(pages.moment)
    pages.sees("the post that was sent again", "#told", "The desk has your submission s1-2.")
    browser.reload()
    pages.sees("its row", '[data-id="s1-2"]', "Java")
    pages.same("rows", browser.run("return document.querySelectorAll('#submissions tbody tr').length"), 2)
    pages.shoot("team-waits")


def try_verdicts(pages):
    """One judge proposes and may not verify; another verifies, and the team sees it."""
    browser = pages.browser
    pages.sign_in("judge1", "jury", "token-a2")
    pages.sees("a team on the jury's page", "#told", "Your account may not do this.")
    for who in ("judge1", "judge2"):
        pages.sign_in(who, "jury", f"token-j{who[-1]}")
        pages.sees("what waits", "#tab-Judging", "Judging (2)")
        pages.sees("who is signed in", "#who", f"j{who[-1]} (judge)")
    pages.judges("judge1", "s1-1", "WA", "propose")
    pages.sees("a proposal", "#told", "s1-1: WA is proposed.")
    pages.sees("its row", '[data-id="s1-1"]', "WA by j1")
    pages.shoot("jury-waits")
    pages.judges("judge1", "s1-1", "WA", "verify")
    pages.sees("the same judge", "#told", "another judge has to verify it")
    pages.judges("judge2", "s1-1", "AC", "verify")
    pages.sees("another verdict", "#told", "The last proposal names another verdict.")
    pages.shoot("jury-looks")
    pages.chooses("WA")
    browser.click("#verify")
    pages.sees("the verification", "#told", "s1-1: WA is verified.")
    pages.judges("judge2", "s1-2", "AC", "propose")
    pages.judges("judge1", "s1-2", "AC", "verify")
    pages.looks_anew("team")
    pages.sees("the verdict", '[data-id="s1-1"]', "WA: wrong answer")
    pages.sees("the verdict", '[data-id="s1-2"]', "AC: correct")
    browser.look_at("public")
    pages.sees("the board", "#board .solved", "★ 5\n2 tries")


def try_questions(pages):
    """A question, its answer to the team, and a word to all."""
    browser = pages.browser
    browser.look_at("team")
    browser.choose("#question-problem", "a")
    browser.type("#question-text", f"Is 0 allowed? {MARKUP}")
    browser.click("#question-button")
    pages.sees("a question", "#told", "The jury has your question.")
    pages.sees("a question", '[data-id="c1-1"]', MARKUP)
    browser.look_at("judge1")
    pages.sees("a question", "#tab-Questions", "Questions (1)")
    browser.click("#tab-Questions")
    browser.click('[data-answer="c1-1"]')
    browser.type("#answer-text", "Yes, <b>it is</b>.")
    browser.click("#answer-button")
    pages.sees("an answer", "#told", "Sent as c1-2.")
    browser.type("#answer-text", "Water is in the hall.")
    browser.click("#answer-button")
    pages.sees("a word to all", "#told", "Sent as g-1.")
    pages.sees("nothing is open", "#tab-Questions", "Questions (0)")
    pages.shoot("jury-questions")
    browser.look_at("team")
    pages.sees("the answer", '[data-id="c1-2"]', "Yes, <b>it is</b>.")
    pages.sees("the word to all", '[data-id="g-1"]', "The jury to all")
    pages.sees("what is answered", '[data-id="c1-2"] blockquote', MARKUP)


def try_adding(pages):
    """A team comes late: the director adds it and its account, and it signs in by the token that was shown."""
    browser = pages.browser
    browser.look_at("director")
    pages.sees("who is signed in", "#who", "adm (admin)")
    browser.click("#tab-Teams")
    for field, text in (("id", "t1"), ("name", "Late"), ("groups", "north")):
        browser.type(f"#team-{field}", text)
    browser.click("#team-button")
    pages.is_sure("a team that stands", "Add the team Late?")
    pages.sees("a team that stands", "#told", "Something else was sent under this key, or stands under this id.")
    browser.type("#team-id", "t5")
    browser.click("#team-button")
    pages.is_sure("a late team", "Add the team Late?")
    pages.sees("a late team", "#told", "Late takes part, as t5.")
    pages.shoot("jury-teams")
    browser.look_at("public")
    pages.sees("a late team", "#board tbody", "Late")
    browser.look_at("director")
    has_team = "return [...document.getElementById('account-team').options].some((one) => one.value === 't5')"
    pages.note(browser.comes(lambda: browser.run(has_team)), "a late team may get an account")
    browser.type("#account-id", "a5")
    pages.note(not browser.run("return document.getElementById('account').checkValidity()"), "an account for a team has a team")
    browser.choose("#account-team", "t5")
    browser.click("#account-button")
    pages.is_sure("its account", "Add the account a5 of Late?")
    pages.sees("its account", "#told", "The token of a5 is ")
    pages.sign_in("late", "team", browser.text("#told").split()[5])
    pages.sees("who is signed in", "#who", "Late")


def try_changes(pages):
    """The late team loses its token and gets another one; its name was misspelt."""
    browser = pages.browser
    browser.look_at("director")
    browser.type("#replace-account", "a7")
    browser.click("#replace-button")
    pages.is_sure("an account that isn't there", "Replace the token of a7?")
    pages.sees("an account that isn't there", "#told", "One of the ids that were given isn't known.")
    browser.type("#replace-account", "a5")
    browser.click("#replace-button")
    pages.is_sure("a lost token", "Replace the token of a5?")
    pages.sees("a lost token", "#told", "The new token of a5 is ")
    pages.sees("whose it is", "#told", "It is for Late. It is shown this once.")
    token = browser.text("#told").split()[6]
    browser.look_at("late")
    pages.sees("the token that was lost", "#away", "No account has this token.")
    browser.click("#sign-out")
    browser.type("#token", token)
    browser.click("#sign-in button")
    pages.sees("who is signed in", "#who", "Late")
    browser.look_at("director")
    browser.choose_text("#correct-team", "Late")
    browser.type("#correct-name", f"Latte {MARKUP}")
    browser.click("#correct-button")
    pages.is_sure("a misspelt name", f"Call the team Late from now on Latte {MARKUP}?")
    pages.sees("a misspelt name", "#told", f"t5 is called Latte {MARKUP}.")
    named = "return [...document.getElementById('correct-team').options].some((one) => one.text.startsWith('Latte'))"
    pages.note(browser.comes(lambda: browser.run(named)), "the corrected name is among the teams")
    browser.look_at("public")
    pages.sees("the corrected name", "#board tbody", f"Latte {MARKUP}")
    browser.look_at("director")
    browser.click("#tab-Clock")


def try_rejudging(pages):
    """A rejudging of two judges, applied as a whole."""
    browser = pages.browser
    browser.look_at("judge1")
    browser.click("#tab-Judged")
    browser.click('[data-rejudge="s1-1"]')
    browser.type("#rejudge-reason", "0 was refused")
    browser.click("#rejudge-button")
    pages.sees("a rejudging", "#told", "Rejudging 1 is open.")
    browser.click('[data-member="s1-1"] [data-type="AC"]')
    pages.sees("a verdict", '[data-member="s1-1"]', "AC, to be verified")
    browser.click('[data-step="apply"]')
    pages.is_sure("too soon", "Apply rejudging 1?")
    pages.sees("too soon", "#told", "A verdict is missing, or waits for a second judge.")
    browser.look_at("judge2")
    browser.click("#tab-Rejudgings")
    browser.click('[data-member="s1-1"] [data-type="AC"]')
    is_ready = browser.comes(
        lambda: "s1-1: AC" in (shown := browser.text('[data-member="s1-1"]')) and "verified" not in shown
    )
    pages.note(is_ready, "a verdict of two judges is ready")
    pages.shoot("jury-rejudging")
    browser.click('[data-step="apply"]')
    pages.is_sure("apply", "Apply rejudging 1?")
    pages.sees("applied", '#rejudgings [data-id="1"]', "Rejudging 1, applied: 0 was refused")
    pages.looks_anew("team")
    pages.sees("the new verdict", '[data-id="s1-1"]', "AC: correct")


def try_freeze(pages):
    """A verdict in the freeze: its team and the jury see it, the public and other teams a question mark."""
    browser = pages.browser
    pages.at("2024-03-02 13:30:00")
    pages.sign_in("other", "team", "token-a2")
    pages.submits("b")
    pages.sees("a submission in the freeze", "#told", "The desk has your submission s2-1.")
    pages.judges("judge1", "s2-1", "AC", "propose")
    pages.judges("judge2", "s2-1", "AC", "verify")
    pages.sees("the verification", "#told", "s2-1: AC is verified.")
    pages.looks_anew("other")
    pages.sees("its own verdict", '[data-id="s2-1"]', "AC: correct")
    browser.look_at("public")
    pages.sees("the banner", "#banner", "The board is frozen")
    pages.sees("the board", "#board .pending", "?1")
    pages.sees("a name from right to left", "#board tbody", RIGHT)
    pages.sees("a name that is turned", "#board tbody", TURNED)
    pages.shoot("scoreboard-frozen")
    browser.click('#groups a[href="?group=south"]')
    pages.sees("the board of a group", "#groups [aria-current]", "South")
    pages.sees("its team", "#board tbody", RIGHT)
    pages.note(MARKUP not in browser.text("#board tbody"), "the board of a group has no other team")
    pages.shoot("scoreboard-group")
    browser.click('#groups a[href="?"]')
    pages.sees("all teams again", "#board tbody", MARKUP)
    browser.look_at("judge1")
    browser.click("#tab-Board")
    pages.lacks("the jury's board", "#board .pending")


def try_extension(pages):
    """Five minutes more in the freeze: the end moves, the freeze stays, and nothing that was held back is shown."""
    browser = pages.browser
    browser.look_at("director")
    browser.type("#extension-duration", "4:59")
    browser.click("#extension button")
    pages.is_sure("shorter", "Extend the contest? It ends at Mar 2, 2024, 1:59:00")
    pages.sees("shorter", "#told", "The desk doesn't set the clock so")
    browser.type("#extension-duration", "5:05")
    browser.click("#extension button")
    pages.sees("the freeze", "dialog", "The freeze stays at Mar 2, 2024, 1:00:00")
    pages.is_sure("five minutes more", "Extend the contest? It ends at Mar 2, 2024, 2:05:00")
    pages.sees("five minutes more", "#told", "The contest ends at Mar 2, 2024, 2:05:00")
    browser.look_at("public")
    pages.sees("five minutes more", "#clock", "of 5:05:00")
    pages.sees("the banner", "#banner", "The board is frozen")
    pages.sees("the board", "#board .pending", "?1")
    pages.at("2024-03-02 14:00:00")
    browser.look_at("other")
    pages.submits("a")
    pages.sees("a submission after five hours", "#told", "The desk has your submission s2-2.")
    pages.judges("judge1", "s2-2", "WA", "propose")
    pages.judges("judge2", "s2-2", "WA", "verify")
    pages.sees("its verdict", "#told", "s2-2: WA is verified.")


def try_analyst(pages):
    """An analyst sees what the jury sees, and is shown nothing to do; a post of it is refused."""
    browser = pages.browser
    pages.sign_in("watcher", "jury", "token-o1")
    pages.sees("who is signed in", "#who", "o1 (analyst)")
    pages.lacks("the jury's board", "#board .pending")
    pages.sees("what was asked", '#clarifications [data-id="c1-1"]', MARKUP)
    for tab in ("Judging", "Questions", "Rejudgings", "Judged", "Board", "Teams", "Clock"):
        browser.click(f"#tab-{tab}")
        shown = browser.run(
            "const all = [...document.querySelectorAll('#inside section :is(button, input, select, textarea)')];"
            "const looks = (one) => 'look' in one.dataset || one.closest('#filter') !== null;"
            "return all.filter((one) => one.checkVisibility() && !looks(one)).map((one) => one.outerHTML)"
        )
        pages.same(f"what an analyst may do by the tab {tab}", shown, [])
    browser.look_at("judge1")
    browser.click("#tab-Questions")
    pages.note(browser.run("return document.getElementById('answer').checkVisibility()"), "a judge may answer")


def try_end(pages):
    """Final results and the thaw; then the public sees all, and the awards."""
    browser = pages.browser
    browser.look_at("director")
    browser.click("#finalize button")
    pages.is_sure("too soon", "Make the results final?")
    pages.sees("too soon", "#told", "The desk doesn't set the clock so")
    pages.at("2024-03-02 14:05:00")
    browser.click("#finalize button")
    pages.is_sure("final results", "Make the results final?")
    pages.sees("final results", "#told", "The results are final.")
    browser.choose("#thaw-time", "2024-03-02T14:10:00")
    browser.click("#thaw button")
    pages.is_sure("the thaw", "Lift the freeze at")
    pages.sees("the thaw", "#told", "The clock is set.")
    pages.shoot("jury-clock")
    browser.look_at("public")
    pages.same("no awards yet", browser.run("return document.getElementById('awards').hidden"), True)
    pages.at("2024-03-02 14:10:00")
    pages.sees("the end", "#banner", "These are the final results.")
    pages.lacks("the board", "#board .pending")
    pages.sees("the awards", "#award-list", f"Contest winner: {MARKUP}")
    pages.shoot("scoreboard-final")
    browser.look_at("judge1")
    pages.sees("the awards", "#award-list", "Contest winner")


def try_markup(pages):
    """Nothing that anybody wrote became markup, on any page; and no token is in a page or in its address."""
    browser = pages.browser
    for who in browser.windows:
        browser.look_at(who)
        found = browser.run(
            "const found = document.querySelectorAll('script:not([src]), img, b:not(.cell > b)');"
            "return [...found].map((one) => one.outerHTML)"
        )
        pages.same(f"markup in the page of {who}", found, [])
        source = browser.run("return document.documentElement.outerHTML + location.href + document.cookie")
        pages.note("token-" not in source, f"the page of {who} shows a token")
    browser.look_at("judge1")
    pages.sign_out()
    pages.keeps_nothing("what the tab keeps")
    names = [team["name"] for team in pages.listed("contests/demo/teams", None)]
    pages.same("the names at the desk", names[:3], [MARKUP, RIGHT, TURNED])


PARTS = [
    try_start, try_team, try_verdicts, try_questions, try_adding, try_changes, try_rejudging, try_freeze, try_extension, try_analyst,
    try_end, try_markup,
]  # fmt: skip


if __name__ == "__main__":
    sys.exit(program.main(__doc__, Day, PARTS, program="desk", shots=pathlib.Path(), browser=Day.BROWSERS))
