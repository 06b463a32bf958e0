#!/usr/bin/env -S python3 -B
"""Tries what the pages of web/ look like, in a browser: on a projector and on a phone, bright and dark, and to programs that read
them aloud.

    desk_pages_looks.py [--program PATH] [--shots PATH] [--browser NAME]

The demo contest with sixty more teams, one of a very long name, is served by the program behind Debian's nginx; the clock is set by
faketime. Words and borders stand out from what is behind them, as WCAG 2.2 asks (4.5 to 1, and 3 to 1). Nothing is wider than a
phone, no short text is broken, the heads stay while a long board goes by. A team finds its own row. A narrow board is still a table
with heads. The banner says that the contest has ended, and the clock's page which time zone it shows.

Takes nginx, openssl, chromium, chromium-driver and faketime. Ends with the line `N passed, M failed`; the exit status
is 0 if M is 0.
"""

import base64
import pathlib
import sys

from lib import demo, program
from lib.pages import Pages

AT = "contests/demo"
LONG = "Universität " + "x" * 170
TEAMS = demo.FILES["teams-csv"].replace("t1,Alpha", f"t1,{LONG}") + "".join(f"u{n},Team {n},,\n" for n in range(60))
PHONE, DESK, HALL = (390, 844), (1366, 768), (1600, 900)

# How far the colour of an element's text, or of its border, stands out from what is behind it, by WCAG 2.2, 1.4.3 and 1.4.11.
CONTRAST = """const [css, what] = arguments;
const numbers = (colour) => colour.match(/[\\d.]+/g).map(Number);
const behind = (at) => {
  for (; at; at = at.parentElement) {
    const colour = numbers(getComputedStyle(at).backgroundColor);
    if (colour.length < 4 || colour[3] === 1) return colour;
  }
  return numbers(getComputedStyle(document.body).backgroundColor);
};
const light = (colour) => {
  const [r, g, b] = colour.map((one) => one / 255).map((one) => one <= 0.04045 ? one / 12.92 : ((one + 0.055) / 1.055) ** 2.4);
  return 0.2126 * r + 0.7152 * g + 0.0722 * b;
};
const ratio = (one, other) => {
  const [low, high] = [light(one), light(other)].sort((a, b) => a - b);
  return (high + 0.05) / (low + 0.05);
};
return [...document.querySelectorAll(css)].filter((at) => at.checkVisibility()).map((at) => {
  const style = getComputedStyle(at);
  if (what === "text") return ratio(numbers(style.color), behind(at));
  const border = numbers(style.borderTopColor);
  return Math.min(ratio(border, behind(at)), ratio(border, behind(at.parentElement)));
});"""

# The texts in a table that are on more than one line, but for those of some columns.
BROKEN = """const walker = document.createTreeWalker(document.querySelector(arguments[0]), NodeFilter.SHOW_TEXT);
const found = [];
while (walker.nextNode()) {
  const range = document.createRange();
  range.selectNodeContents(walker.currentNode);
  const cell = walker.currentNode.parentElement.closest("td, th");
  if (range.getClientRects().length > 1 && !arguments[1].includes(cell.cellIndex)) found.push(walker.currentNode.data);
}
return found;"""

# Where the head of a page, the clock in it and the head of its board stand, and what is seen at the middle of the clock.
HEADS = """const box = (css) => document.querySelector(css).getBoundingClientRect();
const clock = box("#clock"), [x, y] = [(clock.left + clock.right) / 2, (clock.top + clock.bottom) / 2];
return [scrollY, box("header").top, box("header").bottom, box("#board thead .team").top, document.elementFromPoint(x, y)?.id];"""

# Whether the cell of a team that says a minute has a star; null if there is no such cell.
STAR = """const [team, minute] = arguments;
const row = [...document.querySelectorAll('#board tbody tr')].find((one) => one.querySelector('.team')?.innerText === team);
const cell = [...(row?.querySelectorAll('.solved') ?? [])].find((one) => one.querySelector('b').innerText.endsWith(minute));
return cell ? cell.innerText.includes('★') : null;"""


class Looks(Pages):
    FILES = {**demo.FILES, "init": demo.STARTED, "teams-csv": TEAMS}

    def shows_itself(self, scheme):
        self.browser.shows_scheme(scheme)
        is_so = f"return matchMedia('(prefers-color-scheme: {scheme})').matches"
        self.browser.until(lambda: self.browser.run(is_so), scheme)

    def stands_out(self, what, css, of, least):
        found = self.browser.run(CONTRAST, css, of)
        self.note(found and min(found) >= least, f"{what}: the {of} of {css} is {found} to 1, wanted {least}")

    def fits(self, what):
        """Nothing is wider than a narrow window."""
        width = self.browser.run("return document.documentElement.scrollWidth")
        self.note(width <= PHONE[0], f"{what} is {width} wide")


def try_own_row(pages):
    """A team finds its row once anything of its own is there, and only on its page."""
    browser, file = pages.browser, [{"data": base64.b64encode(b"x").decode()}]
    for token, problem in (("token-a1", "a"), ("token-a2", "a"), ("token-a2", "b"), ("token-a1", "b"), ("token-a2", "b")):
        pages.posts(token, f"{AT}/submissions", problem_id=problem, language_id="cpp", files=file)
    for submission, verdict in (("s1-1", "WA"), ("s2-1", "AC"), ("s2-2", "WA")):
        pages.posts("token-j1", "jury/proposals", submission_id=submission, judgement_type_id=verdict)
    pages.sign_in("team", "team", "token-a2")
    pages.sees("its row", "#board .own .team", "Beta")
    pages.same("own rows", browser.run("return document.querySelectorAll('#board [aria-current=true]').length"), 1)
    shown = browser.run(
        "const own = document.querySelector('#board .own .team'); return own && getComputedStyle(own).boxShadow"
    )
    pages.note(shown not in (None, "none"), f"the row stands out by {shown}")
    pages.shoot("team-own-row")
    pages.page("public", "scoreboard")
    pages.sees("the board", "#board", "Beta")
    pages.lacks("the public's board", "#board .own")


def try_colours(pages):
    """Bright and dark."""
    pages.sign_in("judge", "jury", "token-j1")
    pages.browser.click("#tab-Judged")
    pages.sees("what is judged", "#judgements", "s2-2")
    for scheme in ("light", "dark"):
        with pages.if_it_can(f"colours, {scheme}", 10):
            look_at_colours(pages, scheme)


def look_at_colours(pages, scheme):
    """What a team and a judge see in one scheme."""
    pages.browser.look_at("team")
    pages.shows_itself(scheme)
    for kind in ("solved", "tried", "pending"):
        pages.stands_out(scheme, f"#submissions .{kind}", "text", 4.5)
        pages.stands_out(scheme, f"#board .cell.{kind}", "text", 4.5)
    pages.stands_out(scheme, "#inside select, #inside input, #inside textarea", "border", 3)
    pages.browser.look_at("judge")
    pages.shows_itself(scheme)
    pages.browser.click("#tab-Questions")
    pages.stands_out(scheme, "#questions select, #questions textarea", "border", 3)
    pages.browser.click("#tab-Judged")
    pages.stands_out(scheme, "#judgements .solved", "text", 4.5)
    pages.stands_out(scheme, "#judgements .tried", "text", 4.5)
    pages.shoot(f"jury-judged-{scheme}")


def try_words(pages):
    """Beside a long name nothing else is broken."""
    pages.browser.look_at("judge")
    pages.browser.as_wide_as(*DESK)
    pages.browser.click("#tab-Judged")
    pages.sees("what is judged", "#judgements", "Universität")
    pages.same("broken texts", pages.browser.run(BROKEN, "#judgements", [2]), [])
    pages.browser.click("#tab-Judging")
    pages.sees("what waits", "#waiting", "Universität")
    pages.same("broken texts", pages.browser.run(BROKEN, "#waiting", [2]), [])
    pages.browser.as_usual()


def try_phone(pages):
    """Nothing is wider than a phone."""
    browser = pages.browser
    for who, tabs in (("judge", ("Judging", "Questions", "Rejudgings", "Judged", "Board", "Teams", "Clock")), ("team", ()), ("public", ())):
        browser.look_at(who)
        browser.as_wide_as(*PHONE, is_phone=False)
        pages.fits(who)
        for tab in tabs:
            browser.click(f"#tab-{tab}")
            pages.fits(f"{who}, {tab}")
        browser.as_usual()


def try_aloud(pages):
    """A narrow board is a table, with the letters of its problems."""
    pages.browser.look_at("public")
    pages.browser.as_wide_as(*PHONE, is_phone=False)
    pages.same("tables", len(pages.browser.spoken("table")), 1)
    pages.same("rows", len(pages.browser.spoken("row")), 64)
    with pages.if_it_can("the heads of a board, read aloud"):
        pages.same("heads", pages.browser.spoken("columnheader"), ["Rank", "Team", "Solved", "Time", "A", "B"])
    with pages.if_it_can("the teams of a board, read aloud"):
        pages.note("Beta" in pages.browser.spoken("rowheader"), f"teams: {pages.browser.spoken('rowheader')}")
    with pages.if_it_can("the cells of a board, read aloud"):
        cells = pages.browser.spoken("cell")
        pages.note("A ★ 5" in cells, f"a cell with its letter: {cells[:20]}")
    pages.browser.as_usual()
    # Other browsers forget what a row is if it is shown as a line, and go by its role.
    plain = "table:not([role]), thead:not([role]), tbody:not([role]), tr:not([role]), th:not([role]), td:not([role])"
    for who in ("public", "team", "judge"):
        pages.browser.look_at(who)
        found = pages.browser.run("return [...document.querySelectorAll(arguments[0])].map((one) => one.outerHTML)", plain)
        pages.same(f"parts of tables without a role on the page of {who}", found[:3], [])


def try_hall(pages):
    """The clock and the heads of the columns stay while a long board goes by."""
    for who, size in (("public", HALL), ("team", HALL), ("public", PHONE)):
        pages.browser.look_at(who)
        pages.browser.as_wide_as(*size, is_phone=False)
        pages.browser.run("scrollTo(0, document.getElementById('board').getBoundingClientRect().top + scrollY + 600)")
        scrolled, top, bottom, head, seen = pages.browser.run(HEADS)
        pages.note(scrolled > 500 and top >= 0 and seen == "clock", f"{who}: head at {top}, {seen} at the clock's place")
        pages.note(size == PHONE or bottom - 1 <= head <= bottom + 5, f"{who}: the board's head at {head}, below {bottom}")
        pages.browser.as_usual()
    # A screen that is low has no room for it.
    pages.browser.as_wide_as(PHONE[1], PHONE[0], is_phone=False)
    scrolled, top, *_ = pages.browser.run(HEADS)
    pages.note(scrolled > 100 and top < 0, f"the head at {top} on a low screen that is scrolled by {scrolled}")
    pages.browser.as_usual()


def try_star(pages):
    """Who was first to solve has a star once no earlier attempt waits: whatever is sent in later takes none away."""
    file = [{"data": base64.b64encode(b"x").decode()}]

    def submits(team, minute):
        pages.at(f"2024-03-02 09:{minute}:00")
        return pages.posts(f"token-a{team}", f"{AT}/submissions", problem_id="b", language_id="cpp", files=file)["id"]

    def is_judged(submission, verdict):
        pages.posts("token-j1", "jury/proposals", submission_id=submission, judgement_type_id=verdict)

    def stars(what, wanted):
        is_so = pages.browser.comes(lambda: pages.browser.run(STAR, "Gamma", "20") == wanted)
        pages.note(is_so, f"{what}: a star {pages.browser.run(STAR, 'Gamma', '20')}, wanted {wanted}")

    is_judged(submits(3, 20), "AC")
    pages.page("public", "scoreboard")
    stars("two attempts of minute 5 wait", False)
    is_judged("s1-2", "WA")
    pages.looks_anew("team")
    stars("one of them waits, on a team's page", False)
    is_judged("s2-3", "WA")
    submits(1, 25)
    for who in ("public", "team", "judge"):
        pages.looks_anew(who)
        if who == "judge":
            pages.browser.click("#tab-Board")
        stars(f"a later one waits, {who}", True)


def try_zone(pages):
    """The clock's page names the time zone of the machine, wherever it is."""
    browser = pages.browser
    browser.look_at("judge")
    with pages.if_it_can("the time zone", 3):
        browser.shows_zone("America/St_Johns")
        browser.reload()
        pages.is_signed_in("the judge")
        browser.click("#tab-Clock")
        pages.sees("the zone", "#times", "time zone, America/St_Johns.")
        pages.sees("a moment", "#moments", "5:30:00 AM GMT-3:30")


def try_end(pages):
    """After the end the banner says so, frozen or not."""
    for moment, words in (("13:30", "The board is frozen"), ("14:00", "The contest has ended. The board is still frozen")):
        pages.at(f"2024-03-02 {moment}:00")
        for who in ("public", "team"):
            pages.browser.look_at(who)
            pages.sees(moment, "#banner", words)
    pages.shoot("team-ended")


PARTS = [try_own_row, try_colours, try_words, try_phone, try_aloud, try_hall, try_star, try_zone, try_end]

if __name__ == "__main__":
    sys.exit(program.main(__doc__, Looks, PARTS, program="desk", shots=pathlib.Path(), browser=Looks.BROWSERS))
