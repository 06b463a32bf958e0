#!/usr/bin/env -S python3 -B
"""Tries the page of web/ that lists balloons, in a browser: for anybody, for an analyst, and on paper.

    desk_pages_balloons.py [--program PATH] [--shots PATH] [--browser NAME]

A contest of fourteen teams is held at the program behind Debian's nginx. The list has each problem that a team solved, in the order
in which the verdicts were released, and whose was the first; a hidden team has none. What was taken and delivered, and colours, stay
in the browser, in all its tabs, also while the desk is away. What a rejudging takes back is struck through and stays. In the freeze
nothing is added but for an analyst who asks for it; a team learns no more than anybody, and stays signed in. Replies that break off
and a token that was replaced are told, and the list stays. After the thaw all is there, behind what was there. Each balloon is
printed on one sheet. What an analyst saw of the freeze leaves the browser with the sign-out; a browser that has no room is told.

Takes nginx, openssl, chromium, chromium-driver and faketime. Ends with the line `N passed, M failed`; the exit status is 0 if M is 0.
"""

import json
import pathlib
import sys
import time

from desk_pages_looks import PHONE, Looks
from lib import finals, program
from lib.cutter import Cutter
from lib.finals import AT

DAY = finals.Day(7).all()
FREEZE = 240 * 60_000
EARLY, LATE = [one for one in DAY if one[0] < FREEZE], [one for one in DAY if one[0] >= FREEZE]
LIST = "return [...document.querySelectorAll('[data-balloon]')].map((row) => row.dataset.balloon)"
STRUCK = "return [...document.querySelectorAll('.back')].map((row) => row.dataset.balloon)"
FIRST = "return [...document.querySelectorAll('[data-balloon]')].filter((row) => row.innerText.includes('★ first to solve')).map((row) => row.dataset.balloon)"
NUMBERS = "return [...document.querySelectorAll('[data-balloon] td:first-child')].map((one) => one.innerText)"
ALL_KEPT = "return [localStorage, sessionStorage].flatMap((store) => Object.entries(store).map((one) => one.join(' ')))"
# Forgets what a browser keeps but marks, and fills it to the last letter.
FILL = """for (const name of Object.keys(localStorage)) if (!name.includes(" balloon ")) localStorage.removeItem(name);
for (let size = 1 << 20; size >= 1; size >>= 1) {
  for (let n = 0; n < 20; n += 1) {
    try { localStorage.setItem(`full ${size} ${n}`, "x".repeat(size)); } catch { break; }
  }
}"""
# Prints nothing, but makes the sheets.
NO_PRINTER = "window.print = () => {}"
TOKENS = "return JSON.stringify(localStorage).includes('token-')"


def solves_of(attempts):
    """The first time of each team and problem, of teams that aren't hidden, as `team problem`, by time."""
    found = {}
    for time, team, problem, verdict in attempts:
        if verdict == "AC" and team != "staff":
            found.setdefault(f"{team} {problem}", time)
    return found


def first_of(solves):
    """The first of each problem."""
    found = {}
    for balloon in sorted(solves, key=solves.get):
        found.setdefault(balloon.partition(" ")[2], balloon)
    return sorted(found.values())


class Balloons(Looks):
    FILES = finals.files()

    def list(self):
        return self.browser.run(LIST)

    def is_listed(self, what, wanted):
        """The list comes to be this one."""
        is_so = self.browser.comes(lambda: self.list() == wanted)
        self.note(is_so, f"{what}: more {set(self.list()) - set(wanted)}, fewer {set(wanted) - set(self.list())}, of {self.list()}")

    def loads_anew(self):
        """Loads the page once nginx has forgotten what it was answered, which takes it two seconds."""
        time.sleep(2.5)
        self.browser.reload()

    def row(self, balloon):
        return f'[data-balloon="{balloon}"]'

    def marks(self, balloon, name):
        self.browser.click(f'{self.row(balloon)} [data-mark="{name}"]')

    def is_marked(self, what, balloon, taken, delivered):
        css = f"return [...document.querySelectorAll('{self.row(balloon)} [aria-pressed]')].map((one) => one.ariaPressed)"
        wanted = [str(taken).lower(), str(delivered).lower()]
        self.note(self.browser.comes(lambda: self.browser.run(css) == wanted), f"{what}: {self.browser.run(css)}, wanted {wanted}")

    def chooses_until(self, when):
        self.browser.choose("#until", when)


def try_public(pages):
    """All that is solved before the freeze, in order, with the first of each problem."""
    finals.as_told(pages, EARLY)
    pages.solves = solves_of(EARLY)
    pages.early = sorted(pages.solves, key=pages.solves.get)
    pages.page("public", "balloons")
    pages.is_listed("the list", pages.early)
    pages.same("the first of each problem", sorted(pages.browser.run(FIRST)), first_of(pages.solves))
    pages.same("numbers", pages.browser.run(NUMBERS), [str(place) for place in range(1, len(pages.early) + 1)])
    pages.sees("how far it goes", "#range", "nothing that was sent in from the freeze on")
    pages.shoot("balloons")


def try_marks(pages):
    """What was taken and delivered stays, and is seen in another tab at once."""
    one, other = pages.early[0], pages.early[5]
    pages.page("second", "balloons")
    pages.is_listed("another tab", pages.early)
    pages.browser.look_at("public")
    pages.marks(one, "taken")
    pages.marks(other, "delivered")
    pages.browser.look_at("second")
    pages.is_marked("another tab", one, True, False)
    pages.is_marked("another tab", other, True, True)
    pages.marks(one, "taken")
    pages.browser.click("#only-open")
    pages.is_listed("what isn't delivered", [balloon for balloon in pages.early if balloon != other])
    pages.browser.look_at("public")
    pages.is_marked("taken no more", one, False, False)
    pages.browser.run("document.querySelector(arguments[0]).focus()", f'{pages.row(one)} [data-mark="taken"]')
    for taken in (True, False):
        pages.browser.press("Enter")
        pages.is_marked("by the keyboard", one, taken, False)
    pages.same("the focus", pages.browser.run("return document.activeElement.dataset.mark"), "taken")
    pages.browser.reload()
    pages.is_listed("loaded anew", pages.early)
    pages.is_marked("loaded anew", other, True, True)


def try_colours(pages):
    """A colour that was chosen stays in this browser."""
    anchors = next(balloon for balloon in reversed(pages.early) if balloon.endswith(" anchors"))
    pages.sees("the first colour", pages.row(anchors), "red")
    pages.browser.choose('[data-colour="anchors"]', "navy")
    pages.sees("another colour", pages.row(anchors), "navy")
    pages.browser.reload()
    pages.sees("loaded anew", pages.row(anchors), "navy")
    colour = f"return getComputedStyle(document.querySelector('{pages.row(anchors)} .patch')).backgroundColor"
    pages.same("its patch", pages.browser.run(colour), "rgb(27, 42, 92)")
    pages.browser.look_at("second")
    pages.sees("another tab", pages.row(anchors), "navy")


def try_print(pages):
    """One sheet for each balloon."""
    pages.browser.look_at("public")
    pages.browser.run(NO_PRINTER)
    pages.marks(pages.early[3], "print")
    with pages.if_it_can("sheets of one"):
        pages.same("sheets of one", pages.browser.sheets(), 1)
    team, problem = pages.early[3].split()
    name = next(name for row, name, _ in finals.teams() if row == team)
    shown = pages.browser.run("return document.getElementById('sheets').textContent")
    pages.note(all(word in shown for word in (name, problem[0].upper(), "Balloon 4, ")), f"the sheet says {shown}")
    pages.browser.click("#print-all")
    with pages.if_it_can("sheets of all that nobody took"):
        pages.same("sheets of all that nobody took", pages.browser.sheets(), len(pages.early) - 1)


def try_back(pages):
    """A rejudging takes a balloon back, and gives another one."""
    submissions, judgements = (pages.listed(f"{AT}/{name}", "token-judge") for name in ("submissions", "judgements"))
    verdicts = {one["submission_id"]: one["judgement_type_id"] for one in judgements}
    gone = pages.early[7]
    lost = [one["id"] for one in submissions if f"{one['team_id']} {one['problem_id']}" == gone and verdicts[one["id"]] == "AC"]
    other = next(one for one in submissions if f"{one['team_id']} {one['problem_id']}" not in [*pages.early, "staff"] and one["team_id"] != "staff")
    pages.at("2024-03-02 12:40:00")  # a clock that was set back
    rejudging = pages.posts("token-judge", "jury/rejudgings", reason="tests", submission_ids=[*lost, other["id"]])
    for which in (*lost, other["id"]):
        verdict = "AC" if which == other["id"] else "WA"
        pages.posts("token-judge", f"jury/rejudgings/{rejudging['id']}/verdicts", submission_id=which, judgement_type_id=verdict)
    pages.posts("token-judge", f"jury/rejudgings/{rejudging['id']}/apply")
    pages.early.append(f"{other['team_id']} {other['problem_id']}")
    pages.loads_anew()
    pages.is_listed("after a rejudging", pages.early)
    pages.same("what was taken back", pages.browser.run(STRUCK), [gone])
    pages.sees("what was taken back", pages.row(gone), "taken back")
    pages.browser.run(NO_PRINTER)
    pages.browser.click("#print-all")
    with pages.if_it_can("sheets after a rejudging"):
        pages.same("sheets", pages.browser.sheets(), len(pages.early) - 2)


def try_looks(pages):
    """Words and borders stand out, bright and dark; nothing is wider than a phone."""
    pages.browser.run("document.querySelector('details').open = true")
    for scheme in ("dark", "light"):
        with pages.if_it_can(f"colours, {scheme}", 2):
            pages.shows_itself(scheme)
            pages.stands_out(scheme, "main :is(th, td, button, label, p, summary)", "text", 4.5)
            pages.stands_out(scheme, "main :is(select, input:not([type]))", "border", 3)
    pages.browser.as_wide_as(*PHONE, is_phone=False)
    pages.fits("the list")
    pages.browser.as_usual()


def try_freeze(pages):
    """In the freeze an analyst alone sees more, if it asks for it."""
    finals.as_told(pages, LATE)
    solves = solves_of(LATE)
    late = [balloon for balloon in sorted(solves, key=solves.get) if balloon not in pages.early[:7] + pages.early[8:]]
    pages.loads_anew()
    pages.is_listed("the public's list in the freeze", pages.early)
    pages.sign_in("analyst", "balloons", "token-watch")
    pages.sees("who is signed in", "#who", "watch (analyst)")
    pages.note(pages.browser.comes(lambda: len(pages.list()) == len(pages.early) - 1), "an analyst's list, until the freeze")
    pages.chooses_until("end")
    pages.note(pages.browser.comes(lambda: pages.list()[-len(late) :] == late), f"to the end: {pages.list()}, wanted {late} at its end")
    pages.sees("how far it goes", "#range", "To the end")
    pages.marks(late[-1], "taken")
    pages.browser.reload()
    pages.is_marked("loaded anew", late[-1], True, False)
    pages.browser.look_at("second")
    pages.loads_anew()
    pages.is_listed("the public's list", pages.early)
    pages.same("a token is kept", pages.browser.run(TOKENS), False)
    pages.late = late


def try_team(pages):
    """A team learns no more than anybody, and stays signed in."""
    pages.sign_in("team", "team", "token-t1")
    pages.sees("its page", "#who", "Night Owls")
    pages.page("team", "balloons")
    pages.sees("a team's token", "#told", "This is a team's token")
    pages.is_listed("a team's list", pages.early)
    pages.page("team", "team")
    pages.is_signed_in("the team")


def try_away(pages):
    """The list and its marks go on while the desk is away, and while replies break off."""
    pages.browser.look_at("public")
    pages.server.stop()
    pages.sees("a desk that is away", "#away", "The desk doesn't answer at the moment.")
    pages.marks(pages.early[1], "taken")
    pages.is_marked("while the desk is away", pages.early[1], True, False)
    cutter = Cutter(pages.port)
    pages.browser.reload()
    pages.sees("replies that break off", "#away", "The desk doesn't answer at the moment.")
    cutter.close()
    pages.begin(pages.moment)
    pages.is_listed("the desk is there again", pages.early)
    pages.is_marked("the desk is there again", pages.early[1], True, False)


def try_token(pages):
    """An analyst whose token was replaced is told, and the list stays; a wrong token shows the public's list."""
    pages.browser.look_at("analyst")
    pages.note(pages.browser.comes(lambda: pages.list()[-1:] == pages.late[-1:]), "the analyst's list")
    pages.asks_desk("token-adm", "POST", "jury/tokens", json.dumps({"account_id": "watch", "token": "token-newer"}))
    pages.sees("a token that was replaced", "#away", "No account has this token.")
    pages.same("the list stays", pages.list()[-1:], pages.late[-1:])
    pages.browser.reload()
    pages.sees("a token that was replaced", "#told", "No account has this token.")
    pages.is_listed("nobody is signed in", pages.early)


def try_sign_out(pages):
    """What an analyst saw of the freeze leaves the browser once somebody signs out."""
    pages.sign_in("analyst", "balloons", "token-newer")
    pages.sees("who is signed in", "#who", "watch (analyst)")
    pages.chooses_until("end")
    pages.note(pages.browser.comes(lambda: pages.list()[-len(pages.late) :] == pages.late), f"to the end: {pages.list()}")
    pages.marks(pages.late[-1], "taken")
    secret = [balloon for balloon in pages.late if balloon not in pages.early]
    pages.note(any(secret[-1] in one for one in pages.browser.run(ALL_KEPT)), "the tab keeps what it is shown")
    pages.sign_out()
    left = [one for one in pages.browser.run(ALL_KEPT) if any(balloon in one for balloon in secret) or "end" in one.split()]
    pages.same("what stays of the freeze", left, [])
    pages.is_listed("nobody is signed in", pages.early)


def try_full(pages):
    """What there is no room to keep is listed nevertheless, and told."""
    pages.browser.look_at("public")
    pages.browser.run(FILL)
    pages.loads_anew()
    pages.sees("a full storage", "#told", "There is no room to keep this")
    solved = len(pages.list())
    pages.note(solved >= len(pages.early) - 1, f"{solved} balloons are listed, wanted {len(pages.early) - 1} at least")
    pages.marks(pages.list()[0], "taken")
    pages.sees("a mark in a full storage", "#told", "There is no room to keep this")
    pages.browser.run("for (const name of Object.keys(localStorage)) if (name.startsWith('full ')) localStorage.removeItem(name)")


def try_thaw(pages):
    """After the thaw all is there, behind what was there; and the browser forgets it if somebody says so."""
    pages.at("2024-03-02 14:01:00")
    pages.asks_desk("token-adm", "PATCH", AT, '{"scoreboard_thaw_time":"2024-03-02T14:10:00.000+00:00"}')
    pages.at("2024-03-02 14:10:00")
    pages.browser.look_at("public")
    pages.loads_anew()
    pages.is_listed("after the thaw", pages.early + [balloon for balloon in pages.late if balloon not in pages.early])
    pages.sees("how far it goes", "#range", "The freeze is lifted: all is here.")
    pages.browser.click("#forget")
    pages.is_sure("to forget it", "Forget which balloons were there")
    pages.same("what was taken back", pages.browser.run(STRUCK), [])
    pages.is_marked("nothing is taken", pages.early[1], False, False)


PARTS = [try_public, try_marks, try_colours, try_print, try_back, try_looks, try_freeze, try_team, try_away, try_token, try_sign_out, try_thaw, try_full]

if __name__ == "__main__":
    sys.exit(program.main(__doc__, Balloons, PARTS, program="desk", shots=pathlib.Path(), browser=Balloons.BROWSERS))
