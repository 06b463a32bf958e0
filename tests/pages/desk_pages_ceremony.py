#!/usr/bin/env -S python3 -B
"""Goes through a ceremony on the page of web/, in a browser: from the frozen board to the last one, and back.

    desk_pages_ceremony.py [--program PATH] [--shots PATH] [--pictures PATH] [--browser NAME]

A contest of fourteen teams is held at the program behind Debian's nginx. The ceremony isn't shown before its end, nor to a team. It
begins with the public's board of the freeze; each key is one step, whose awards are those of the desk and whose places stay; it
ends, before the thaw and after it, by a token and by the file of a feed, with the rows of the thawed board, place by place. Each
step back shows what stood there. It goes on while the desk is away, and after the page was loaded anew. Replies that break off,
files that can't be read and tokens that were replaced are told. Names are text. It is read from afar. With --pictures the two pictures of README.md
are made anew in that folder.

Takes nginx, openssl, chromium, chromium-driver and faketime. Ends with the line `N passed, M failed`; the exit status is 0 if M is 0.
"""

import json
import pathlib
import sys

from desk_pages_looks import PHONE, Looks
from lib import finals, program
from lib.cutter import Cutter
from lib.finals import AT
from lib.pictures import in_few_colours

SEED = 7
IMAGE, SCRIPT = '<img src=x onerror="alert(2)">', "<script>alert(1)</script>"
ROWS = "return [...document.querySelectorAll('#board tbody tr')].map((row) => [...row.cells].map((cell) => cell.innerText).join('|'))"
CERTAIN = "return [...document.querySelectorAll('#board tbody tr')].map((row) => row.classList.contains('certain'))"
# The team and the column of a cell that is marked so.
MARKED = """const cell = document.querySelector(`#board td.${arguments[0]}`);
return cell && [cell.closest("tr").querySelector(".team").innerText, cell.cellIndex];"""
FOCUS = "document.activeElement.blur()"
FALSE_LOOKS = """const rows = [...document.querySelectorAll('#board tbody tr')].map((row) => row.getBoundingClientRect());
const lines = new Set(rows.map((row) => Math.round(row.height)));
const letters = parseFloat(getComputedStyle(document.querySelector('#board tbody .team')).fontSize);
return [document.documentElement.scrollWidth > innerWidth, lines.size, innerHeight / rows[0].height, letters / innerHeight];"""
PICTURES = {"board": (1120, 600), "ceremony": (1120, 700)}
LIMIT = 150_000


class Ceremony(Looks):
    FILES = finals.files()

    def rows(self):
        return self.browser.run(ROWS)

    def step(self, key="ArrowRight"):
        """What is shown after a key."""
        self.browser.press(key)
        return self.browser.text("#shown"), self.rows()

    def is_ready(self, what):
        self.sees(what, "#facts", "Teams: 14. Problems: 10.")

    def begins(self, what):
        self.is_ready(what)
        self.browser.click("#begin button:not([type])")
        self.sees(what, "#board", "Otters")
        self.browser.run(FOCUS)

    def all_steps(self):
        """What is shown at each step, up to the one after which a key shows nothing else."""
        steps = [("", self.rows())]
        while (step := self.step()) != steps[-1]:
            steps.append(step)
        return steps

    def gives(self, text):
        file = self.new_folder() / "feed.ndjson"
        file.write_text(text, encoding="utf-8")
        self.browser.give_file("#feed", file)
        return file

    def pictured(self, name):
        """Keeps one of the pictures of README.md, if they are asked for."""
        if self.options.pictures != pathlib.Path():
            file = self.options.pictures / f"{name}.png"
            self.options.pictures.mkdir(parents=True, exist_ok=True)
            self.browser.shot(file, *PICTURES[name])
            file.write_bytes(in_few_colours(file.read_bytes()))


def without_stars(rows):
    """Who was first to solve a problem the board knows to the minute, and the awards to the millisecond."""
    return [row.replace("★ ", "") for row in rows]


def award_lines(pages):
    """The citations of each team's awards, in their order."""
    found = {}
    for award in pages.listed(f"{AT}/awards", "token-watch"):
        for team in award["team_ids"]:
            found.setdefault(team, []).append(award["citation"])
    return found


def try_too_soon(pages):
    """Not before the end, not for a team, not for nobody."""
    finals.as_told(pages, finals.Day(SEED).all())
    pages.at("2024-03-02 13:59:00")
    pages.page("public", "scoreboard")
    pages.sees("the frozen board", "#board .pending", "?")
    pages.pictured("board")
    pages.sign_in("hall", "ceremony", "token-wrong")
    pages.sees("a wrong token", "#told", "No account has this token.")
    pages.sign_in("hall", "ceremony", "token-t1")
    pages.sees("a team's token", "#told", "Your account may not do this.")
    pages.sign_in("hall", "ceremony", "token-watch")
    pages.sees("before the end", "#told", "The contest hasn't ended.")
    pages.lacks("before the end", "#facts p")
    pages.at("2024-03-02 14:01:00")
    pages.browser.reload()
    pages.is_ready("before final results")
    pages.sees("before final results", "#facts", "It has no awards")
    pages.note("Results that the freeze holds back: " in pages.browser.text("#facts"), "how many results are held back")


def try_to_the_end(pages):
    """From the public's frozen board to the jury's, with the awards of each team at its place."""
    pages.asks_desk("token-adm", "POST", "jury/finalize", "")
    pages.browser.look_at("public")
    pages.sees("the frozen board", "#banner", "still frozen")
    frozen = pages.rows()
    pages.browser.look_at("hall")
    pages.browser.reload()
    pages.begins("the ceremony")
    pages.same("the first board", without_stars(pages.rows()), without_stars(frozen))
    pages.steps = pages.all_steps()
    held = sum(before != after for (_, before), (_, after) in zip(pages.steps, pages.steps[1:]))
    pages.note(held > 15 and len(pages.steps) > held, f"{held} results in {len(pages.steps)} steps")
    names, board = {row: name for row, name, _ in finals.teams()}, pages.listed(f"{AT}/scoreboard", "token-watch")
    lines, awards = [line for line, _ in pages.steps], award_lines(pages)
    order = [row for row in reversed(board["rows"]) if row["team_id"] in awards]
    wanted = [f"Place {row['rank']} · " + " · ".join([names[row["team_id"]], *awards[row["team_id"]]]) for row in order]
    pages.same("the places that were shown", [line for line in lines if line.startswith("Place ")], wanted)
    pages.same("all places are certain", set(pages.browser.run(CERTAIN)), {True})


def try_back(pages):
    """Each step back shows what stood there; other keys do as well, and one that is held down is one step."""
    pages.browser.run(FOCUS)
    for step in reversed(pages.steps[:-1]):
        pages.same("a step back", pages.step("ArrowLeft"), step)
    pages.same("back at the beginning", pages.step("Backspace"), pages.steps[0])
    keys = [(" ", 1), ("PageDown", 2), ("Enter", 3), ("PageUp", 2), ("Backspace", 1), ("ArrowRight", 2), ("a", 2)]
    for key, place in keys:
        pages.same(f"the key {key!r}", pages.step(key), pages.steps[place])
    held = "for (const repeat of [false, true, true]) document.body.dispatchEvent(new KeyboardEvent('keydown', {key: ' ', repeat, bubbles: true}))"
    pages.browser.run(held)
    pages.same("a key that is held down", pages.rows(), pages.steps[3][1])
    pages.browser.click("#back")
    pages.same("a click", pages.rows(), pages.steps[2][1])


def try_looks(pages):
    """Words stand out, bright and dark. A projector shows one team a line, in large letters; nothing is wider than the screen. What is
    revealed next is marked."""
    for scheme in ("dark", "light"):
        with pages.if_it_can(f"colours, {scheme}"):
            pages.shows_itself(scheme)
            pages.stands_out(scheme, "#stage :is(th, td, td b, td small, button), #shown, header h1", "text", 4.5)
    pages.browser.as_wide_as(*PHONE, is_phone=False)
    pages.fits("the ceremony")
    for size in ((1280, 720), (1920, 1080), (3840, 2160)):
        pages.browser.as_wide_as(*size)
        is_wider, heights, rows, letters = pages.browser.run(FALSE_LOOKS)
        pages.note(not is_wider and heights == 1 and 10 < rows < 18 and letters > 0.03, f"{size}: {is_wider} {heights} {rows} {letters}")
    pages.browser.as_usual()
    pages.shoot("ceremony")
    while not pages.browser.text("#shown").startswith("Place 5"):
        announced = pages.browser.run(MARKED, "next")
        pages.browser.press("ArrowRight")
        revealed = pages.browser.run(MARKED, "revealed")
        pages.same("what is revealed was marked before", revealed, announced)
    pages.browser.until(lambda: pages.browser.run("return document.getAnimations().length") == 0, "an end of what moves")
    pages.pictured("ceremony")


def try_away(pages):
    """A desk that goes away in the middle stops nothing; a page that is loaded anew goes on where it was."""
    pages.server.stop()
    place = next(place for place, (line, _) in enumerate(pages.steps) if line.startswith("Place 5"))
    pages.same("a step while the desk is away", pages.step(), pages.steps[place + 1])
    cutter = Cutter(pages.port)
    pages.browser.reload()
    pages.sees("replies that break off", "#away", "The desk doesn't answer at the moment.")
    cutter.close()
    pages.begin("2024-03-02 14:06:00")
    pages.is_ready("the desk is there again")
    pages.sees("the step that was shown", "#go-on", f"Go on after step {place + 1}")
    pages.browser.click("#go-on")
    pages.sees("the step that was shown", "#shown", pages.steps[place + 1][0])
    pages.same("the board that was shown", pages.rows(), pages.steps[place + 1][1])


def try_from_place(pages):
    """All places from below come at once, up to one."""
    pages.browser.reload()
    pages.is_ready("once more")
    pages.browser.type("#from-place", "3")
    pages.browser.click("#begin button:not([type])")
    pages.sees("the fourth place", "#shown", "Place 4")
    pages.same("places that are certain", pages.browser.run(CERTAIN), [False] * 3 + [True] * 11)


def try_file(pages):
    """The jury's feed as a file shows the same, in a tab where nobody is signed in and while the desk is away."""
    text = pages.asks_desk("token-watch", "GET", f"{AT}/event-feed").decode()
    public = pages.asks_desk(None, "GET", f"{AT}/event-feed").decode()
    pages.page("file", "ceremony")
    pages.server.stop()
    pages.gives(public)
    pages.sees("the public's feed", "#facts", "Submissions without a verdict")
    pages.browser.reload()
    pages.gives(text)
    pages.begins("the jury's feed")
    pages.same("the steps of a file", pages.all_steps(), pages.steps)
    pages.same("what the tab keeps", [one for one in pages.kept() if "token" in one], [])
    pages.begin("2024-03-02 14:07:00")


def try_bad_files(pages):
    """Files that say no contest, one that was changed after it was chosen, and one that doesn't fit together."""
    pages.page("bad", "ceremony")
    for text, words in (("no feed", "Line 1 of the feed can't be read"), ("", "this is no event feed")):
        pages.gives(text)
        pages.sees(f"the file {text!r}", "#told", words)
    contest = '{"type":"contest","id":null,"data":{"id":"x","name":"X","start_time":null,"duration":"soon"}}\n'
    pages.gives(contest)
    pages.sees("a contest without a length", "#told", "This feed can't be scored")
    gone = "const { files } = document.getElementById('feed'); files[0].text = () => Promise.reject(new Error())"
    pages.browser.run(gone + "; document.getElementById('feed').dispatchEvent(new Event('change'))")
    pages.sees("a file that has changed", "#told", "This file can't be read: it has changed since you chose it")


def try_markup(pages):
    """Names that look like markup are text, wherever they stand."""
    rows = [("contest", {"id": "x", "name": "<b>X</b>", "duration": "5:00:00", "start_time": ""}),
            ("judgement-types", {"id": "AC", "solved": True}), ("problems", {"id": "a", "label": "<i>A</i>", "name": "<u>", "ordinal": 0}),
            ("teams", {"id": "t1", "name": IMAGE}), ("submissions", {"id": "s", "team_id": "t1", "problem_id": "a", "contest_time": "0:05:00"}),
            ("judgements", {"id": "j", "submission_id": "s", "judgement_type_id": "AC"}),
            ("awards", {"id": "winner", "citation": SCRIPT, "team_ids": ["t1"]})]  # fmt: skip
    pages.page("markup", "ceremony")
    pages.gives("\n".join(json.dumps({"type": kind, "id": row["id"], "data": row}) for kind, row in rows))
    pages.sees("a small feed", "#facts", "Teams: 1. Problems: 1. Results that the freeze holds back: 0.")
    pages.browser.click("#begin button:not([type])")
    pages.sees("its board", "#board", IMAGE)
    pages.sees("its label", "#board", "<i>A</i>")
    pages.note(SCRIPT in pages.step()[0], "the award is shown")
    pages.sees("its name", "#name", "<b>X</b>")
    found = pages.browser.run("return [...document.querySelectorAll('img, i, u, script:not([src])')].map((one) => one.outerHTML)")
    pages.same("markup", found, [])


def try_two_tabs(pages):
    """Two tabs each show their own ceremony; a token that is replaced meanwhile stops neither, and is told on the next load."""
    pages.sign_in("other", "ceremony", "token-judge")
    pages.begins("another tab")
    pages.same("the other tab", pages.step(), pages.steps[1])
    pages.asks_desk("token-adm", "POST", "jury/tokens", '{"account_id":"judge","token":"token-another"}')
    pages.same("a token that was replaced", pages.step(), pages.steps[2])
    pages.browser.look_at("hall")
    pages.sees("the first tab", "#shown", "Place 4")
    pages.browser.look_at("other")
    pages.browser.reload()
    pages.sees("a token that was replaced", "#told", "No account has this token.")


def try_thawed(pages):
    """After the thaw the ceremony is the same, and its last board is the one that all see."""
    moment = "2024-03-02T14:10:00.000+00:00"
    pages.asks_desk("token-adm", "PATCH", AT, f'{{"scoreboard_thaw_time":"{moment}"}}')
    pages.at("2024-03-02 14:10:00")
    pages.sign_in("after", "ceremony", "token-adm")
    pages.begins("after the thaw")
    steps = pages.all_steps()
    pages.same("the steps after the thaw", steps, pages.steps)
    pages.browser.look_at("public")
    pages.sees("the thawed board", "#banner", "These are the final results.")
    pages.lacks("the thawed board", "#board .pending")
    for place, (given, wanted) in enumerate(zip(steps[-1][1], pages.rows(), strict=True), 1):
        pages.same(f"row {place} of the thawed board", given, wanted)


def try_pictures(pages):
    """The pictures of README.md are there, and no larger than they may be."""
    folder = program.ROOT / "docs/pictures"
    sizes = [(folder / f"{name}.png").stat().st_size if (folder / f"{name}.png").is_file() else None for name in PICTURES]
    pages.note(None not in sizes and sum(sizes) < LIMIT, f"the pictures have {sizes} bytes")


PARTS = [
    try_too_soon, try_to_the_end, try_back, try_looks, try_away, try_from_place, try_file, try_bad_files, try_markup, try_two_tabs,
    try_thawed, try_pictures,
]  # fmt: skip

if __name__ == "__main__":
    sys.exit(program.main(__doc__, Ceremony, PARTS, program="desk", shots=pathlib.Path(), browser=Ceremony.BROWSERS, pictures=pathlib.Path()))
