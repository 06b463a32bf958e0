#!/usr/bin/env -S python3 -B
"""Judges on the jury's page of web/, in a browser, by keys: what waits opens by itself, and is judged by two actions each.

    desk_pages_judging.py [--program PATH] [--shots PATH] [--browser NAME]

The demo contest with verification and forty submissions, each of which says its verdict, is served by the program behind Debian's
nginx. One judge proposes forty verdicts and another verifies them, by two keys each, and reads each verdict in the file that is
shown. The list keeps the focus and how far it is scrolled when it is renewed. Two judges at one submission are told so at once. A
desk that is away, a reply that breaks off, a second tab and a token that is replaced lose no verdict and give none twice. Marks of
direction in a program are shown. Once the newest copy of the contest is old the page says so.

Takes nginx, openssl, chromium, chromium-driver and faketime. Ends with the line `N passed, M failed`; the exit status
is 0 if M is 0.
"""

import base64
import json
import pathlib
import sys
import time

from lib import demo, program
from lib.pages import Pages

AT = "contests/demo"
COUNT, MOST = 40, 2
VERDICTS, PROBLEMS = ["AC", "WA", "WA", "CE"], ["a", "b"]
LANGUAGES = [{"language_id": "cpp"}, {"language_id": "java", "entry_point": "Main"}]
# What is looked at: the id in the title, the first line of the file, and the key of the verdict that this line names.
SHOWN = """if (!document.querySelector('#verdict')?.checkVisibility()) return [null, null, null];
const id = document.querySelector('#verdict-title').innerText.split(',')[0];
const verdict = /^\\/\\/ (\\w+)/.exec(document.querySelector('#program').innerText)?.[1] ?? null;
return [id, verdict, document.querySelector(`[data-verdict="${verdict}"] kbd`)?.innerText];"""
# Where the focus is, and how far the window and the file are scrolled.
PLACE = """const one = document.activeElement;
return [one.dataset.look ?? one.tagName, scrollY, document.querySelector('#program').scrollTop];"""
GO_TO = "const one = document.querySelector(arguments[0]); one.scrollIntoView({ block: 'center' }); one.focus()"
LIST = "return [...document.querySelectorAll('#waiting tbody tr')].map((one) => one.dataset.id)"
# The marks of direction that are shown, and whether the letters behind the first go from left to right. Firefox tells of which
# attribute it shows the text, and Chromium the text.
MARKS = """return [...document.querySelectorAll('#program .mark')].map((one) => {
  const { content } = getComputedStyle(one, '::before'), name = /^attr\\(([\\w-]+)\\)$/.exec(content)?.[1];
  return name ? one.getAttribute(name) : content.slice(1, -1);
});"""
IN_ORDER = """const text = document.querySelector('#program .mark')?.nextSibling ?? document.querySelector('#program .line:nth-child(2)').firstChild;
const lefts = [0, 1, 2, 3].map((place) => {
  const range = document.createRange();
  range.setStart(text, text.data.lastIndexOf(';b t') + place);
  range.setEnd(text, text.data.lastIndexOf(';b t') + place + 1);
  return range.getBoundingClientRect().left;
});
return lefts.every((left, place) => place === 0 || lefts[place - 1] < left);"""
SAVED = """const saved = [];
window.saved = saved;
HTMLAnchorElement.prototype.click = function () { saved.push(this.download); };"""


class Judging(Pages):
    FILES = {**demo.FILES, "init": demo.STARTED.replace('"duration"', '"verification":true,"duration"')}

    def submit(self, team, number, verdict, lines=3):
        """A team's submission that says its verdict; its id."""
        text = f"// {verdict}\n" + "".join(f"int line{at};\n" for at in range(2, lines + 1))
        value = {"problem_id": PROBLEMS[number % 2], **LANGUAGES[number // 2 % 2]}
        data = base64.b64encode(text.encode()).decode()
        return self.posts(f"token-a{team}", f"{AT}/submissions", **value, files=[{"data": data}])["id"]

    def shown(self):
        return self.browser.run(SHOWN)

    def opens(self, what, is_so):
        """The submission that opens, once its file is shown; (None, None, None) if none does in time."""
        found = [None, None, None]

        def has_come():
            found[:] = self.shown()
            return found[1] is not None and is_so(found[0])

        self.note(self.browser.comes(has_come), f"{what}: {found} is open")
        return found

    def goes_through(self, count):
        """Judges what opens, by keys alone, and tells what was given and by how many keys."""
        given, pressed, last = {}, 0, None
        for _ in range(count):
            which, verdict, key = self.opens("the next", lambda found: found != last)
            self.browser.press(key)
            self.browser.press("Enter")
            given[which], pressed, last = verdict, pressed + 2, which
        return given, pressed

    def proposed(self, submission):
        """Who proposed what for a submission last."""
        found = [one for one in self.listed("jury/proposals") if one["submission_id"] == submission]
        return [(one["account_id"], one["judgement_type_id"]) for one in found]

    def says(self, token, step, submission, verdict):
        self.posts(token, f"jury/{step}", submission_id=submission, judgement_type_id=verdict)

    def looks(self, who, submission):
        """A judge looks at a submission, on a page that is loaded anew."""
        self.browser.look_at(who)
        self.browser.reload()
        self.browser.click(f'[data-look="{submission}"]')
        self.opens(f"{who} looks", lambda found: found == submission)


def try_forty(pages):
    """Forty wait: one judge proposes a verdict for each, by two keys each, and then nothing waits for that judge."""
    pages.wanted = {}
    for number in range(COUNT):
        verdict = VERDICTS[number % len(VERDICTS)]
        pages.wanted[pages.submit(number % 3 + 1, number, verdict)] = verdict
    pages.sign_in("first", "jury", "token-j1")
    pages.sees("what waits", "#tab-Judging", f"Judging ({COUNT})")
    given, pressed = pages.goes_through(COUNT)
    pages.sees("all is proposed", "#told", "Nothing waits for you.")
    pages.same("what one judge read", given, pages.wanted)
    pages.note(pressed <= MOST * COUNT, f"{pressed} actions for {COUNT} submissions")
    found = {one["submission_id"]: (one["account_id"], one["judgement_type_id"]) for one in pages.listed("jury/proposals")}
    pages.same("proposals", found, {which: ("j1", verdict) for which, verdict in pages.wanted.items()})


def try_verified(pages):
    """Another judge verifies them, by two keys each too."""
    browser = pages.browser
    pages.sign_in("second", "jury", "token-j2")
    browser.choose("#filter-shown", "verify")
    pages.sees("mine to verify", "#waiting-title", f"({COUNT})")
    pages.sees("who proposed", "#verdict-proposal", "j1 proposes")
    pages.shoot("jury-keys")
    given, pressed = pages.goes_through(COUNT)
    pages.sees("all is verified", "#told", "Nothing waits for you.")
    pages.same("what the other judge read", given, pages.wanted)
    pages.note(pressed <= MOST * COUNT, f"{pressed} actions for {COUNT} submissions")
    found = {one["submission_id"]: one["judgement_type_id"] for one in pages.listed(f"{AT}/judgements")}
    pages.same("verdicts", found, pages.wanted)
    browser.choose("#filter-shown", "all")


def try_keys(pages):
    """No key gives a verdict that nobody chose, a key in a field is the field's, and what closes stays closed."""
    browser = pages.browser
    made = [pages.submit(1, number, "WA", 200) for number in range(4)]
    browser.look_at("first")
    browser.reload()
    pages.opens("by itself", lambda found: found == made[0])
    browser.press("Enter")
    pages.sees("nothing is chosen", "#verdict-told", "Choose a verdict first")
    pages.same("what is proposed", pages.proposed(made[0]), [])
    lines = browser.run("return [...document.querySelectorAll('#program .line')].map((one) => getComputedStyle(one, '::before').content)")
    pages.same("numbered lines", (len(lines), lines[0]), (200, "counter(line)"))
    pages.same("the text of lines", browser.text("#program").splitlines()[1], "int line2;")
    browser.run(SAVED)
    browser.press("s", "n")
    pages.opens("the next", lambda found: found == made[1])
    pages.same("the name of the file", browser.run("return window.saved"), [f"{made[0]}.cpp"])
    browser.press("2")
    browser.click("#tab-Questions")
    browser.type("#answer-text", "1")
    browser.press("Enter", "3")
    pages.same("the answer", browser.run("return document.getElementById('answer-text').value"), "1\n3")
    browser.type("#answer-text", "")
    browser.click("#tab-Judging")
    pages.same("the verdict that is chosen", browser.run("return document.querySelector('#verdict-types :checked').value"), "WA")
    browser.press("Escape")
    time.sleep(4)
    pages.same("what is open after it was closed", pages.shown()[0], None)
    browser.click(f'[data-look="{made[2]}"]')
    pages.opens("what is looked at", lambda found: found == made[2])
    browser.press("n")
    pages.opens("behind it", lambda found: found == made[3])


def try_filters(pages):
    """By problem, by language, and what nobody has looked at."""
    browser = pages.browser
    made = browser.run(LIST)
    pages.same("what waits", len(made), 4)
    browser.choose("#filter-problem", "b")
    pages.same("problem b", browser.run(LIST), [made[1], made[3]])
    browser.choose("#filter-language", "java")
    pages.same("problem b in Java", browser.run(LIST), [made[3]])
    browser.choose("#filter-problem", "")
    browser.choose("#filter-language", "")
    browser.choose("#filter-shown", "unseen")
    browser.press("n")
    pages.sees("what was looked at", "#waiting-title", f"(0 of {len(made)})")
    browser.choose("#filter-shown", "verify")
    pages.same("mine to verify", browser.run(LIST), [])
    browser.choose("#filter-shown", "all")
    pages.same("all again", browser.run(LIST), made)


def try_renewed(pages):
    """The list is renewed: one goes, one comes. The focus and what is scrolled stay."""
    browser = pages.browser
    made = [pages.submit(2, number, "CE", 200) for number in range(14)]
    pages.looks("first", made[0])
    browser.run("document.getElementById('program').scrollTop = 300")
    browser.run(GO_TO, f'[data-look="{made[9]}"]')
    time.sleep(0.3)
    before = browser.run(PLACE)
    pages.same("the focus", before[0], made[9])
    for token, step in (("token-j2", "proposals"), ("token-adm", "verifications")):
        pages.says(token, step, made[5], "CE")
    new = pages.submit(3, 0, "AC")
    started = time.monotonic()
    while new not in browser.run(LIST) and time.monotonic() < started + 33:
        time.sleep(0.5)
    now = browser.run(LIST)
    pages.note(new in now and made[5] not in now, f"after {time.monotonic() - started:.0f} s the list is {now}")
    after = browser.run(PLACE)
    pages.same("the focus and the file then", (after[0], after[2]), (before[0], 300))
    pages.same("how far the window is scrolled", after[1], before[1])
    browser.press("Enter")
    pages.opens("by Enter in the list", lambda found: found == made[9])
    pages.rest = made[10:]


def try_two_judges(pages):
    """Two judges look at one submission: each is told at once what the other does."""
    browser, (one, two, three, four) = pages.browser, pages.rest
    pages.looks("second", one)
    pages.looks("first", one)
    browser.press("3", "Enter")
    pages.opens("the next", lambda found: found not in (None, one))
    browser.look_at("second")
    pages.sees("what came meanwhile", "#verdict-proposal.changed", "j1 proposes CE.")
    browser.press("2", "Enter")
    pages.sees("a second verdict", "#verdict-told", "The last proposal names another verdict.")
    pages.same("what stands", pages.proposed(one), [("j1", "CE")])
    browser.click("#propose")
    pages.opens("the next", lambda found: found not in (None, one))
    browser.look_at("first")
    pages.sees("whose proposal was replaced", "#told", f"{one}: j2 proposed WA after your CE.")
    try_overtaken(pages, [two, three])
    pages.looks("first", four)
    for token, step in (("token-j2", "proposals"), ("token-adm", "verifications")):
        pages.says(token, step, four, "CE")
    pages.sees("a verdict that came meanwhile", "#verdict-proposal.changed", "It has its verdict: CE.")
    browser.press("Enter")
    pages.opens("the next", lambda found: found not in (None, four))


def try_overtaken(pages, made):
    """A judge proposes what another has proposed a moment ago: nothing is sent, and it is told. If the page has heard of it, Enter
    verifies; then the same is tried with the next submission."""
    browser = pages.browser
    for which in made:
        pages.looks("first", which)
        pages.says("token-j2", "proposals", which, "WA")
        browser.press("3", "Enter")
        browser.until(lambda: browser.text("#verdict-told"), "what came of it")
        told = browser.text("#verdict-told")
        pages.same(f"what stands of {which}", pages.proposed(which), [("j2", "WA")])
        if "The last proposal" not in told:
            break
    pages.note("j2 proposed WA meanwhile. Nothing was sent." in told, f"who was overtaken is told {told!r}")
    browser.press("2", "Enter")
    pages.opens("it is verified", lambda found: found not in (None, which))
    pages.same("its verdict", pages.listed(f"{AT}/judgements/{which}.1")["judgement_type_id"], "WA")


def try_away(pages):
    """A desk that is away, and replies that break off: the verdict is sent again by a page that is loaded anew, and stands once."""
    browser = pages.browser
    which = pages.submit(3, 1, "WA")
    pages.looks("first", which)
    with pages.breaking() as breaker:
        browser.press("2", "Enter")
        is_cut = browser.comes(lambda: any(one.startswith(b"POST ") for one in breaker.requests))
        pages.note(is_cut, "a verdict whose reply breaks off")
        pages.sees("a verdict whose reply breaks off", "#told", "Sending ..")
    pages.sees("a desk that is away", "#away", "The desk doesn't answer at the moment.")
    browser.reload()
    pages.begin(pages.moment)
    pages.sees("the verdict that was sent again", "#told", f"{which}: WA is proposed.")
    try_meanwhile(pages)
    pages.same("what stands", pages.proposed(which), [("j1", "WA")])
    pages.sees("what is open", "#verdict-title", "s")
    pages.page("first again", "jury")
    pages.sign_in("first again", "jury", "token-j1")
    browser.click(f'[data-look="{which}"]')
    pages.sees("the second tab of a judge", "#verdict-proposal", "You proposed WA. Another judge has to verify it.")


def try_meanwhile(pages):
    """Whoever gives a verdict while the last one is on its way is told so, and nothing is sent."""
    browser, (one, other) = pages.browser, [pages.submit(3, number, "WA") for number in range(2)]
    pages.looks("first", one)
    pages.server.stop()
    browser.press("2", "Enter")
    pages.sees("it waits", "#told", "Sending ..")
    browser.click(f'[data-look="{other}"]')
    pages.sees("another one meanwhile", "#verdict-title", f"{other}, ")
    browser.press("2", "Enter")
    pages.sees("a verdict meanwhile", "#verdict-told", "The last one is still on its way: this one isn't sent yet.")
    pages.begin(pages.moment)
    pages.sees("the first one", "#told", f"{one}: WA is proposed.")
    pages.same("what stands of the other", pages.proposed(other), [])
    browser.press("Enter")
    pages.sees("the other one", "#told", f"{other}: WA is proposed.")


def try_marks(pages):
    """A mark that turns the direction of a program round is shown by its name, and turns nothing."""
    browser = pages.browser
    text = "// WA\nint a; /* \u202e;b tni \u2066 */\n"
    value = {"problem_id": "a", "language_id": "cpp", "files": [{"data": base64.b64encode(text.encode()).decode()}]}
    which = pages.posts("token-a1", f"{AT}/submissions", **value)["id"]
    pages.looks("first", which)
    pages.same("marks", browser.run(MARKS), ["RLO", "LRI"])
    pages.note(browser.run(IN_ORDER), "letters behind a mark stand in their order")
    pages.same("its text", browser.run("return document.querySelector('#program .line:nth-child(2)').textContent"), text.splitlines()[1])
    pages.shoot("jury-marks")


def try_copies(pages):
    """The jury is told once the newest copy of the contest is old. Where nobody makes copies it is told nothing."""
    file, told = pages.nginx.folder / "demo.json", "The newest copy of the contest is 10 minutes old: copies have stopped."
    pages.same("without copies", pages.is_there("#copied:not([hidden])"), False)
    file.write_text('{"time":"2024-03-02T08:55:00.000+00:00"}', encoding="utf-8")
    pages.looks_anew("first")
    pages.sees("an old copy", "#copied", told)
    file.write_text('{"time":"2024-03-02T09:04:30.000+00:00"}', encoding="utf-8")
    pages.browser.reload()
    pages.sees("loaded anew", "#verdict-title", "s")
    time.sleep(4)
    pages.same("a new copy", pages.is_there("#copied:not([hidden])"), False)


def try_token(pages):
    """A judge's token is replaced: the page says so, and a verdict by it waits until its account is there by the new token."""
    browser, open_now = pages.browser, pages.submit(3, 2, "AC")
    pages.looks("first", open_now)
    pages.asks_desk("token-adm", "POST", "jury/tokens", json.dumps({"account_id": "j1", "token": "token-new-j1"}))
    browser.press("1", "Enter")
    pages.sees("the old token", "#told", "Sending .. No account has this token.")
    pages.same("what stands", pages.listed("jury/proposals", "token-adm")[-1]["submission_id"] == open_now, False)
    pages.sees("the old token", "#away", "No account has this token.")
    pages.sign_out()
    browser.type("#token", "token-new-j1")
    browser.click("#sign-in button")
    pages.sees("by the new token", "#told", f"{open_now}: AC is proposed.")


PARTS = [try_forty, try_verified, try_keys, try_filters, try_renewed, try_two_judges, try_away, try_marks, try_copies, try_token]

if __name__ == "__main__":
    sys.exit(program.main(__doc__, Judging, PARTS, program="desk", shots=pathlib.Path(), browser=Judging.BROWSERS))
