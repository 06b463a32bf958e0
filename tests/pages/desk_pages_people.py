#!/usr/bin/env -S python3 -B
"""Looks at the pages of web/ as different people do, in a browser: by keys alone, in each scheme, on every screen, in any script.

    desk_pages_people.py [--program PATH] [--shots PATH] [--browser NAME]

The demo contest with teams whose names are of many scripts is served by the program behind Debian's nginx. On each page, and in each
of its tabs, all that can be pressed is reached by the Tab key and isn't under the head then; each text stands out from what is behind
it by 4.5 to 1, bright and dark (WCAG 2.2, 1.4.3); nothing is wider than a screen of 390 to 3,840 pixels, and the head stays. Each
refusal of docs/FORMATS.md and of examples/nginx/ has words of its own, which say what it was and what to do, beside its name, and they
come when a page meets one.

Takes nginx, openssl, chromium, chromium-driver and faketime. Ends with the line `N passed, M failed`; the exit status
is 0 if M is 0.
"""

import base64
import json
import pathlib
import re
import sys

from lib import demo, program
from lib.cutter import Cutter
from lib.pages import Pages
from lib.program import ROOT

AT, TABS = "contests/demo", ["Judging", "Questions", "Rejudgings", "Judged", "Board", "Teams", "Clock"]
WIDTHS = [(390, 844), (768, 1024), (1366, 768), (1920, 1080), (3840, 2160)]
NAMES = ["فريق النيل", "צוות הגליל", "東京ペンギン", "한강 수달", "Ελληνική ομάδα", "Команда «Ёж»", "หมู่บ้านช้าง", "नदी के बाघ",
         "Ẓ̌a̱l̤g̈ō t́eàm̂", "👩🏽‍💻 & Söhne", "x" * 60]  # fmt: skip
MORE = [*(f"n{at},{name},north,\n" for at, name in enumerate(NAMES)), *(f"u{at},Team {at},,\n" for at in range(40))]
TEAMS = demo.FILES["teams-csv"] + "".join(MORE)
# The texts that are seen, each with what it is in and how far it stands out, of those that do so less than 4.5 to 1.
FAINT = """const numbers = (colour) => colour.match(/[\\d.]+/g).map(Number);
const behind = (at) => {
  for (; at; at = at.parentElement) {
    const colour = numbers(getComputedStyle(at).backgroundColor);
    if (colour.length < 4 || colour[3] === 1) return colour;
  }
  return numbers(getComputedStyle(document.body).backgroundColor);
};
const light = (colour) => {
  const [r, g, b] = colour.map((one) => one / 255).map((one) => one <= 0.04045 ? one / 12.92 : ((one + 0.055) / 1.055) ** 2.4);
  return 0.2126 * r + 0.7152 * g + 0.0722 * b;
};
const ratio = (at, style) => {
  const [low, high] = [light(numbers(style.color)), light(behind(at))].sort((a, b) => a - b);
  return (high + 0.05) / (low + 0.05);
};
const found = [], walker = document.createTreeWalker(document.body, NodeFilter.SHOW_TEXT);
const add = (at, text, style) => {
  if (ratio(at, style) < 4.5) found.push([at.outerHTML.slice(0, 90), text, ratio(at, style).toFixed(2)]);
};
while (walker.nextNode()) {
  const at = walker.currentNode.parentElement;
  const { data } = walker.currentNode;
  if (data.trim() && at.checkVisibility() && !at.closest("option")) add(at, data, getComputedStyle(at));
}
for (const at of document.querySelectorAll("input, select, textarea")) {
  if (!at.checkVisibility()) continue;
  add(at, at.value, getComputedStyle(at));
  if (at.placeholder) add(at, at.placeholder, getComputedStyle(at, "::placeholder"));
}
for (const at of document.querySelectorAll("#program .line")) {
  if (at.checkVisibility()) add(at, "its number", getComputedStyle(at, "::before"));
}
return found;"""
# What can be pressed or filled in, each radio button's group once. Whoever presses Tab comes to it (`seen`); what is under the head then
# is in `hidden`, by the event at which a browser has scrolled to it.
STEPS = 24  # so many more times is Tab pressed, since a field for a moment has a stop for each of its parts
PRESSED = "a[href], button:not(:disabled), input, select, textarea, [tabindex='0']"
WATCH = """const head = document.querySelector("header");
window.seen = new Set();
window.hidden = [];
window.look = ({ target }) => {
  if (head.contains(target)) return;
  const box = target.getBoundingClientRect();
  if (box.bottom <= head.getBoundingClientRect().bottom || box.top >= innerHeight) window.hidden.push(target.outerHTML.slice(0, 90));
};
for (const kind of ["focus", "focusin"]) document.addEventListener(kind, ({ target }) => window.seen.add(target), true);
document.addEventListener(arguments[0], window.look);
document.activeElement.blur();
scrollTo(0, 0);"""
MISSED = """const all = [...document.querySelectorAll(arguments[0])].filter((one) => one.checkVisibility());
const isSeen = (one) => window.seen.has(one) || (one.name && one.type === "radio" && [...window.seen].some((two) => two.name === one.name));
window.look({ target: document.activeElement });
return [all.length, all.filter((one) => !isSeen(one)).map((one) => one.outerHTML.slice(0, 90)), window.hidden];"""
# What a page tells of replies, each a status and a name in its body, and of what it says by itself, each such a pair too.
WORDS = """const [replies, own] = arguments;
return import('./shared/refusals.js').then(({ nameOf, wordsOf }) => [
  ...replies.map(([status, name]) => wordsOf(status, nameOf(status, { code: status, message: name }))),
  ...own.map((one) => wordsOf(...one)),
]);"""
HEAD = """scrollTo(0, document.documentElement.scrollHeight);
const head = document.querySelector("header").getBoundingClientRect();
const result = [document.documentElement.scrollWidth, head.top, scrollY];
scrollTo(0, 0);
return result;"""


class People(Pages):
    FILES = {**demo.FILES, "init": demo.STARTED.replace('"duration"', '"verification":true,"duration"'), "teams-csv": TEAMS}

    def submit(self, account, text="int main() {}\n"):
        value = {"problem_id": "a", "language_id": "cpp", "files": [{"data": base64.b64encode(text.encode()).decode()}]}
        return self.posts(f"token-{account}", f"{AT}/submissions", **value)["id"]

    def everywhere(self):
        """Goes to each page, and to each of its tabs; its name."""
        for who in ("nobody", "public", "team", "judge"):
            self.browser.look_at(who)
            yield who
        for tab in TABS:
            self.browser.click(f"#tab-{tab}")
            yield f"judge, {tab}"


def try_begin(pages):
    """A contest with something of everything on each page."""
    made = [pages.submit("a1") for _ in range(4)]
    for submission, verdict in zip(made, ("WA", "CE", "AC")):
        for token, step in (("token-j1", "proposals"), ("token-j2", "verifications")):
            pages.posts(token, f"jury/{step}", submission_id=submission, judgement_type_id=verdict)
    pages.submit("a2", "".join(f"int x{at};\n" for at in range(300)))
    pages.posts("token-a1", f"{AT}/clarifications", text="Is 0 allowed?")
    for text in (f"{NAMES[0]}: {NAMES[2]}", "Water is in the hall."):
        pages.posts("token-j1", f"{AT}/clarifications", text=text)
    pages.posts("token-j1", "jury/rejudgings", reason=NAMES[1], submission_ids=[made[0]])
    pages.page("nobody", "team")
    pages.page("public", "scoreboard")
    pages.sign_in("team", "team", "token-a1")
    pages.sign_in("judge", "jury", "token-j2")
    for who in ("public", "team", "judge"):
        pages.browser.look_at(who)
        pages.browser.comes(lambda: pages.browser.text("#board tbody"))
    pages.sees("what is open", "#program", "int")


def try_scripts(pages):
    """Names of any script stand as they were written, each in its own direction."""
    browser = pages.browser
    for who in ("public", "team", "judge"):
        browser.look_at(who)
        if who == "judge":
            browser.click("#tab-Board")
        found = browser.run("return [...document.querySelectorAll('#board .team > [dir=auto]')].map((one) => one.textContent)")
        pages.same(f"names on the page of {who}", sorted(set(found) & set(NAMES)), sorted(NAMES))


def try_tab(pages):
    """All that can be pressed is reached by Tab, and is seen then."""
    browser = pages.browser
    for who in pages.everywhere():
        browser.run(WATCH, browser.SCROLLED)
        count = browser.run(MISSED, PRESSED)[0]
        browser.press(*["Tab"] * (count + STEPS))
        count, missed, hidden = browser.run(MISSED, PRESSED)
        pages.note(count > 0, f"{who} has nothing to press")
        pages.same(f"{who}: what Tab doesn't come to", missed, [])
        pages.same(f"{who}: what is under the head", hidden, [])


def try_contrast(pages):
    """All texts stand out, bright and dark."""
    for scheme in ("light", "dark"):
        for who in pages.everywhere():
            with pages.if_it_can(f"faint texts, {scheme}, {who}"):
                pages.browser.shows_scheme(scheme)
                pages.same(f"faint texts, {scheme}, {who}", pages.browser.run(FAINT), [])
    pages.browser.shows_scheme("light")


def try_screens(pages):
    """Nothing is wider than the screen, and the head stays where a page is longer than it."""
    browser = pages.browser
    for width, height in WIDTHS:
        for who in pages.everywhere():
            browser.as_wide_as(width, height, is_phone=False)
            wide, top, scrolled = browser.run(HEAD)
            pages.note(wide <= width, f"{who} is {wide} wide at {width}")
            pages.note(top >= 0, f"{who}: the head is at {top} when {scrolled} are scrolled, at {width}")
            browser.as_usual()
    browser.look_at("public")
    browser.as_wide_as(3840, 2160)
    size = browser.run("return Number.parseFloat(getComputedStyle(document.querySelector('#board tbody .team')).fontSize)")
    pages.note(size >= 32, f"a name is {size} pixels high on a board of 3,840")
    browser.as_usual()


# What a page says by itself.
OWN = {"NoReply": 503, "NoTeam": 403, "NotTheDesk": 404, "OtherContest": 409, "OtherRecord": 409}


def refusals():
    """The refusals of the desk and of nginx, each with its status."""
    text = (ROOT / "docs/FORMATS.md").read_text(encoding="utf-8")
    found = {name: int(status) for status, name in re.findall(r"(?m)^\| (\d{3}) \| (\w+) \|", text)}
    nginx = (ROOT / "examples/nginx/desk.conf").read_text(encoding="utf-8")
    found.update({name: int(status) for status, name in re.findall(r'"code":(\d{3}),"message":"(\w+)"', nginx)})
    return {**found, "StoreFault": 503, "Memory": 503}


def try_words(pages):
    """Each refusal has words, which say what it was and what to do, and its name."""
    browser, names = pages.browser, {**refusals(), **OWN}
    browser.look_at("team")
    words = browser.run(WORDS, *([[status, name] for name, status in some.items()] for some in (refusals(), OWN)))
    for (name, status), said in zip(names.items(), words):
        pages.note(said.endswith(f" ({status} {name})"), f"{name} is told as {said!r}")
        pages.note(len(re.findall(r"[.?](?: |$)", said)) >= 2, f"{name} says what it was and what to do: {said!r}")
    pages.note(len(set(re.sub(r" \(.*", "", said) for said in words)) >= len(words) - 1, "each has words of its own")
    replies = [[418, "toString"], [404, "NoTeam"], [404, "Gone"], [502, ""], [429, ""]]
    found = [said.rpartition("(")[2] for said in browser.run(WORDS, replies, [])]
    wanted = ["418 NotTheDesk)", "404 NotTheDesk)", "404 NotTheDesk)", "502 Away)", "429 TooManyRequests)"]
    pages.same("replies that the desk doesn't give", found, wanted)


def try_met(pages):
    """A page that meets a refusal tells whose it is: of a post, of a desk that is away or asked too much, of a lost token."""
    browser = pages.browser
    browser.look_at("team")
    pages.at("2024-03-02 14:00:01")
    browser.type("#question-text", "Too late?")
    browser.click("#question-button")
    pages.sees("a question after the end", "#told", "Your question: The contest doesn't take this at this moment.")
    pages.sees("its name", "#told", "(409 NotOpen)")
    pages.server.stop()
    pages.sees("a desk that is away", "#away", "(503 Away)")
    cutter = Cutter(pages.port)
    pages.sees("replies that break off", "#away", "(503 NoReply)")
    cutter.close()
    pages.begin(pages.moment)
    pages.lacks("the desk is back", "#away:not([hidden])")
    pages.asks_desk("token-adm", "POST", "jury/tokens", json.dumps({"account_id": "a1", "token": "token-new-a1"}))
    pages.sees("a token that was replaced", "#away", "ask the director whether it was replaced. (401 UnknownToken)")
    pages.shoot("team-token")


PARTS = [try_begin, try_scripts, try_tab, try_contrast, try_screens, try_words, try_met]

if __name__ == "__main__":
    sys.exit(program.main(__doc__, People, PARTS, program="desk", shots=pathlib.Path(), browser=People.BROWSERS))
