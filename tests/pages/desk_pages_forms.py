#!/usr/bin/env -S python3 -B
"""Tries the forms of web/ in a browser: to whom a text goes, what is chosen at first, what is asked once more, how long a text
may be.

    desk_pages_forms.py [--program PATH] [--shots PATH] [--browser NAME]

The demo contest with verification is served by the program behind Debian's nginx; the clock is set by faketime. What a judge wrote
to one team goes to no other and not to all, unless somebody says so. A group can be written to. No verdict, problem or language
goes over from one submission to the next. Final results, the thaw, a rejudging, an extension, another token and another name are
asked about. A text of too many bytes is told so.

Takes nginx, openssl, chromium, chromium-driver and faketime. Ends with the line `N passed, M failed`; the exit status
is 0 if M is 0.
"""

import base64
import pathlib
import sys
import time

from lib import demo, program
from lib.pages import Pages

AT = "contests/demo"
CHOSEN = "return document.querySelector(arguments[0]).selectedOptions[0]?.text ?? null"


class Forms(Pages):
    FILES = {**demo.FILES, "init": demo.STARTED.replace('"duration"', '"verification":true,"duration"')}

    def chosen(self, css):
        return self.browser.run(CHOSEN, css)

    def held(self, css):
        """What a field holds."""
        return self.browser.run("return document.querySelector(arguments[0]).value", css)

    def verdict(self):
        """The verdict that is chosen."""
        return self.browser.run("return document.querySelector('#verdict-types :checked')?.value ?? null")

    def written(self):
        """What the jury wrote: to which team, to which group, the text."""
        all_of_them = self.listed(f"{AT}/clarifications")
        return [(one["to_team_id"], one.get("to_group_id"), one["text"]) for one in all_of_them if one["from_team_id"] is None]

    def stay(self, what, found, wanted):
        """The page has had time to send something, and has sent nothing."""
        time.sleep(0.5)
        self.same(what, found(), wanted)


def try_drafts(pages):
    """A text stays with the question that it answers; "Clear" clears it."""
    browser = pages.browser
    for number in (1, 2):
        pages.posts(f"token-a{number}", f"{AT}/clarifications", text=f"Question {number}")
    pages.sign_in("judge", "jury", "token-j1")
    browser.click("#tab-Questions")
    browser.type("#answer-text", "For all")
    browser.click('[data-answer="c1-1"]')
    browser.type("#answer-text", "For Alpha alone")
    browser.click("#answer-none")
    pages.same("the text after Clear", pages.held("#answer-text"), "")
    pages.same("to whom after Clear", pages.chosen("#answer-to"), "all")
    browser.click('[data-answer="c1-1"]')
    pages.same("a text that was cleared", pages.held("#answer-text"), "")
    browser.type("#answer-text", "For Alpha alone")
    browser.click('[data-answer="c2-1"]')
    pages.same("the text at another question", pages.held("#answer-text"), "")
    pages.same("to whom at another question", pages.chosen("#answer-to"), "Beta")
    browser.type("#answer-text", "For Beta alone")
    browser.click('[data-answer="c1-1"]')
    pages.same("the draft", pages.held("#answer-text"), "For Alpha alone")
    pages.same("to whom the draft goes", pages.chosen("#answer-to"), "Alpha")
    browser.click("#answer-button")
    pages.sees("the first answer", "#told", "Sent as c1-2.")
    pages.same("what is left of it", pages.held("#answer-text"), "")
    browser.click('[data-answer="c1-1"]')
    pages.same("a text that was sent", pages.held("#answer-text"), "")
    browser.click('[data-answer="c2-1"]')
    pages.same("the other draft", pages.held("#answer-text"), "For Beta alone")
    browser.choose_text("#answer-to", "all")
    browser.click("#answer-button")
    pages.is_sure("another addressee", "This was written to the team Beta. Send it to all?", "no")
    pages.stay("what is written", pages.written, [("t1", None, "For Alpha alone")])
    browser.click("#answer-button")
    pages.is_sure("another addressee", "This was written to the team Beta. Send it to all?")
    pages.sees("the second answer", "#told", "Sent as g-1.")
    pages.same("what is written then", pages.written()[1:], [(None, None, "For Beta alone")])


def try_groups(pages):
    """A word to a group, which says so to the jury and to its teams."""
    browser = pages.browser
    pages.posts("token-j2", f"{AT}/clarifications", text="Yours is open soon.", to_group_id="south")
    browser.look_at("judge")
    pages.sees("another judge's word", '[data-id="g2-1"] .address', "The jury to the group South")
    browser.choose_text("#answer-to", "North")
    browser.type("#answer-text", "Your room is open.")
    browser.click("#answer-button")
    pages.sees("a word to a group", "#told", "Sent as g1-1.")
    written = pages.written()
    pages.note((None, "north", "Your room is open.") in written, f"what is written: {written}")
    pages.sees("to whom, for the jury", '[data-id="g1-1"] .address', "The jury to the group North")
    pages.sign_in("alpha", "team", "token-a1")
    pages.sees("to whom, for its team", '[data-id="g1-1"] .address', "The jury to the group North")
    pages.sees("what went to the team", '[data-id="c1-2"] .address', "The jury to Alpha")
    browser.look_at("judge")
    browser.click('[data-answer="g1-1"]')
    pages.same("who hears more about it", pages.chosen("#answer-to"), "North")
    browser.click("#answer-none")


def try_team_choices(pages):
    """A team's problem and language are chosen for each submission."""
    browser = pages.browser
    pages.sign_in("team", "team", "token-a2")
    pages.sees("the form", "#language", "Java")
    fields = ("#problem", "#language", "#file", "#entry")
    pages.same("at first", [pages.held(css) for css in fields], [""] * 4)
    pages.submits("b")
    pages.sees("a submission", "#told", "The desk has your submission s2-1.")
    pages.same("after it", [pages.held(css) for css in fields], [""] * 4)
    browser.choose("#problem", "a")
    browser.give_file("#file", pages.program_file)
    browser.click("#submit-button")
    pages.stay("without a language", lambda: len(pages.listed(f"{AT}/submissions")), 1)
    pages.submits("a", "java")
    pages.sees("a refusal", "#told", "This language needs an entry point")
    pages.same("what is chosen after a refusal", [pages.held(css) for css in fields[:2]], ["a", "java"])
    browser.type("#entry", "Main")
    browser.click("#submit-button")
    pages.sees("the same with an entry point", "#told", "The desk has your submission s2-2.")


def try_verdict_choices(pages):
    """Whoever proposes or verifies a verdict chooses it."""
    browser = pages.browser
    pages.looks_at("judge", "s2-1")
    pages.same("at first", pages.verdict(), None)
    pages.chooses("WA")
    pages.looks_at("judge", "s2-2")
    pages.same("at another submission", pages.verdict(), None)
    browser.click("#propose")
    pages.stay("nothing is chosen", lambda: pages.listed("jury/proposals"), [])
    pages.judges("judge", "s2-1", "WA", "propose")
    pages.sees("a proposal", "#told", "s2-1: WA is proposed.")
    pages.looks_at("judge", "s2-2")
    pages.same("after a proposal", pages.verdict(), None)
    pages.sign_in("second", "jury", "token-j2")
    pages.sees("the proposal", '[data-id="s2-1"]', "WA by j1")
    pages.looks_at("second", "s2-1")
    pages.same("of the judge who verifies", pages.verdict(), None)
    browser.click("#verify")
    pages.stay("nothing is verified", lambda: pages.listed(f"{AT}/judgements"), [])
    pages.chooses("WA")
    browser.click("#verify")
    pages.sees("it is verified", "#told", "s2-1: WA is verified.")


def try_bytes(pages):
    """A text of as many letters as bytes are allowed may have too many bytes."""
    browser, long = pages.browser, "問" * 2_000
    words = "The text has 6,000 bytes, and may have 4,096."
    browser.look_at("team")
    before = len(pages.listed(f"{AT}/clarifications"))
    browser.type("#question-text", long)
    browser.click("#question-button")
    pages.sees("a long question", "#told", words)
    pages.same("the question stays", pages.held("#question-text"), long)
    browser.type("#question-text", "x" * 4_097)
    browser.click("#question-button")
    pages.sees("a byte too many", "#told", "The text has 4,097 bytes, and may have 4,096.")
    browser.look_at("judge")
    browser.click("#tab-Questions")
    browser.type("#answer-text", long)
    browser.click("#answer-button")
    pages.sees("a long answer", "#told", words)
    browser.click("#tab-Rejudgings")
    browser.type("#rejudge-reason", "問" * 100)
    browser.type("#rejudge-ids", "s2-1")
    browser.click("#rejudge-button")
    pages.sees("a long reason", "#told", "The text has 300 bytes, and may have 200.")
    pages.same("nothing was sent", len(pages.listed(f"{AT}/clarifications")), before)
    browser.look_at("team")
    browser.type("#question-text", "問" * 1_365)
    browser.click("#question-button")
    pages.sees("as long as it may be", "#told", "The jury has your question.")


def try_apply(pages):
    """A rejudging is applied once somebody has said so twice."""
    browser = pages.browser
    rejudging = pages.posts("token-j1", "jury/rejudgings", reason="0 is allowed", submission_ids=["s2-1"])["id"]
    for token in ("token-j1", "token-j2"):
        pages.posts(token, f"jury/rejudgings/{rejudging}/verdicts", submission_id="s2-1", judgement_type_id="AC")
    browser.look_at("judge")
    browser.click("#tab-Rejudgings")
    browser.click('[data-step="apply"]')
    pages.is_sure("a rejudging", f"Apply rejudging {rejudging}?", "no")
    pages.stay("it is open", lambda: pages.listed("jury/rejudgings")[0]["state"], "open")
    browser.click('[data-step="apply"]')
    pages.is_sure("a rejudging", f"Apply rejudging {rejudging}?")
    pages.sees("it is applied", "#told", f"Rejudging {rejudging} is applied.")


def try_changes(pages):
    """An extension, another token and another name likewise; a duration that is none isn't sent."""
    browser = pages.browser
    pages.sign_in("director", "jury", "token-adm")
    browser.click("#tab-Clock")
    browser.type("#extension-duration", "soon")
    browser.click("#extension button")
    pages.note(browser.text("dialog") is None, "a duration that is none is asked about")
    browser.type("#extension-duration", "5:20:00")
    browser.click("#extension button")
    pages.is_sure("an extension", "Extend the contest? It ends at Mar 2, 2024, 2:20:00", "no")
    pages.stay("as long as before", lambda: pages.listed(AT)["duration"], "5:00:00.000")
    browser.click("#tab-Teams")
    browser.type("#replace-account", "a1")
    browser.click("#replace-button")
    pages.is_sure("another token", "Replace the token of a1?", "no")
    pages.stay("the first token", lambda: pages.listed(f"{AT}/account", "token-a1")["id"], "a1")
    browser.choose_text("#correct-team", "Alpha")
    browser.type("#correct-name", "Omega")
    browser.click("#correct-button")
    pages.is_sure("another name", "Call the team Alpha from now on Omega?", "no")
    pages.stay("the first name", lambda: pages.listed(f"{AT}/teams/t1")["name"], "Alpha")


def try_clock(pages):
    """Final results and the thaw likewise."""
    browser = pages.browser
    base = {"problem_id": "a", "language_id": "cpp", "files": [{"data": base64.b64encode(b"x").decode()}]}
    pages.same("a submission by a program", pages.posts("token-a1", f"{AT}/submissions", **base)["id"], "s1-1")
    for submission in ("s2-2", "s1-1"):
        for token, step in (("token-j1", "proposals"), ("token-j2", "verifications")):
            pages.posts(token, f"jury/{step}", submission_id=submission, judgement_type_id="AC")
    pages.at("2024-03-02 14:00:00")
    browser.look_at("director")
    browser.click("#tab-Clock")
    browser.click("#finalize button")
    pages.is_sure("final results", "Make the results final?", "no")
    pages.stay("they aren't final", lambda: pages.listed(f"{AT}/state")["finalized"], None)
    browser.choose("#thaw-time", "2024-03-02T15:00:00")
    browser.click("#thaw button")
    pages.is_sure("the thaw", "Lift the freeze at Mar 2, 2024, 3:00:00", "no")
    pages.stay("no thaw", lambda: pages.listed(AT)["scoreboard_thaw_time"], None)
    browser.click("#thaw button")
    pages.is_sure("the thaw", "Lift the freeze at Mar 2, 2024, 3:00:00")
    pages.sees("the thaw", "#told", "The clock is set.")
    browser.click("#finalize button")
    pages.is_sure("final results", "Make the results final?")
    pages.sees("final results", "#told", "The results are final.")
    state = pages.listed(f"{AT}/state")
    pages.note(state["finalized"] is not None and state["thawed"] is None, f"the state {state}")
    pages.same("the thaw that is set", pages.listed(AT)["scoreboard_thaw_time"], "2024-03-02T15:00:00.000+00:00")


PARTS = [
    try_drafts, try_groups, try_team_choices, try_verdict_choices, try_bytes, try_apply, try_changes, try_clock
]  # fmt: skip

if __name__ == "__main__":
    sys.exit(program.main(__doc__, Forms, PARTS, program="desk", shots=pathlib.Path(), browser=Forms.BROWSERS))
