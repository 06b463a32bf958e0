#!/usr/bin/env -S python3 -B
"""Tries the page of web/ that prints slips with the tokens of teams, in a browser.

    desk_pages_slips.py [--program PATH] [--shots PATH] [--browser NAME]

A contest of fourteen teams and a hidden one is served by the program behind Debian's nginx. The page reads the file of accounts: each
team has a slip with its name, the address, and its token letter by letter; nobody else has one. The file goes nowhere: the page asks
for the teams alone, and keeps nothing. What is wrong with a file is told: another header, records at fault, teams that aren't there,
teams without an account, another encoding, a file that can't be read. A desk that is away, and replies that break off, are waited
for. Files are read as the second opinion reads them.

Takes nginx, openssl, chromium, chromium-driver and faketime. Ends with the line `N passed, M failed`; the exit status is 0 if M is 0.
"""

import pathlib
import sys
import time

from desk_pages_looks import PHONE, Looks
from lib import finals, program
from lib.cutter import Cutter
from lib.replay_opinion import records_of

ACCOUNTS = finals.files()["accounts-csv"]
SLIPS = """return [...document.querySelectorAll('.slip')].map((slip) => [
  slip.dataset.team, slip.querySelector('h2').innerText, slip.querySelector('.token').innerText, slip.querySelector('.address').innerText]);"""
DIGITS = "return [...document.querySelectorAll('.slip .digit')].every((one) => /^\\d+$/.test(one.innerText))"
ASKED = "return performance.getEntriesByType('resource').map((one) => one.name)"
KEPT = "return Object.keys(sessionStorage).length + Object.keys(localStorage).length"
PRINT = "window.print = () => { window.printed = true; }; document.getElementById('print').click(); return window.printed"
RECORDS = "const texts = arguments[0]; return import('./slips/csv.js').then(({ recordsOf }) => texts.map(recordsOf))"
MANY = '\ufeffid,role,team_id,token\r\n"t1",team,t1,"a""b"\r\r\n\n"",x\n"open,\n'
TEXTS = [
    "", "\n", "a", "a,b", "a,b,", ",", '""', '"', '"a', '"a"b"c",d', 'a"b"', '"a""', '"a,\r\nb",c\rd\n\ne', " \n", MANY, "\ufeff\ufeffa", 'x,"',
    *('"a"\n"b"', "a\r\rb", '"",""', '"\n', ",\n,", 'a,"b"\n'),
]  # fmt: skip


class Slips(Looks):
    FILES = finals.files()

    def gives(self, text, encoding="utf-8"):
        file = self.new_folder() / "accounts.csv"
        file.write_text(text, encoding=encoding)
        self.browser.give_file("#accounts", file)

    def slips(self):
        return self.browser.run(SLIPS)


def try_slips(pages):
    """A slip for each team, and for nobody else; a sheet has four."""
    pages.page("slips", "slips")
    pages.gives(ACCOUNTS)
    pages.sees("the slips", "#told", "Slips: 15.")
    address = f"https://127.0.0.1:{pages.nginx.port}/demo/team.html"
    names = {row: name for row, name, _ in finals.teams()} | {"staff": "Staff"}
    pages.same("the slips", pages.slips(), [[row, name, f"token-{row}", address] for row, name in names.items()])
    pages.same("digits are underlined", pages.browser.run(DIGITS), True)
    pages.sees("the others", "#notes", "No slip for who is no team: judge, adm, watch.")
    pages.note("token-judge" not in pages.browser.run("return document.documentElement.outerHTML"), "a judge's token is shown")
    pages.same("printed", pages.browser.run(PRINT), True)
    with pages.if_it_can("sheets for 15 slips"):
        pages.note(pages.browser.sheets() <= 5, f"{pages.browser.sheets()} sheets for 15 slips")
    pages.browser.type("#address", "https://cup.example/team.html")
    pages.browser.run("document.activeElement.blur()")
    pages.sees("another address", ".slip .address", "https://cup.example/team.html")
    pages.shoot("slips")


def try_nowhere(pages):
    """The page asked for the teams alone, and keeps nothing."""
    # (a browser asks each machine for its icon, too)
    asked = [name.partition("/demo/")[2] for name in pages.browser.run(ASKED) if not name.endswith("/favicon.ico")]
    of_desk = {name for name in asked if "." not in name}
    pages.same("what the desk was asked", of_desk, {"contests", "contests/demo/teams"})
    pages.note(not any("token-" in name for name in asked), f"what was asked: {asked}")
    pages.same("what is kept", pages.browser.run(KEPT), 0)
    pages.browser.reload()
    pages.same("after the page was loaded anew", pages.slips(), [])


def look_at_all(pages):
    """Words and borders stand out, bright and dark; nothing is wider than a phone."""
    for scheme in ("dark", "light"):
        with pages.if_it_can(f"colours, {scheme}", 2):
            pages.shows_itself(scheme)
            pages.stands_out(scheme, "main :is(p, li, label, button), .slip :is(h2, p, span, small)", "text", 4.5)
            pages.stands_out(scheme, "main input", "border", 3)
    pages.browser.as_wide_as(*PHONE, is_phone=False)
    pages.fits("the slips")
    pages.browser.as_usual()


def try_faults(pages):
    """Files at fault."""
    pages.gives("id,role,team,token\nt1,team,t1,token-t1\n")
    pages.sees("another header", "#told", "This isn't a file of accounts")
    pages.gives(ACCOUNTS.replace(",", ";"))
    pages.sees("semicolons", "#told", "This isn't a file of accounts")
    pages.same("slips of such a file", pages.slips(), [])
    pages.gives(ACCOUNTS.replace("token-t1\n", "tökén\n"), "latin-1")
    pages.sees("another encoding", "#told", "This file isn't text in UTF-8.")
    pages.gives(ACCOUNTS.replace("t2,team,t2,", "t2,team,ghost,").replace("t3,team,t3,token-t3", "t3,team,t3"))
    pages.sees("records at fault", "#told", "Slips: 13.")
    for words in ("Record 3 hasn't four fields", "Record 2: the desk has no team ghost.", "Oslo Penguins (t2) has no account", "(t3) has no account"):
        pages.sees("records at fault", "#notes", words)
    look_at_all(pages)
    gone = "document.getElementById('accounts').files[0].arrayBuffer = () => Promise.reject(new DOMException('', 'NotReadableError'));"
    pages.browser.run(gone + "document.getElementById('accounts').dispatchEvent(new Event('change'))")
    pages.sees("a file that has changed", "#told", "This file can't be read: it has changed since you chose it")
    pages.same("slips of such a file", pages.slips(), [])


def try_away(pages):
    """A desk that is away, and replies that break off, are waited for; nginx keeps what it was answered for two seconds."""
    pages.server.stop()
    time.sleep(2.5)
    pages.gives(ACCOUNTS)
    pages.sees("a desk that is away", "#told", "The desk doesn't answer at the moment.")
    cutter = Cutter(pages.port)
    pages.note(pages.browser.comes(lambda: cutter.requests), "replies that break off")
    pages.same("slips without names", pages.slips(), [])
    cutter.close()
    pages.begin(pages.moment)
    pages.sees("the desk is there again", "#told", "Slips: 15.")
    pages.server.stop()
    time.sleep(2.5)
    pages.browser.reload()
    pages.gives(ACCOUNTS)
    pages.sees("a page that is loaded meanwhile", "#away", "The desk doesn't answer at the moment.")
    pages.begin(pages.moment)
    pages.sees("a file that was chosen before the desk was there", "#told", "Slips: 15.")


def try_records(pages):
    """Files are read as the second opinion reads them."""
    given = pages.browser.run(RECORDS, TEXTS)
    for text, records in zip(TEXTS, given):
        pages.same(f"{text!r}", records, [[field.decode() for field in record] for record in records_of(text.encode())])


if __name__ == "__main__":
    sys.exit(program.main(__doc__, Slips, [try_slips, try_nowhere, try_faults, try_away, try_records], program="desk", shots=pathlib.Path(), browser=Slips.BROWSERS))
