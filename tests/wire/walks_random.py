#!/usr/bin/env -S python3 -B
"""Has the desk answer requests and imports made from a seed, and holds each answer beside a second opinion.

    walks_random.py [--program PATH] [--walks N] [--steps N] [--seed N]

The program is walks, which reads walks with the answers that they must get (crates/walks/data/README.md says how
they are written). The answers are those of lib/desk_opinion.py. Each walk begins at a desk at which nothing is set up.

Ends with the line `N passed, M failed`; the exit status is 0 if M is 0.
"""

import base64
import collections
import re
import sys

from lib import desk_opinion, program, verdict_file_opinion
from lib.adder import Adder
from lib.changer import Changer
from lib.clarifier import Clarifier
from lib.demo import AT_REHEARSAL, REHEARSAL, START
from lib.desk_opinion import moment
from lib.director import ACCOUNTS, IDS, SETTINGS, Director
from lib.import_opinion import compact
from lib.program import Program, ran
from lib.rejudger import JURY, Rejudger
from lib.requester import prolonging
from lib.timekeeper import Timekeeper

KEYS = [None, None, "k1", "k2", "k3", "?"]
FILES = [b"abc", b"", b"abd", bytes(7)]


class Asker(Adder, Changer, Clarifier, Director, Rejudger, Timekeeper):
    """What is asked next, by a seed."""

    def post(self):
        problem, language = self.often(self.one("abc"), ["x", "-x", None], 0.9), self.often("cpp", ["java", "java", "c", None], 0.7)
        body = {"problem_id": problem, "language_id": language}
        body["files"] = [{"data": self.often(base64.b64encode(self.one(FILES)).decode(), ["YWJ", "YWJj=", 3, "é"], 0.95)}]
        body["entry_point"] = self.often(None, ["", "Main", "x" * 201], 0.4 if language == "java" else 0.95)
        body["team_id"] = self.often(None, ["t1", "t2", 1], 0.9)
        body = {name: value for name, value in body.items() if value is not None or self.random.random() < 0.5}
        return self.often(compact(body), ["", "{", "[]", '{"files":[]}'], 0.97)

    def proposal(self, contest):
        made = [desk_opinion.submission_id(contest, one) for one in contest["submissions"]] or ["s1-1"]
        which = self.often(self.one(made), [f"s{self.random.randint(1, 3)}-{self.random.randint(1, 4)}"], 0.8)
        body = {"submission_id": self.often(which, ["s1", "s1-01", 3], 0.95), "judgement_type_id": self.often("AC", ["WA", "CE", "TLE", None], 0.5)}
        return self.often(compact(body), ["", "7"], 0.97)

    def request(self, contest):
        """A method, a path and a body."""
        if self.random.random() < 0.5:
            return "POST", self.often(f"{AT_REHEARSAL}/submissions", ["/contests/cup/submissions"], 0.98), self.post()
        if self.random.random() < 0.4:
            path = self.often("/jury/proposals", ["/jury/verifications"], 0.6)
            return self.often("POST", ["GET", "HEAD", "PATCH"], 0.9), path, self.proposal(contest)
        if self.random.random() < 0.4:
            path = self.often(f"{AT_REHEARSAL}/scoreboard", [f"{AT_REHEARSAL}/judgements", f"{AT_REHEARSAL}/awards", f"{AT_REHEARSAL}/groups/north/scoreboard"], 0.4)
            ids = [f"/s{team}-{number}.{n}" for team in (1, 2, 3) for number in (1, 2) for n in (1, 1, 2)]
            if path.endswith("awards"):
                ids = ["/winner", "/gold-medal", "/first-to-solve-a", "/first-to-solve-b", "/group-winner-north", "/x"]
            path += self.often("", ids, 0.6) if not path.endswith("scoreboard") else self.often("", ["/", "/x"], 0.95)
            return self.often("GET", ["HEAD", "POST"], 0.95), path, ""
        if self.random.random() < 0.4:
            which = f"s{self.often(1, [2, 3, 4])}-{self.often('1', ['2', '3', '01'], 0.6)}"
            path = self.often(f"{AT_REHEARSAL}/submissions/{which}/files", ["/contests", AT_REHEARSAL, f"{AT_REHEARSAL}/state"], 0.5)
            path = self.often(path, ["/contests/cup", "/contests/", f"{AT_REHEARSAL}/states", f"{AT_REHEARSAL}/submissions//files"], 0.95)
            return self.often("GET", ["HEAD", "POST", "PATCH", "PUT"], 0.9), path, ""
        if self.random.random() < 0.15:
            feed = f"{AT_REHEARSAL}/event-feed"
            return self.often("GET", ["HEAD", "POST"], 0.9), self.often(feed, ["/contests/cup/event-feed", f"{feed}/", f"{feed}/1"], 0.9), ""
        name = self.often("submissions", SETTINGS, 0.7)
        ids = IDS.get(name, ["s1-1", "s1-2", "s2-1", "s3-1", "s1-01"])
        path = f"{AT_REHEARSAL}/{name}" + self.often("", [f"/{self.one(ids)}", "/x", "/"], 0.6)
        return self.often("GET", ["HEAD", "POST", "PATCH", "PUT"], 0.85), path, ""


def next_request(chance, contest):
    """Who asks, a key, a method, a path and a body."""
    what = chance.random.random()
    if what > 0.95:
        return chance.about_clock(contest, ACCOUNTS)
    if what > 0.92:
        return chance.about_rows(contest, ACCOUNTS)
    if what > 0.86:
        return chance.about_changes(contest, ACCOUNTS)
    if what < 0.5:
        return (chance.about_clarifications if what < 0.25 else chance.about_rejudgings)(contest, ACCOUNTS)
    who = chance.often(f"token-{chance.one(ACCOUNTS)}", ["public", "bad token", "token-none"], 0.85)
    method, path, body = chance.request(contest)
    who = chance.often(f"token-{chance.one(JURY)}", [who], 0.8) if path.startswith("/jury/") else who
    return who, chance.one(KEYS) if method == "POST" and path.endswith("submissions") else None, method, path, body


def item(chance, contest, now, request=None):
    """An item of a walk at a moment, of this request if there is one: its lines, its answer, and the contest after it."""
    head = f"at {moment(now).replace('+00:00', 'Z')}"
    if request is None and chance.random.random() < (0.8 if now < START else 0.15):
        kind = chance.one(SETTINGS + ["teams-csv", "accounts-csv", "accounts-csv"])
        kind = chance.often(kind, ["verdicts-csv"], 0.97 if now < START else 0.4)
        file = chance.verdicts_file(contest) if kind == "verdicts-csv" else chance.file(kind)
        answer, after = verdict_file_opinion.imported(contest, now, kind, file.encode())
        return f"{head} import\n{kind} {file[:-1].replace(chr(10), ' | ')}\n", answer, after
    who, key, method, path, body = request or next_request(chance, contest)
    answer, after = desk_opinion.handled(contest, now, who, key, method, path, body)
    return f"{head} {who}{f' key {key}' if key else ''}\n{method} {path} {body}\n", answer, after


def walk(number, seed, steps):
    """A walk with the answers that it must get, and how often each kind of answer came."""
    chance, kinds = Asker(seed), collections.Counter()
    text, now = f"\n== Walk {number}\n", START - 4_000_000
    start, head = chance.often(START, [None], 0.9), {**REHEARSAL, "verification": chance.one([False, True])}
    marks = [chance.often(None, [START + chance.random.randint(-2_000_000, 26_000_000)], part) for part in (0.5, 0.8)]
    contest = desk_opinion.new_contest(head, start, *marks)
    for words, mark in zip(("thawed from", "final from"), marks):
        text += f"{words}: {moment(mark).replace('+00:00', 'Z')}\n" if mark is not None else ""
    text += "verdicts are verified\n" if head["verification"] else ""
    text += ("" if start else "no start is set\n") + "nothing is set up\n"
    for step in range(steps):
        lines, answers, request = "", "", None
        if step == steps * 6 // 10:
            now, request = prolonging(chance, contest, now)
        for _ in range(chance.random.randint(1, 3)):
            now = max(START - 4_000_000, now + chance.random.randint(-100_000, 30_000_000 // steps))
            asked, answer, contest = item(chance, contest, now, request)
            # A feed's last line ends already.
            lines, answers = lines + asked, answers + answer.removesuffix("\n") + "\n"
            kinds[re.sub(r"(?s)E22 ImportRow \d+|added [1-9]\d*|\{.*|\[.*", lambda found: found[0].rstrip("0123456789")[:12], answer)[:40]] += 1
        text += f"\n-- {step + 1}\n{lines}{answers}"
    return text, kinds


def try_walks(test):
    walks, steps, seed = (getattr(test.options, name) for name in ("walks", "steps", "seed"))
    text, kinds = "Walks made from a seed.\n", collections.Counter()
    for number in range(walks):
        made, counted = walk(number, f"{seed}/{number}", steps)
        text, kinds = text + made, kinds + counted
    status, out, err = ran([test.path], input=text.encode(), timeout=600)
    print(err.decode(), end="")
    met = re.findall(r"(?m)^Walk \d+: (\d+) of (\d+), .*, faults of the store: 0, cells as counted$", out.decode())
    test.passed = sum(int(one) for one, _ in met)
    test.failed = walks * steps - test.passed
    if test.failed or status:
        print(out.decode()[:6000])
        test.failed = max(test.failed, 1)
    print(f"{sum(kinds.values())} answers of {len(kinds)} kinds", flush=True)


if __name__ == "__main__":
    sys.exit(program.main(__doc__, Program, [try_walks], program="walks", walks=20, steps=200, seed=18))
