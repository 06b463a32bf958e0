"""What a day's replies have to be, by the second opinion of tests/lib, in the order in which the desk took the
requests.

The second opinion is asked about one team at a time, over that team's submissions alone, so that a day takes it
minutes. A reply that tells its moment is looked at in that moment's contest, any other in those between its sending
and its coming.
"""

import bisect
import collections
import copy
import hashlib
import json
import zlib

import day_plan
from day_plan import CONTEST, FREEZE, LENGTH, START
from lib import desk_opinion
from lib.clock_opinion import time_of
from lib.desk_opinion import (
    cell,
    judgement_object,
    moment,
    new_contest,
    open_proposals,
    state_object,
    submission_id,
    submission_object,
)
from lib.import_opinion import Refused, compact
from lib.replay_opinion import reltime_text

# What a client asked and was answered: who, the key, what was asked, the moments of the desk's clock between which it
# was, and the reply, pressed.
Exchange = collections.namedtuple("Exchange", "who key method path body since until status reply")
HEAD = {"id": CONTEST, "name": "A day", "duration": LENGTH, "freeze": FREEZE, "penalty": 20, "verification": True}
HERE = f"/contests/{CONTEST}"
JURY = {"role": "judge", "team": None}


# A long reply is kept as its digest, but for a board, which tells its moment.
LONG = 10_000


def kept_of(path, reply):
    """What is kept of a reply: its bytes, pressed, or a digest of them."""
    if len(reply) > LONG and not path.endswith("/scoreboard"):
        return hashlib.sha256(reply).digest()
    return zlib.compress(reply, 1)


def is_kept_of(exchange, text):
    """Whether a text is what was replied."""
    return exchange.reply == kept_of(exchange.path, text.encode("utf-8", "surrogateescape"))


def shown(exchange):
    """A reply, or that it was long."""
    try:
        return zlib.decompress(exchange.reply)
    except zlib.error:
        return b"a long reply"


def time_in(exchange, reply):
    """The moment that a reply tells, or None. What is read tells none, but for a board."""
    if exchange.status != 200 or (exchange.method == "GET" and not exchange.path.endswith("/scoreboard")):
        return None
    row = json.loads(reply) if reply[:1] == b"{" else {}
    text = row.get("time") or row.get("end_time")
    return time_of(text) if isinstance(text, str) else None


class DayOpinion:
    """The contest of a plan. `of` is what stands of each team, `talk` its clarifications."""

    def __init__(self, plan):
        digest = hashlib.sha256
        names = ("id", "role", "team", "digest")
        rows = [(row, role, team or None, digest(day_plan.token(row).encode())) for row, role, team in plan.accounts()]
        accounts = [dict(zip(names, (*row[:3], row[3].hexdigest()))) for row in rows]
        settings = {
            "types": day_plan.TYPES,
            "languages": day_plan.LANGUAGES,
            "problems": plan.problems,
            "teams": plan.teams,
            "accounts": accounts,
        }
        self.talk = {**new_contest(HEAD, START, None, None), **settings}
        empty = new_contest(HEAD, START, None, None)
        self.of = {team["id"]: {**copy.deepcopy(empty), **settings, "of": team["id"]} for team in plan.teams}
        self.order, self.last, self.known = [], {}, {team["id"]: (0, 0) for team in plan.teams}
        # Of each submission its text without its file and with it; of each team the proposals that wait, by submission.
        self.made, self.proposed = {}, {}
        self.caller_of = {day_plan.token(account["id"]): account for account in accounts}
        self.plan, self.rows, self.texts = plan, {}, {True: {}, False: {}}
        self.passed = self.failed = 0

    def contest_for(self, exchange):
        """Which of these a post is about: that of the submission which it names, of its team, or the clarifications."""
        if exchange.path.endswith("/clarifications"):
            return self.talk
        if exchange.path.startswith("/jury/rejudgings"):
            return self.of["t1"]
        if exchange.path.startswith("/jury/"):
            place = json.loads(exchange.body)["submission_id"].removeprefix("s").partition("-")[0]
            return self.of[self.plan.teams[int(place) - 1]["id"]]
        return self.of[self.caller_of[exchange.who]["team"]]

    def posted(self, exchange, now):
        """What is answered to a post, which the contest has afterwards."""
        contest = self.contest_for(exchange)
        self.texts[contest is self.talk] = {}
        self.rows = {key: row for key, row in self.rows.items() if contest is not self.of[key[0]]}
        words = (exchange.who, exchange.key, exchange.method, exchange.path, exchange.body.encode())
        try:
            value = desk_opinion.value_of(contest, now, *words)
        except Refused as refused:
            value = {"code": desk_opinion.STATUSES[str(refused)], "message": str(refused)}
        if contest is not self.talk:
            self.keep(contest)
        return compact(value)

    def row_of(self, team, caller):
        """A team's row of the board without its rank, as text, and what it is sorted by; both are kept until the
        team changes."""
        sees_all = caller is not None and (caller["role"] != "team" or caller["team"] == team["id"])
        key = (team["id"], sees_all)
        if key not in self.rows:
            found = [cell(self.of[team["id"]], START, team, problem, caller) for problem in self.plan.problems]
            solved = [(one["time"], penalties) for one, penalties in found if one["solved"]]
            total = sum(minute + 20 * penalties for minute, penalties in solved)
            last = max((minute for minute, _ in solved), default=None)
            score = compact({"num_solved": len(solved), "time": last, "total_time": total})
            order = (-len(solved), total, last or 0)
            self.rows[key] = order, compact([one for one, _ in found]), score
        return self.rows[key]

    def board(self, now, caller):
        found = [(self.row_of(team, caller), team) for team in self.plan.teams if not team["hidden"]]
        found.sort(key=lambda one: (one[0][0], one[1]["name"].encode(), one[1]["id"].encode()))
        texts, rank, before = [], 0, None
        for place, ((order, cells, score), team) in enumerate(found, 1):
            rank, before = (rank if order == before else place), order
            texts.append(f'{{"problems":{cells},"rank":{rank},"score":{score},"team_id":"{team["id"]}"}}')
        time, state = reltime_text(now - START), compact(state_object(self.talk, now))
        return f'{{"contest_time":"{time}","rows":[{",".join(texts)}],"state":{state},"time":"{moment(now)}"}}'

    def keep(self, contest):
        """Keeps what a post added of a team: a submission in its order, and the text of its last judgement."""
        team, known = contest["of"], self.known[contest["of"]]
        for one in contest["submissions"][known[0] :]:
            order, which = (one["time"], team.encode(), one["number"]), submission_id(contest, one)
            bisect.insort(self.order, (order, which, team))
            self.made[which] = [compact(submission_object(contest, one, caller)) for caller in (None, JURY)]
        self.proposed.update({submission_id(contest, one): None for one in contest["submissions"]})
        self.proposed.update({one["submission_id"]: compact(one) for one in open_proposals(contest, JURY)})
        texts = {one["submission"]: compact(judgement_object(contest, one)) for one in contest["releases"][known[1] :]}
        self.last.update(texts)
        self.known[team] = len(contest["submissions"]), len(contest["releases"])

    def submissions(self, caller):
        """The submissions that the caller sees, its own with their files."""
        sees_all, own = caller is not None and caller["team"] is None, caller and caller["team"]
        hidden = {team["id"] for team in self.plan.teams if team["hidden"]}
        owned = [(which, sees_all or team == own, team in hidden) for _, which, team in self.order]
        rows = [self.made[which][is_own] for which, is_own, is_hidden in owned if is_own or not is_hidden]
        return "[" + ",".join(rows) + "]"

    def proposals(self):
        """The proposals that wait, in the order of their submissions."""
        rows = [self.proposed.get(which) for _, which, _ in self.order]
        return "[" + ",".join(filter(None, rows)) + "]"

    def judgements(self, caller):
        """The last judgement of each submission that the caller sees; no thaw comes in the day."""
        sees_all, own = caller is not None and caller["team"] is None, caller and caller["team"]
        freeze, hidden = START + LENGTH - FREEZE, {team["id"] for team in self.plan.teams if team["hidden"]}

        def is_seen(time, team):
            return sees_all or team == own or (time < freeze and team not in hidden)

        rows = [which for (time, _, _), which, team in self.order if which in self.last and is_seen(time, team)]
        return "[" + ",".join(self.last[which] for which in rows) + "]"

    def listed(self, exchange, now, caller):
        """What stands under a path that tells no moment, as text."""
        name = exchange.path.rpartition("/")[2]
        if name == "submissions":
            return self.submissions(caller)
        if name == "judgements":
            return self.judgements(caller)
        if name == "proposals":
            return self.proposals()
        path = exchange.path.replace(".", "/") + "/"
        of = next((team for _, which, team in self.order if f"/{which}/" in path), "t1")
        is_of_row = any(f"/{kind}/" in exchange.path for kind in ("judgements", "submissions"))
        is_of_team = name in ("files", "rejudgings") or is_of_row
        contest = self.of[of] if is_of_team else self.talk
        try:
            value = desk_opinion.value_of(contest, now, exchange.who, None, "GET", exchange.path, b"")
        except Refused as refused:
            value = {"code": desk_opinion.STATUSES[str(refused)], "message": str(refused)}
        return value.decode("utf-8", "surrogateescape") if isinstance(value, bytes) else compact(value)

    def read(self, exchange, now):
        """What is answered to a read."""
        caller = None if exchange.who == "public" else self.caller_of[exchange.who]
        if exchange.path.endswith("/scoreboard"):
            return self.board(now, caller)
        if exchange.path.endswith("/state"):
            return self.listed(exchange, now, caller)
        texts, key = self.texts[exchange.path.endswith("/clarifications")], (exchange.who, exchange.path)
        if key not in texts:
            texts[key] = self.listed(exchange, now, caller)
        return texts[key]

    def note(self, is_right, exchange, given, wanted=""):
        self.passed, self.failed = self.passed + is_right, self.failed + (not is_right)
        if not is_right and self.failed < 10:
            print(f"FAILED: {exchange[:6]}: {exchange.status} {given[:600]!r}, wanted {wanted[:600]!r}", flush=True)

    def check(self, exchanges):
        """Looks at all replies, in the order of the moments that they tell."""
        steps = []
        for number, exchange in enumerate(exchanges):
            reply = shown(exchange)
            now = time_in(exchange, reply)
            if now is not None and not exchange.since <= now <= exchange.until and exchange.who != "public":
                self.note(False, exchange, reply, f"a moment from {exchange.since} to {exchange.until}")
            is_timed = now is not None or exchange.method != "GET"
            untold = exchange.until if is_timed else exchange.since
            steps.append((untold if now is None else now, number, is_timed))
        waiting = []
        for now, number, is_timed in sorted(steps):
            waiting = self.look_at_waiting(waiting, now)
            if is_timed:
                self.look_at(exchanges[number], now, waiting)
            else:
                waiting.append(exchanges[number])
        self.look_at_waiting(waiting, None)

    def look_at(self, exchange, now, waiting):
        given = shown(exchange).decode()
        if exchange.method == "GET":
            wanted = self.read(exchange, now)
        else:
            waiting[:] = [one for one in waiting if not self.fits(one)]
            wanted = self.posted(exchange, now)
        self.note(given == wanted, exchange, given, wanted)

    def fits(self, exchange):
        """Whether a read that tells no moment is right now."""
        is_right = any(is_kept_of(exchange, self.read(exchange, moment)) for moment in {exchange.until, exchange.since})
        self.passed += is_right
        return is_right

    def look_at_waiting(self, waiting, now):
        """Those that came before a moment have to have been right by now."""
        left = []
        for exchange in waiting:
            if now is not None and now <= exchange.until:
                left.append(exchange)
            elif not self.fits(exchange):
                self.note(False, exchange, shown(exchange), self.read(exchange, exchange.until))
        return left
