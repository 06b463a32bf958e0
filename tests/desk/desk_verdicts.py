#!/usr/bin/env -S python3 -B
"""Has judges and teams speak to `desk serve` on a file, and holds each reply beside what it must be.

    desk_verdicts.py [--program PATH] [--requests N] [--pairs N] [--seed N] [--leak]

Contests are made by `desk init` and `desk import`, with verification and without, and the clock is stopped by faketime. First
come the walks about verdicts, rejudgings, clarifications and extensions of crates/walks/data, reply by reply, over HTTP, and the last clarification that
the jury may write to a team. Then N requests (20,000) made from a seed, by every role, before the freeze, in it and after it, in
days whose clock administrators set and which they prolong, and at last beside final results, which sqlite3 sets between two
servers: the replies are those of lib/desk_opinion.py. Then N pairs (5,000) of worlds that a team, or the public, may not tell
apart: they differ in hidden teams' submissions, in verdicts on others' frozen submissions, in rejudgings, of which those that are
applied change such verdicts alone, in others' clarifications, in which of these the jury answers, by whom and under which key, and
in the order of acceptance, nothing else. Their rows are written by sqlite3, the results of both are final or those of neither, and an administrator sets the
same thaw in both, and another one in its place, or gives both an hour more. Each reply to that team, at one moment before the thaw, is
the same in both. With --leak a verdict that the team may see differs too, and the pairs have to tell it.

Takes faketime. Ends with the line `N passed, M failed`; the exit status is 0 if M is 0.
"""

import base64
import collections
import copy
import re
import shutil
import sys

from lib import clarification_opinion, demo, desk_opinion, program
from lib.clarifier import AT_ALL, TEXTS
from lib.clock import text_of
from lib.demo import AT_REHEARSAL, START
from lib.desk_opinion import moment
from lib.import_opinion import compact
from lib.program import ROOT, Program
from lib.rehearsal import ACCOUNTS, END, FREEZE, GROUPS, PROBLEMS, TEAMS, TYPES, contest_of, files_of, sent
from lib.requester import Requester, longer, prolonging
from lib.rejudger import AT_REJUDGINGS, JURY, NUMBERS, REASONS
from lib.server import Server
from lib.sqlite import insert, opened

OPEN, APPLIED, CANCELLED = 0, 1, 2
# To whom a clarification goes: all, the one group, or the team at a place.
ALL, NORTH = None, "north"
WALKS = ["Judgements, where nobody verifies", "Verdicts are verified", "The scoreboard in the freeze", "Ranks",
         "A team asks, and the jury answers", "When clarifications are taken", "No clarifications beside final results",
         "What a clarification says", "What refuses a clarification first", "Keys of clarifications", "How many requests a team makes",
         "In which order clarifications stand", "A hidden team asks, and is written to", "Alpha beside others' clarifications",
         "Alpha beside none of others'", "A rejudging is applied", "A rejudging is cancelled", "What a rejudging is opened over",
         "Members are verified", "Alpha beside a rejudging", "Alpha beside none", "An extension before the freeze",
         "An extension in the freeze", "An ended contest goes on", "How long a contest may be"]  # fmt: skip


def made(desk, verification, thaw=None, finalized=None):
    """A folder with the rehearsal in cup.db, made by the program at eight o'clock."""
    folder = demo.made(desk, files_of(verification))
    mark(folder, thaw, finalized)
    return folder


def mark(folder, thaw, finalized):
    """Sets the marks, whatever stands."""
    with opened(folder / "cup.db") as database:
        database.execute("UPDATE contest SET thaw = ?, finalized = ?", (thaw, finalized))


def told(reply, method):
    """What a reply says, as the second opinion tells it."""
    head, _, body = reply.partition(b"\r\n\r\n")
    lines = head.decode("latin-1").split("\r\n")
    fields = dict(line.split(": ", 1) for line in lines[1:])
    text = lines[0].split(" ")[1]
    text += f" Allow: {fields['Allow']}" if "Allow" in fields else ""
    text += " WWW-Authenticate: Bearer" if "WWW-Authenticate" in fields else ""
    content = fields.get("Content-Type")
    text += "" if content == "application/json" else f" {content}"
    if method == "HEAD":
        return text, fields.get("Content-Length"), body
    return f"{text} {body.decode()}", str(len(body)), body


def same(given, wanted, method):
    """Whether a reply is the one that is wanted; to HEAD without its body's bytes."""
    text, length, body = given
    if method != "HEAD":
        return text == wanted
    found = re.search(r" (?=[\[{])", wanted)
    size = len(wanted[found.end() :].encode()) if found else None
    return wanted.startswith(text + " ") and body == b"" and (size is None or length == str(size))


def try_walks(desk):
    """The walks about verdicts and clarifications, over HTTP."""
    files = (ROOT / "crates/walks/data").glob("*.walk")
    walks = dict(path.read_text(encoding="utf-8").split("\n", 1) for path in files)
    for title in WALKS:
        marks = [re.search(rf"(?m)^{word} from: (.*)$", walks[title]) for word in ("thawed", "final")]
        marks = [None if one is None else milliseconds_of(one[1]) for one in marks]
        server = Server(desk, made(desk, "verdicts are verified" in walks[title], *marks))
        for step in f"\n{walks[title]}".split("\n\n")[1:]:
            name, *lines, wanted = step.strip().split("\n")
            times = int(lines.pop(0).removeprefix("times: ")) if lines[0].startswith("times: ") else 1
            (_, at, who), (method, path, *body) = lines[0].split(" ", 2), lines[1].split(" ", 2)
            who, _, key = who.partition(" key ")
            server.at(text_of(milliseconds_of(at)))
            asked = sent(who, key or None, method, path, spelled("".join(body)))
            for _ in range(times):
                given = told(server.ask(asked), method)
            desk.note(same(given, wanted, method), f"{title}, {name}: {given}, wanted {wanted}")
        server.stop()


def spelled(body):
    """A body, in which `<3 zeros>` stands for the base64 of so many bytes."""
    return re.sub(r"<(\d+) zeros>", lambda found: base64.b64encode(bytes(int(found[1]))).decode(), body)


def milliseconds_of(text):
    found = re.fullmatch(r"2024-03-02T(\d\d):(\d\d):(\d\d)(?:\.(\d{3}))?Z", text)
    hours, minutes, seconds = map(int, found.groups()[:3])
    return START + ((hours - 9) * 3600 + minutes * 60 + seconds) * 1000 + int(found[4] or 0)


def try_limits(desk):
    """The last clarification that the jury may write to one team, and one more."""
    folder, room = made(desk, False), clarification_opinion.JURY_LIMIT - 1
    with opened(folder / "cup.db") as database:
        rows = ((number, 1, 1, number, 1, "j1", None, None, "So.", START, None) for number in range(1, room + 1))
        database.executemany(f"INSERT INTO notices VALUES ({', '.join('?' * 11)})", rows)
    server = Server(desk, folder)
    for who, team, wanted in (("adm", "t1", f'"id":"c1-{room + 1}"'), ("j1", "t1", '"message":"TeamLimit"'), ("j1", "t2", '"id":"c2-1"'),
                              ("j1", None, '"id":"g-1"'), ("a1", None, f'"id":"c1-{room + 2}"')):  # fmt: skip
        given = told(server.ask(sent(f"token-{who}", None, "POST", AT_ALL, compact({"text": "So.", "to_team_id": team}))), "POST")
        desk.note(wanted in given[0], f"{who} writes to {team}: {given}, wanted {wanted}")
    server.stop()


def try_requests(desk):
    """Requests of every role at contests that grow, beside the second opinion."""
    kinds, left, number = collections.Counter(), desk.options.requests, 0
    while left > 0:
        chance = Requester(f"{desk.options.seed}/{number}")
        verification, thaw = bool(number % 2), chance.one([None, END + 600_000, FREEZE + 1_200_000])
        contest, folder = contest_of(verification, thaw), made(desk, verification, thaw)
        server = Server(desk, folder)
        now, number, count = START - 600_000, number + 1, min(left, 400)
        for step in range(count):
            now += chance.random.randint(0, 44_000_000 // count)
            if step == count * 9 // 10:
                server.stop()
                contest["finalized"] = now
                mark(folder, contest["thaw"], now)
                server = Server(desk, folder)
            asked = chance.request(contest)
            if step == count * 6 // 10:
                now, asked = prolonging(chance, contest, now)
            server.at(text_of(now))
            wanted, contest = desk_opinion.handled(contest, now, *asked)
            given = told(server.ask(sent(*asked)), asked[2])
            desk.note(same(given, wanted, asked[2]), f"{asked} at {moment(now)}: {given}, wanted {wanted}")
            kinds[re.sub(r"[\[{].*", "", wanted) + re.sub(r"\d.*", "", asked[3].rpartition("/")[2])] += 1
            left -= 1
        server.stop()
    print(f"{sum(kinds.values())} replies of {len(kinds)} kinds")


# --- Two worlds --------------------------------------------------------------------------------------


def world(chance):
    """Submissions and releases of all teams: for each submission its team's place, number, time, problem, and its types."""
    rows = []
    for team in range(4):
        times = sorted(chance.random.randint(0, 17_999_999) for _ in range(chance.random.randint(0, 4)))
        for number, time in enumerate(times, 1):
            types = [chance.random.randint(0, 2) for _ in range(chance.often(1, [0, 2], 0.6))]
            rows.append({"team": team, "number": number, "time": START + time, "problem": chance.random.randint(0, 2), "types": types})
    return sorted(rows, key=placed)


def placed(row):
    return row["time"], row["team"], row["number"]


def partner(chance, rows, own):
    """Another world that agrees on all that the team at a place may see before the thaw."""
    others = []
    for row in copy.deepcopy(rows):
        if row["team"] == own:
            others.append(row)
        elif row["team"] == 2:
            continue
        elif row["time"] >= FREEZE:
            others.append({**row, "types": [chance.random.randint(0, 2) for _ in range(chance.random.randint(0, 2))]})
        else:
            others.append(row)
    if own != 2:
        others += [{"team": 2, "number": 1, "time": START + chance.random.randint(0, 17_999_999), "problem": 0, "types": [0]}]
    return mixed(chance, others)


def mixed(chance, rows, whose="team"):
    """The rows in another order of acceptance, which keeps that of each team's own."""
    order = [row[whose] for row in rows]
    chance.random.shuffle(order)
    own = {one: iter(sorted((row for row in rows if row[whose] == one), key=lambda row: row["number"])) for one in order}
    return [next(own[one]) for one in order]


def id_of(row):
    """A clarification's id."""
    front = {ALL: "g", NORTH: "g1"}.get(row["to"]) or f"c{row['to'] + 1}"
    return f"{front}-{row['number']}"


def hears(team, row):
    """Whether the team at a place hears a clarification; the public is behind the last."""
    is_of_north = team < len(TEAMS) and NORTH in TEAMS[team][3]
    return row["to"] in (ALL, team) or (row["to"] == NORTH and is_of_north)


def words(chance, receivers):
    """Clarifications to all, to the group and of the teams at places: number, who wrote it, time, problem, text and, of a team's
    own, the key."""
    rows = []
    for to in receivers:
        for number in range(1, chance.random.randint(0, 4) + 1):
            row = {"to": to, "number": number, "is_by_jury": to in (ALL, NORTH) or chance.one([True, False])}
            row["time"] = START + 60_000 * chance.random.randint(0, 20)
            row |= {"problem": chance.one([None, None, "a", "b"]), "text": chance.one(TEXTS), "reply": None}
            rows.append({**row, "key": None if row["is_by_jury"] else chance.often(f"k{number}", [None], 0.7)})
    return rows


def answering(chance, row, rows):
    """A clarification that answers one of these which its writer hears, or none."""
    ids = [id_of(one) for one in rows if row["is_by_jury"] or hears(row["to"], one)]
    return {**row, "reply": chance.often(None, ids or [None], 0.4)}


def signed(chance, rows):
    """Clarifications with an account that wrote each, and with keys of the jury's accounts."""
    used, made = set(), []
    for row in rows:
        team = "" if row["is_by_jury"] else TEAMS[row["to"]][0]
        account, key = chance.one([one for one, _, of in ACCOUNTS if of == team]), row["key"]
        if row["is_by_jury"]:
            wanted = account, chance.one(["k1", "k2", "k3", "k4"])
            key = None if wanted in used else wanted[1]
            used.add(wanted)
        made.append({**row, "account": account, "key": key})
    return made


def told_words(chance):
    """Clarifications of one world."""
    rows = words(chance, [ALL, NORTH, *range(len(TEAMS))])
    return signed(chance, [answering(chance, row, rows) for row in rows])


def partner_words(chance, rows, own):
    """Those of another world, of which the team at a place hears the same: what it doesn't hear is another, and so are who wrote
    for the jury, under which key, and which of the unheard ones that answers."""
    unheard = [to for to in (NORTH, *range(len(TEAMS))) if not hears(own, {"to": to})]
    heard, others = [row for row in rows if hears(own, row)], words(chance, unheard)
    ids = [id_of(row) for row in heard]
    free = [row for row in heard if row["is_by_jury"] and row["reply"] not in ids]
    made = [row for row in heard if row not in free] + [answering(chance, row, others) for row in free]
    made += [answering(chance, row, heard + others) for row in others]
    return mixed(chance, signed(chance, made), "to")


def is_held_back(own, row):
    """Whether the verdicts of a submission are told to others than the team at a place alone."""
    return row["team"] != own and (row["team"] == 2 or row["time"] >= FREEZE)


def verdict_again(chance, state, row):
    """A member's type, its account and whether it is ready; the type of one that is applied is released in the next round."""
    verdict = chance.random.randint(0, 2)
    if state == APPLIED:
        row["types"].append(verdict)
        return TYPES[verdict]["id"], None, 1
    verdict, account = TYPES[verdict]["id"], chance.one(JURY)
    return chance.one([(None, None, 0), (verdict, account, 0), (verdict, None, 1)])


def judged_again(chance, rows, own):
    """Rejudgings of a world: open and cancelled ones over any submissions with releases, of which each is in one that is open at
    most, and applied ones over those of which the team at a place is told no verdict."""
    made, held = [], set()
    for _ in range(chance.random.randint(0, 4)):
        state = chance.random.randint(OPEN, CANCELLED)
        free = [row for row in rows if row["types"] and (state != OPEN or (row["team"], row["number"]) not in held)]
        free = [row for row in free if state != APPLIED or is_held_back(own, row)]
        members = chance.random.sample(free, min(len(free), chance.random.randint(1, 3)))
        held |= {(row["team"], row["number"]) for row in members if state == OPEN}
        judged = [(row["team"] + 1, row["number"], *verdict_again(chance, state, row)) for row in members]
        made.append({"reason": chance.one(REASONS), "state": state, "members": judged})
    return made


def write(database, rows, told, again):
    """Puts the rows of a world, its clarifications and its rejudgings into the tables in place of those that stand. The program
    fills the cells."""
    for table in ("submissions", "proposals", "releases", "notices", "rejudgings", "members", "cells"):
        database.execute(f"DELETE FROM {table}")
    for seq, row in enumerate(rows, 1):
        file = bytes(row["number"] % 5)
        values = (seq, row["team"] + 1, row["number"], row["time"], PROBLEMS[row["problem"]]["id"], "cpp", None, file, None)
        insert(database, "submissions", values)
    seq = 0
    for row in rows:
        for n, verdict in enumerate(row["types"], 1):
            seq += 1
            which, verdict = (seq, row["team"] + 1, row["number"]), TYPES[verdict]["id"]
            insert(database, "proposals", (*which, verdict, "import" if n == 1 else "j1", END))
            insert(database, "releases", (*which, n, verdict, row["time"]))
    for seq, row in enumerate(told, 1):
        whose = {ALL: (0, 0), NORTH: (2, 1)}.get(row["to"]) or (1, row["to"] + 1)
        parts = ("account", "problem", "reply", "text", "time", "key")
        insert(database, "notices", (seq, *whose, row["number"], int(row["is_by_jury"]), *(row[part] for part in parts)))
    for number, rejudging in enumerate(again, 1):
        insert(database, "rejudgings", (number, rejudging["reason"], rejudging["state"]))
        for place, one in enumerate(rejudging["members"], 1):
            insert(database, "members", (number, place, *one))


def questions(rows, told, own, chance):
    """What the team asks in both worlds: a key, a method, a path and a body each. It posts between what it reads."""
    ids = [f"s{row['team'] + 1}-{row['number']}" for row in rows] or ["s1-1"]
    paths = ["scoreboard", *(f"groups/{group['id']}/scoreboard" for group in GROUPS), "judgements", "submissions", f"judgements/{chance.one(ids)}.1", f"submissions/{chance.one(ids)}/files"]
    paths += ["clarifications", *(f"clarifications/{chance.one(told)}" for _ in range(3))]
    paths += ["awards", f"awards/{chance.one(['winner', 'gold-medal', 'first-to-solve-a'])}", "state"]
    paths += [f"judgements/{chance.one(ids)}.{chance.one('23')}", "event-feed"]
    number = chance.often(chance.one("1234"), NUMBERS)
    reads = [(None, "GET", f"{AT_REHEARSAL}/{path}", "") for path in paths]
    reads += [(None, "GET", path, "") for path in (AT_REJUDGINGS, f"{AT_REJUDGINGS}/{number}")]
    posts = [(None, f"{AT_REHEARSAL}/submissions", '{"problem_id":"a","language_id":"cpp","files":[{"data":"YWJj"}]}')]
    for key in ("k1", "k2", None):
        row = {"text": chance.one(TEXTS[:2]), "problem_id": chance.one([None, "a"]), "reply_to_id": chance.often(None, told, 0.4)}
        posts.append((key, AT_ALL, compact(row)))
    which, verdict = chance.one(ids), chance.one(TYPES)["id"]
    posts.append((None, AT_REJUDGINGS, compact({"reason": "data", "submission_ids": [which]})))
    judged = compact({"submission_id": which, "judgement_type_id": verdict})
    posts += [(None, f"{AT_REJUDGINGS}/{number}/{step}", judged) for step in ("verdicts", "apply", "cancel")]
    last = [(None, "GET", f"{AT_REHEARSAL}/event-feed", "")]
    return reads + [(key, "POST", path, body) for key, path, body in posts + own] + reads[2:3] + reads[5:6] + last


def repeats(told, own):
    """The posts of what the team at a place asked under keys, once more."""
    names = {"text": "text", "problem_id": "problem", "reply_to_id": "reply"}
    asked = [row for row in told if row["to"] == own and not row["is_by_jury"] and row["key"]]
    return [(row["key"], AT_ALL, compact({name: row[part] for name, part in names.items()})) for row in asked]


def thawed_at(thaw):
    """What an administrator asks to set the thaw."""
    return "token-adm", None, "PATCH", AT_REHEARSAL, compact({"scoreboard_thaw_time": moment(thaw)})


def with_thaws(chance, now, thaw, asked):
    """The team's questions with an administrator's between them: a thaw, and another one in its place."""
    if thaw is None:
        return asked
    half = len(asked) // 2
    later = max(END, now + 1) + chance.random.randint(0, 3_600_000)
    return [thawed_at(thaw), *asked[:half], thawed_at(later), *asked[half:]]


def with_extension(now, worlds, asked):
    """The team's questions with an administrator's between them, if the freeze has come in both worlds or in neither: an hour more."""
    came = {now >= FREEZE or any(row["time"] >= FREEZE for row in rows) for rows in worlds}
    half = len(asked) // 2
    return asked if len(came) > 1 else [*asked[:half], longer(contest_of(False), now), *asked[half:]]


def answers(desk, folder, one_world, finalized, now, asked):
    """The replies in one world."""
    with opened(folder / "cup.db") as database:
        write(database, *one_world)
        database.execute("UPDATE contest SET duration = ?, freeze = ?", (END - START, END - FREEZE))
    mark(folder, None, finalized)
    server = Server(desk, folder, requests=len(asked))
    server.at(text_of(now))
    replies = [server.ask(sent(*one)) for one in asked]
    server.stop()
    return replies


def try_worlds(desk):
    """Pairs of worlds that differ only in what a team, or the public, may not see."""
    first = made(desk, False)
    second = desk.new_folder()
    shutil.copy(first / "cup.db", second / "cup.db")
    differed = 0
    for number in range(desk.options.pairs):
        chance = Requester(f"{desk.options.seed}/pair {number}")
        own = chance.random.randint(0, len(TEAMS))
        who = "public" if own == len(TEAMS) else f"token-a{TEAMS[own][0][1:]}"
        rows, told_first = world(chance), told_words(chance)
        others, told_second = partner(chance, rows, own), partner_words(chance, told_first, own)
        worlds = [(rows, told_first, judged_again(chance, rows, own)), (others, told_second, judged_again(chance, others, own))]
        seen = [row for row in others if row["team"] == own and row["types"]]
        if desk.options.leak and seen:
            seen[0]["types"][-1] = (seen[0]["types"][-1] + 1) % 3
        thaw = chance.often(None, [END + chance.random.randint(0, 3_600_000)], 0.5)
        finalized = chance.often(None, [END + chance.random.randint(0, 600_000)], 0.7)
        now = START + chance.random.randint(0, (thaw or END + 3_600_000) - START - 1)
        ids = [id_of(row) for row in told_first + told_second] or ["g-1"]
        asked = [(who, *one) for one in questions(rows, ids, repeats(told_first, own), chance)]
        asked = with_extension(now, (rows, others), asked) if thaw is None else with_thaws(chance, now, thaw, asked)
        given = [answers(desk, folder, one_world, finalized, now, asked) for folder, one_world in zip((first, second), worlds)]
        if desk.options.leak:
            differed += given[0] != given[1]
            continue
        for one, two, question in zip(*given, asked):
            desk.note(one == two and one != b"", f"pair {number} at {moment(now)}, {question}: {one}, and {two}")
    if desk.options.leak:
        desk.note(differed > 0, f"a verdict that is seen differs in {desk.options.pairs} pairs, and none tells it")
        print(f"{differed} of {desk.options.pairs} pairs tell the planted verdict")


if __name__ == "__main__":
    WORDS = {"requests": 20_000, "pairs": 5_000, "seed": 20, "leak": False}
    sys.exit(program.main(__doc__, Program, (try_walks, try_limits, try_requests, try_worlds), program="desk", **WORDS))
