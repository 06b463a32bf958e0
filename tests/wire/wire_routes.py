#!/usr/bin/env -S python3 -B
"""Asks every route of the desk by every method, for every role, at four moments, and gives it bodies and files that are off their form.

    wire_routes.py [--program PATH]

The program is wire, which serves each connection over a contest in memory by itself; the contest is that of lib/rehearsal.py. Each
path is asked by GET, HEAD, POST, PATCH and DELETE, for the public, two teams, a judge, an administrator and an analyst, before the
start, at 9:05, at 13:20 and beside final results, with a body and without. Every kind of file is imported. Then come bodies of each
command whose JSON nests too deep, isn't UTF-8 or has numbers out of range, members that stand twice, files that are none or two,
base64 off its form; and files of teams with a record that is cut, unclosed or no UTF-8. Each answer is that of the second opinions,
byte for byte; none is 503, and no call of the store fails.

Ends with the line `N passed, M failed`; the exit status is 0 if M is 0.
"""

import itertools
import json
import sys

from lib import program, verdict_file_opinion, wire, wire_opinion
from lib.clarifier import AT_ALL
from lib.demo import AT_REHEARSAL, START
from lib.desk_opinion import moment
from lib.import_opinion import compact
from lib.rehearsal import END, FREEZE, contest_of, sent
from lib.rejudger import AT_REJUDGINGS
from lib.requester import closing
from lib.spoiler import nested
from lib.wire import Wire

SUBMISSIONS = f"{AT_REHEARSAL}/submissions"
METHODS = ["GET", "HEAD", "POST", "PATCH", "DELETE"]
WHO = ["public", "token-a1", "token-a9", "token-j1", "token-adm", "token-o1"]
COLLECTIONS = {"submissions": "s1-1", "judgements": "s1-1.1", "clarifications": "c1-1", "awards": "winner", "judgement-types": "AC",
               "languages": "cpp", "problems": "a", "groups": "north", "teams": "t1"}  # fmt: skip
POST = compact({"problem_id": "a", "language_id": "cpp", "files": [{"data": "YWJj"}]})
QUESTION = compact({"text": "Is 0 allowed?"})
JUDGED = compact({"submission_id": "s1-1", "judgement_type_id": "AC"})
OPENED = compact({"reason": "data", "submission_ids": ["s1-1"]})
ACCOUNT = compact({"id": "n1", "role": "team", "team_id": "t1", "token": "token-n1"})
TEAM = compact({"id": "t5", "name": "Late", "group_ids": ["north"]})
EXTENSION = compact({"duration": "5:20:00", "scoreboard_freeze_duration": "0:50:00"})
TOKEN, NAME = compact({"account_id": "b1", "token": "other-b1"}), compact({"team_id": "t2", "name": "Zeta"})
# Each path of the table of routes, with a body that its command takes. An extension comes before a thaw.
ROUTES = {
    "/jury/extension": EXTENSION,
    **{f"{AT_REHEARSAL}/{name}": "" for name in COLLECTIONS}, **{f"{AT_REHEARSAL}/{name}/{one}": "" for name, one in COLLECTIONS.items()},
    SUBMISSIONS: POST, AT_ALL: QUESTION, f"{SUBMISSIONS}/s1-1/files": "", f"{AT_REHEARSAL}/scoreboard": "", f"{AT_REHEARSAL}/state": "",
    f"{AT_REHEARSAL}/groups/north/scoreboard": "", f"{AT_REHEARSAL}/event-feed": "", f"{AT_REHEARSAL}/account": "", "/contests": "", AT_REHEARSAL: compact({"scoreboard_thaw_time": moment(END + 1_200_000)}), "/jury/proposals": JUDGED, "/jury/verifications": JUDGED,
    AT_REJUDGINGS: OPENED, f"{AT_REJUDGINGS}/1": "", f"{AT_REJUDGINGS}/1/verdicts": JUDGED, f"{AT_REJUDGINGS}/1/apply": "",
    f"{AT_REJUDGINGS}/1/cancel": "", "/jury/finalize": "",
    "/jury/accounts": ACCOUNT, "/jury/teams": TEAM, "/jury/tokens": TOKEN, "/jury/names": NAME,
}  # fmt: skip
MOMENTS = {"before the start": START - 1, "at 9:05": START + 300_000, "at 13:20": FREEZE + 1_200_000, "final": END}
# One of each command comes first, so that there is something to read.
FIRST = [("token-a1", SUBMISSIONS, POST), ("token-a9", SUBMISSIONS, POST), ("token-a1", AT_ALL, QUESTION), ("token-j1", "/jury/proposals", JUDGED),
         ("token-j2", "/jury/verifications", JUDGED), ("token-j1", AT_REJUDGINGS, OPENED)]  # fmt: skip


class Session:
    """Steps at one contest, and what must come of each."""

    def __init__(self, verification):
        self.contest, self.steps, self.wanted = contest_of(verification), wire.begun(verification), []

    def ask(self, now, data, status=None):
        """A connection; if a status is given the second opinion gives it too."""
        count, found, written, self.contest = wire_opinion.served(self.contest, now, data)
        if status is not None and found != status:
            sys.exit(f"the second opinion answers {found} to {data!r}, not {status}")
        self.steps.append(wire.served(now, data))
        self.wanted.append((data, wire.Served("answered", found, 0, len(data) - count, written)))
        return found

    def add(self, now, kind, file, line=None):
        """A file that is imported; the second opinion answers the line if one is given."""
        found, self.contest = verdict_file_opinion.imported(self.contest, now, kind, file)
        if line is not None and found != line:
            sys.exit(f"the second opinion answers {found} to {file!r}, not {line}")
        self.steps.append(wire.imported(now, kind, file))
        self.wanted.append((file, found))

    def hold(self, test, what):
        """Goes the steps, and holds what came of each beside what must."""
        *found, end = test.begins(test.answers_to(self.steps))
        for (data, right), one in zip(self.wanted, found):
            one = one._replace(reads=0) if isinstance(one, wire.Served) else one
            test.same(f"{what}: {data!r}", one, right)
        test.same(f"{what}: faults of the store", (len(found), end.faults, end.refusals), (len(self.wanted), 0, 0))


def begun(verification, now):
    """A session in which something was submitted, asked and judged, as far as the moment allows, and whose results are final at the end."""
    session = Session(verification)
    for who, path, body in FIRST:
        is_taken = now >= START and (verification or path != "/jury/verifications")
        session.ask(min(now, END - 1), sent(who, None, "POST", path, body), 200 if is_taken else None)
    if now >= END:
        for request in closing(session.contest):
            session.ask(now, sent(*request))
    return session


def try_routes(test):
    """Every route, method, role and moment, with verification and without."""
    for verification, (name, now) in itertools.product((False, True), MOMENTS.items()):
        session, kinds = begun(verification, now), set()
        test.same(f"{name}: final results", session.contest["finalized"], END if name == "final" else None)
        for (path, body), method, who in itertools.product(ROUTES.items(), METHODS, WHO):
            kinds |= {session.ask(now, sent(who, "k1", method, path, one)) for one in dict.fromkeys(["", body])}
        session.hold(test, name)
        test.same(f"{name}: statuses", kinds, {200, 400, 403, 404, 405, 409})


def try_imports(test):
    """Every kind of import, before the start and after it."""
    files = {
        "judgement-types": b'[{"id":"TLE","name":"time","solved":false}]', "languages": b'[{"id":"py","name":"Python"}]',
        "problems": b'[{"id":"d","label":"D","name":"D","ordinal":7}]', "groups": b'[{"id":"south","name":"South"}]',
        "teams": b'[{"id":"t4","name":"Delta"}]', "teams-csv": b"id,name,group_ids,hidden\nt5,Epsilon,north,\n",
        "accounts-csv": b"id,role,team_id,token\no2,analyst,,token-o2\n", "verdicts-csv": b"submission_id,judgement_type_id\ns1-1,AC\n",
    }  # fmt: skip
    for now in (START - 1, START + 300_000):
        session = Session(False)
        if now >= START:
            session.ask(now, sent("token-a1", None, "POST", SUBMISSIONS, POST), 200)
        for kind, file in files.items():
            for bad in (file[:-2], file + b"\xff", b"", b"["):
                session.add(now, kind, bad)
            is_taken = kind == "accounts-csv" or (kind == "verdicts-csv" if now >= START else kind != "verdicts-csv")
            session.add(now, kind, file, "added 1" if is_taken else None)
            session.add(now, kind, file, "added 0" if is_taken else None)
        session.hold(test, f"imports at {moment(now)}")


def try_teams(test):
    """Files of teams whose second record is off its form: nothing is added."""
    header = b"id,name,group_ids,hidden\n"
    session = Session(False)
    for record in (b"t6,Beta", b't6,"Beta,,', b"t6,Be\xffta,,", b"t6,Beta,,,", b"t6,Beta,,no", b"t6,,,", b"-t6,Beta,,", b'"', b" "):
        for rest in (b"", b"\n", b"\nt7,Gamma,,\n"):
            session.add(START - 1, "teams-csv", header + b"t5,Alpha,,\n" + record + rest, "refused: E22 ImportRow 2 Malformed")
    session.ask(START - 1, sent("public", None, "GET", f"{AT_REHEARSAL}/teams/t5", ""), 404)
    session.add(START - 1, "teams-csv", header + b"t5,Alpha,,\nt6,Beta,,\n", "added 2")
    session.hold(test, "files of teams")


# Values of a member that isn't read, which leave a body as it is, or spoil it.
HARMLESS = [nested(126), b"1e308", b"9" * 308, b"18446744073709551616", b"1e-999", b"0e99999", b"-0", b'"\\ud83d\\udc88"', b'"\xc3\xa9"',
            b'"\\u0000"', b'"\x7f"']  # fmt: skip
SPOILING = [nested(127), nested(900), b"[" * 300_000, b"1e309", b"-1e309", b"9" * 309, b"01", b"1.", b"+1", b".5", b"NaN", b"Infinity",
            b"0x1", b'"\\ud800"', b'"\\udc00\\ud800"', b'"\\ud83d\\u0041"', b'{"\\ud800":1}', b'"\xc3("', b'"\xed\xa0\x80"', b'"\xc0\x80"',
            b'"\xf5\x80\x80\x80"', b'"\x01"', b"tru", b"nul", b"[1,]", b'{"a":1,}', b""]  # fmt: skip


def spoiled_bodies(body):
    """A body that is taken, spoiled: each way with the status that it has to get."""
    for value, status in [*((one, 200) for one in HARMLESS), *((one, 400) for one in SPOILING)]:
        yield body[:-1] + b',"x":' + value + b"}", status
        yield b'{"x":' + value + b"," + body[1:], status
    names = [name.encode() for name in json.loads(body)]
    yield b"{" + b"".join(b'"%s":7,' % name for name in names) + body[1:], 200
    yield from ((body[:-1] + b',"%s":7}' % name, 400) for name in names)
    yield from ((b" \t\r\n" + body + b"\n", 200), (b"\x0c" + body, 400), (b"\xef\xbb\xbf" + body, 400), (body + b"x", 400))
    yield from ((body + b"{}", 400), (body[:-1], 400), (b"[" + body + b"]", 400))


def try_json_files(test):
    """Files of settings with a member that isn't read: an array with an object is two layers."""
    rows = {"judgement-types": b'"id":"TLE","name":"time","solved":false', "languages": b'"id":"py","name":"Python"',
            "problems": b'"id":"d","label":"D","name":"D","ordinal":7', "groups": b'"id":"south","name":"South"',
            "teams": b'"id":"t4","name":"Delta"'}  # fmt: skip
    for kind, row in rows.items():
        session, added = Session(False), iter(["added 1"])
        for value in [nested(125), *HARMLESS[1:]]:
            session.add(START - 1, kind, b"[{" + row + b',"x":' + value + b"}]", next(added, "added 0"))
        for value in [nested(126), *SPOILING]:
            session.add(START - 1, kind, b'[{"x":' + value + b"," + row + b"}]", "refused: E1 Malformed")
        for ordinal in (b"7.0", b"7e0", b"-0", b"65536", b"1e400", b'"7"', b"null", b"[7]"):
            line = "refused: E1 Malformed" if ordinal == b"1e400" else "refused: E22 ImportRow 1 Malformed"
            session.add(START - 1, "problems", b'[{"id":"e","label":"E","name":"E","ordinal":' + ordinal + b"}]", line)
        session.hold(test, kind)


def try_bodies(test):
    """Bodies of each command, spoiled: those that are taken are asked by who may, the others change nothing."""
    posted = {SUBMISSIONS: ("token-a1", POST), AT_ALL: ("token-a1", QUESTION), "/jury/proposals": ("token-j1", JUDGED),
              AT_REJUDGINGS: ("token-j1", OPENED), f"{AT_REJUDGINGS}/1/verdicts": ("token-j1", JUDGED),
              "/jury/extension": ("token-adm", EXTENSION), "/jury/tokens": ("token-adm", TOKEN), "/jury/names": ("token-adm", NAME)}  # fmt: skip
    # What is read after each body, where nothing is read at the path itself.
    reads = {f"{AT_REJUDGINGS}/1/verdicts": AT_REJUDGINGS, "/jury/extension": AT_REHEARSAL, "/jury/tokens": "/contests",
             "/jury/names": f"{AT_REHEARSAL}/teams"}  # fmt: skip
    now = START + 300_000
    for path, (who, body) in posted.items():
        session = Session(True)
        for one in FIRST:
            session.ask(now, sent(one[0], None, "POST", *one[1:]), 200)
        if path == "/jury/proposals":
            session.ask(now, sent("token-a1", None, "POST", SUBMISSIONS, POST), 200)
            body = body.replace("s1-1", "s1-2")
        if path == AT_REJUDGINGS:
            session.ask(now, sent("token-j1", None, "POST", f"{AT_REJUDGINGS}/1/cancel", ""), 200)
        number = 1
        for spoiled, status in spoiled_bodies(body.encode()):
            data = sent(who, None, "POST", path, "").replace(b"Length: 0", b"Length: %d" % len(spoiled)) + spoiled
            session.ask(now, data, status)
            if path == AT_REJUDGINGS and status == 200:
                number += 1
                session.ask(now, sent("token-j1", None, "POST", f"{AT_REJUDGINGS}/{number}/cancel", ""), 200)
            session.ask(now, sent("token-j1", None, "GET", reads.get(path, path), ""), 200)
        session.hold(test, path)


# The files of posts that are taken, and ones that are not.
TAKEN = {'[{"data":"YWJj"}]': b"abc", '[{"data":""}]': b"", '[{"data":"YWI="}]': b"ab", '[{"data":"YQ=="}]': b"a",
         '[{"data":"/+8="}]': b"\xff\xef", '[{"data":7,"data":"YWJk"}]': b"abd", '[{"name":[],"data":"\\u0059WJj"}]': b"abc"}  # fmt: skip
REFUSED = ["[]", "null", "7", "{}", '"YWJj"', '{"data":"YWJj"}', "[null]", "[[]]", "[{}]", '["YWJj"]', '[{"data":null}]', '[{"data":7}]',
           '[{"data":"YWJj"},{"data":"YWJj"}]', '[{"data":"YWJj"},null]', '[{"data":"YWI"}]', '[{"data":"YQ"}]', '[{"data":"YQ="}]',
           '[{"data":"YWJ="}]', '[{"data":"YX=="}]', '[{"data":"YWJj="}]', '[{"data":"YWJj===="}]', '[{"data":"YW=j"}]',
           '[{"data":"YQ==YWJj"}]', '[{"data":"YWJj\\n"}]', '[{"data":" YWJj"}]', '[{"data":"YWJ-"}]', '[{"data":"YWJ_"}]', '[{"data":"="}]',
           '[{"data":"===="}]', '[{"data":"é"}]', '[{"data":"YWJj","data":7}]']  # fmt: skip


def try_files(test):
    """What a post has for its file."""
    session, now, number = Session(False), START + 300_000, 0
    for files, status in [*((one, 200) for one in TAKEN), *((one, 400) for one in REFUSED), (next(iter(TAKEN)), 200)]:
        body = f'{{"problem_id":"a","language_id":"cpp","files":{files}}}'
        session.ask(now, sent("token-a1", None, "POST", SUBMISSIONS, body), status)
        number += status == 200
        session.ask(now, sent("token-a1", None, "GET", f"{SUBMISSIONS}/s1-{number}/files", ""), 200)
    session.hold(test, "files of posts")
    kept = [one["file"] for one in session.contest["submissions"]]
    test.same("the files that stand", kept, [*TAKEN.values(), b"abc"])


if __name__ == "__main__":
    PARTS = try_routes, try_imports, try_teams, try_json_files, try_bodies, try_files
    sys.exit(program.main(__doc__, Wire, PARTS, program="wire"))
