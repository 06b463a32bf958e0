"""Values that no member of a feed's objects may have, lines that are none, and feeds with a fault of a chosen kind, by a seed."""

import json

from .replay_files import BAD_DURATIONS, BAD_FREEZES, BAD_IDS, BAD_NAMES, BAD_TIMES, FILE_LIMIT

# What each kind of event is of, with all its members.
WHOLE = {
    "contest": {"id": "x", "formal_name": "X", "duration": "5:00:00", "scoreboard_freeze_duration": "1:00:00", "penalty_time": 20},
    "judgement-types": {"id": "AC", "name": "ok", "solved": True, "penalty": False},
    "problems": {"id": "a", "label": "A", "name": "Apples", "ordinal": 0},
    "groups": {"id": "north", "hidden": False},
    "teams": {"id": "t1", "display_name": "Alpha", "group_ids": ["north"], "hidden": False},
    "submissions": {"id": "s1", "team_id": "t1", "problem_id": "a", "contest_time": "0:10:00"},
    "judgements": {"id": "j1", "submission_id": "s1", "judgement_type_id": "AC", "end_contest_time": "0:11:00", "valid": True, "current": True},
}


def texts(values):
    """Those of some bytes that are UTF-8, as texts."""
    found = []
    for value in values:
        try:
            found.append(value.decode())
        except UnicodeDecodeError:
            pass
    return found


BAD_TEXTS = [7, True, [], {}, ["a"]]
BAD_FLAGS = [0, 1, "true", "", [], {}]
BAD_NUMBERS = ["1", -1, 1.5, 1.0, True, [], {}, 10**20]
FORMS = {
    "id": [*BAD_TEXTS, *texts(BAD_IDS)],
    "name": [*BAD_TEXTS, *texts(BAD_NAMES)],
    "flag": BAD_FLAGS,
    "ordinal": [*BAD_NUMBERS, 65_536],
    "time": [*BAD_TEXTS, *texts(BAD_TIMES)],
    "duration": [*BAD_TEXTS, *texts(BAD_DURATIONS)],
    "freeze": [*BAD_TEXTS, *texts(BAD_FREEZES)],
    "penalty": [-1, 1001, 1.5, 20.0, True, [], {}, "", "20", "0:20", "0:20:30", "0:20:00.001", "16:41:00", "-0:20:00", *texts(BAD_TIMES)],
    "ids": ["north", {}, 7, True, [7], [None], ["-a"], [""], ["north", []]],
}
# The form of each member, and whether it may be null in the whole object.
MEMBERS = {
    ("contest", "formal_name"): ("name", False), ("contest", "name"): ("name", False), ("contest", "duration"): ("duration", False),
    ("contest", "scoreboard_freeze_duration"): ("freeze", True), ("contest", "penalty_time"): ("penalty", True),
    ("judgement-types", "name"): ("name", False), ("judgement-types", "solved"): ("flag", True), ("judgement-types", "penalty"): ("flag", True),
    ("problems", "label"): ("name", False), ("problems", "name"): ("name", False), ("problems", "ordinal"): ("ordinal", False),
    ("groups", "hidden"): ("flag", True),
    ("teams", "display_name"): ("name", False), ("teams", "name"): ("name", False),
    ("teams", "group_ids"): ("ids", True), ("teams", "hidden"): ("flag", True),
    ("submissions", "team_id"): ("id", False), ("submissions", "problem_id"): ("id", False), ("submissions", "contest_time"): ("time", False),
    ("judgements", "submission_id"): ("id", False), ("judgements", "judgement_type_id"): ("id", True),
    ("judgements", "end_contest_time"): ("time", True), ("judgements", "valid"): ("flag", True), ("judgements", "current"): ("flag", True),
}  # fmt: skip
# Members in whose place another one stands, if they are there.
BEFORE = {("contest", "name"): "formal_name", ("teams", "name"): "display_name"}


def with_member(kind, name, value):
    """The whole object of a kind with one other value."""
    row = {**WHOLE[kind], name: value}
    row.pop(BEFORE.get((kind, name)), None)
    return row


def event(kind, data, **more):
    return json.dumps({"type": kind, "data": data, **more}, ensure_ascii=False).encode()


# Lines that no feed may have, whatever their type is.
BAD_LINES = [
    b"{", b"}", b"x", b"[]", b"7", b"null", b'"x"', b"{}", b"\x0b", b"\x00", b"\xc2\xa0", b"\xef\xbb\xbf", b"//", b'{"type":"x","data":{}}{}',
    b'{"type":"x","data":{}},', b'\xef\xbb\xbf{"type":"x","data":{}}', b'{"type":"x","data":{},}', b"{'type':'x','data':{}}",
    b'{"type":"x"}', b'{"data":{}}', b'{"type":null,"data":{}}', b'{"type":7,"data":{}}', b'{"type":["x"],"data":{}}',
    b'{"type":"x","data":7}', b'{"type":"x","data":"x"}', b'{"type":"x","data":true}',
    b'{"type":"x","id":7,"data":{}}', b'{"type":"x","id":{},"data":{}}', b'{"type":"x","id":[],"data":{}}', b'{"type":"x","id":false,"data":{}}',
    b'{"type":"x","op":"remove","data":{}}', b'{"type":"x","op":"Create","data":{}}',
    b'{"type":"x","op":7,"data":{}}', b'{"type":"x","op":"","data":{}}',
    b'{"type":"x","op":null,"data":{}}', b'{"type":"x","op":[],"data":{}}',
    b'{"type":"x","data":{},"data":7}', b'{"type":"x","type":7,"data":{}}', b'{"type":"x","id":"a","id":7,"data":{}}',
    b'{"type":"x","data":{"a":"\\ud800"}}', b'{"type":"\\udc00","data":{}}',
    b'{"type":"x","data":{"a":"\xc3("}}', b'{"type":"x","data":{"a":"\xff"}}',
    b'{"type":"x","data":{"a":1e999}}', b'{"type":"x","data":{"a":01}}', b'{"type":"x","data":{"a":NaN}}', b'{"type":"x","data":{"a":"\x01"}}',
    b'{"type":"x","data":' + b"[" * 127 + b"]" * 127 + b"}", b'{"type":"x","data":{}',
]  # fmt: skip
# Lines that change nothing.
GOOD_LINES = [
    b"", b" ", b"\t", b"\r", b" \t\r ", b'{"type":"x","data":{}}', b' {"type":"x","data":[7,null,"x"]}\r', b'{"type":"","data":null}',
    b'{"type":"Teams","id":"-","data":{"id":7}}', b'{"type":"x","id":"","data":{"id":"-"}}', b'{"type":"x","id":null,"op":"delete","data":[]}',
    b'{"type":"x","op":7,"op":"create","data":7,"data":{}}', b'{"token":7,"type":"x","data":{},"id":"x","time":[]}',
    b'{"type":"x","data":' + b"[" * 126 + b"]" * 126 + b"}", b'{"type":"x","data":{"a":"\\ud83c\\udf88\\u0000"}}',
    b'{"type":"\\u0078","data":{"a":1e308}}',
    b'{"type":"teams","id":null,"op":"delete","data":{"id":"nobody"}}', b'{"type":"teams","id":"nobody","data":null}',
    b'{"type":"teams","id":"17","op":"delete","data":{"id":"nobody"}}',
]  # fmt: skip
# Lines of a type that is read, which it may not have.
BAD_EVENTS = [
    b'{"type":"teams","op":"delete","data":[]}', b'{"type":"teams","id":null,"op":"delete","data":[]}', b'{"type":"teams","id":"","data":null}',
    b'{"type":"teams","id":"-a","data":null}', b'{"type":"teams","op":"delete","data":{"id":7}}',
    b'{"type":"teams","id":"t1","op":"delete","data":{"id":"-a"}}',
    b'{"type":"teams","id":"t1","op":"delete","data":{"id":[]}}', b'{"type":"teams","id":"t1","data":[]}', b'{"type":"teams","id":"","data":[]}',
    b'{"type":"teams","data":[7]}', b'{"type":"teams","data":[null]}', b'{"type":"teams","data":[[]]}', b'{"type":"teams","data":[{"name":"x"}]}',
    b'{"type":"teams","data":[{"id":null,"name":"x"}]}', b'{"type":"teams","data":[{"id":"-","name":"x"}]}',
    b'{"type":"teams","data":[{"id":"t1","name":"x"},{"id":"t2"}]}',
    b'{"type":"teams","data":{"name":"x"}}', b'{"type":"teams","id":null,"data":{"name":"x"}}', b'{"type":"teams","id":"-a","data":{"name":"x"}}',
    b'{"type":"teams","id":"t1","data":{"id":7,"name":"x"}}', b'{"type":"teams","id":"t1","data":{"id":"-a","name":"x"}}',
    b'{"type":"teams","id":"t1","data":{}}',
    b'{"type":"contests","data":{"id":"x"}}', b'{"type":"contests","data":{"name":"x","duration":"5:00:00"}}',
]  # fmt: skip


# --- Feeds with a fault ------------------------------------------------------------------------------
# Each takes a maker that has written its lines, and puts one in, if the contest has room for it. Which fault is the first, is for
# audit_opinion.py to say.


def put(maker, line):
    """A line at any place, mostly near the end."""
    count = len(maker.lines)
    maker.lines.insert(maker.often(count - maker.random.randint(0, min(3, count)), [maker.random.randint(0, count)], 0.6), line)


def spoil_member(maker):
    kind, name = maker.one(list(MEMBERS))
    form, may_be_absent = MEMBERS[kind, name]
    put(maker, event(kind, with_member(kind, name, maker.often(maker.one(FORMS[form]), [None] if not may_be_absent else FORMS[form]))))


def spoil_line(maker):
    put(maker, maker.one(BAD_LINES + BAD_EVENTS))


def spoil_array(maker):
    kind, name = maker.one(list(MEMBERS))
    put(maker, event(kind, [WHOLE[kind], with_member(kind, name, maker.one(FORMS[MEMBERS[kind, name][0]]))]))


def name_what_is_missing(maker):
    """A submission or a judgement of what isn't there, also one that doesn't count; or what they name is taken away."""
    teams, problems = list(maker.contest.teams) or ["gone"], list(maker.contest.problems) or ["gone"]
    time = maker.one(["0:00:00", "-0:00:01", "1000:00:00"])
    submission = {"id": "new", "team_id": maker.one(teams), "problem_id": maker.one(problems), "contest_time": time}
    judgement = {"id": "new", "submission_id": maker.one(["s0", "nobody"]), "judgement_type_id": "nobody", "valid": maker.one([True, False])}
    ways = [
        event("submissions", {**submission, maker.one(["team_id", "problem_id"]): "nobody"}),
        event("judgements", judgement),
        *(event(maker.one([kind]), None, id=maker.one(rows)) for kind, rows in (("teams", teams), ("problems", problems))),
        event(maker.one(["teams", "problems", "judgement-types"]), None),
        *(event("judgement-types", None, id=one) for one in list(maker.contest.types)[:1]),
    ]
    put(maker, maker.one(ways))


def reuse_label(maker):
    problems = maker.contest.problems
    if problems:
        key, label = maker.one(["new", *problems]), problems[maker.one(list(problems))][0]
        put(maker, event("problems", {"id": key, "label": label, "name": "Other", "ordinal": 3}))


def overfill(maker):
    """More rows of one kind than there may be, or as many: the limit itself is no fault."""
    kind = maker.one(["judgement-types", "problems", "groups", "teams", "submissions"])
    limit = {"judgement-types": 40, "problems": 40, "groups": 50, "teams": 500, "submissions": 500}[kind]
    over = maker.one([0, 1, 1, 2])
    rows = []
    if kind == "submissions":
        maker.lines.append(event("teams", {"id": "full", "name": "Full"}))
        maker.lines.append(event("problems", {"id": "many", "label": "Many", "name": "Many", "ordinal": 1}))
        row, times = {"team_id": "full", "problem_id": "many"}, ["0:00:00"] * 9 + ["-0:00:01"]
        rows = [{"id": f"n{n}", **row, "contest_time": maker.one(times)} for n in range(limit + 60 * over)]
    else:
        standing = len(maker.stands.get(kind, {}))
        rows = [{**WHOLE[kind], "id": f"n{n}", **({"label": f"n{n}"} if kind == "problems" else {})} for n in range(limit - standing + over)]
    if maker.maybe(0.3) and kind != "submissions":
        maker.lines.append(event(kind, [*maker.stands.get(kind, {}).values(), *rows]))
    else:
        maker.lines += [event(kind, row) for row in rows]
    if maker.maybe(0.3) and maker.stands.get(kind):
        maker.lines.append(event(kind, None, id=maker.one(list(maker.stands[kind]))))


def lose_contest(maker):
    maker.lines.append(maker.one([event("contest", None), b'{"type":"contests","op":"delete","data":{}}', b'{"type":"contest","id":null,"data":[]}']))


def lengthen(maker):
    """A line that is too long, or just not, behind or before other faults."""
    length = FILE_LIMIT + maker.one([0, 1, 1, 1000])
    put(maker, maker.one([b" " * length, b"x" * length, b'{"type":"x","data":{}}'.ljust(length), b'{"type":"teams","data":[]}'.ljust(length)]))


MALFORMED = [spoil_member, spoil_member, spoil_member, spoil_line, spoil_line, spoil_array]
MAKERS = {
    "refused: E22 ImportRow Malformed": MALFORMED,
    "refused: E22 ImportRow UnknownReference": [name_what_is_missing],
    "refused: E22 ImportRow KeyReused": [reuse_label],
    "refused: E22 ImportRow TableFull": [overfill],
    "refused: E1 Malformed": [lose_contest],
    "refused: E6 BodyTooLarge": [lengthen],
}
