#!/usr/bin/env -S python3 -B
"""Speaks HTTP to `desk serve`, on a file, at moments of the demo contest's day.

    desk_http.py [--program PATH] [--requests N]

The demo contest is imported at eight o'clock of its day; then the program serves it, and the script stops its clock by
faketime. What is sent and what comes back are bytes: whole requests and ones that are cut after each byte, bodies of the
largest size and a byte more, clarifications with texts that are too long and ones that are no text, N requests one after the
other (1,000), two clients at once, one that goes without a word and one that stops in the middle (the next waits ten seconds), a
server that is killed, sent signals and started again (what was answered stands), and curl.

Takes curl and faketime. Ends with the line `N passed, M failed`; the exit status is 0 if M is 0.
"""

import base64
import http.client
import json
import pathlib
import re
import signal
import sys
import threading
import time

from lib import clock, demo, program
from lib.program import FAULT, PATIENCE, Program, ran, refused
from lib.server import Server, read_all

INTERIM = b"HTTP/1.1 100 Continue\r\n\r\n"
STATE = (
    b'{"end_of_updates":null,"ended":null,"finalized":null,"frozen":null,'
    b'"started":"2024-03-02T09:00:00.000+00:00","thawed":null}'
)
LARGEST_BODY = 2_097_152
POSTED = b'{"problem_id":"a","language_id":"cpp","files":[{"data":"YWJj"}]}'
FIRST = (
    b'{"contest_time":"0:05:00.000","files":[{"href":"contests/demo/submissions/s1-1/files","mime":"application/zip"}],'
    b'"id":"s1-1","language_id":"cpp","problem_id":"a","team_id":"t1","time":"2024-03-02T09:05:00.000+00:00"}'
)
CLARIFICATIONS = b"/contests/demo/clarifications"
QUESTION = b'{"text":"Is 0 allowed?","problem_id":"a"}'
ANSWER = b'{"text":"Yes.","reply_to_id":"c1-1"}'
ASKED = (
    b'{"contest_time":"0:05:00.000","from_team_id":"t1","id":"c1-1","problem_id":"a","reply_to_id":null,'
    b'"text":"Is 0 allowed?","time":"2024-03-02T09:05:00.000+00:00","to_team_id":null}'
)
ANSWERED = (
    b'{"contest_time":"0:05:00.000","from_team_id":null,"id":"g-1","problem_id":null,"reply_to_id":"c1-1",'
    b'"text":"Yes.","time":"2024-03-02T09:05:00.000+00:00","to_team_id":null}'
)


def reply(phrase, body, date="Sat, 02 Mar 2024 09:05:00 GMT", extra=b"", kind=b"application/json", head_only=False):
    """The bytes of a reply."""
    head = b"HTTP/1.1 %s\r\nDate: %s\r\n%sContent-Type: %s\r\nContent-Length: %d\r\nConnection: close\r\n\r\n"
    return head % (phrase, date.encode(), extra, kind, len(body)) + (b"" if head_only else body)


def refusal(status, name, phrase, **more):
    return reply(b"%d %s" % (status, phrase), b'{"code":%d,"message":"%s"}' % (status, name), **more)


def post(fields=b"", body=POSTED, team=b"a1", path=b"/contests/demo/submissions", version=b"HTTP/1.1"):
    """The bytes of a team's post."""
    return b"POST %s %s\r\nHost: x\r\nAuthorization: Bearer token-%s\r\n%sContent-Length: %d\r\n\r\n%s" % (
        path, version, team, fields, len(body), body)


def get(path, fields=b"", method=b"GET"):
    return b"%s %s HTTP/1.1\r\nHost: x\r\n%s\r\n" % (method, path, fields)


# What is sent to a new server of the demo contest, in turn, and its reply.
REPLIES = [
    ("state", get(b"/contests/demo/state"), reply(b"200 OK", STATE)),
    ("HEAD", get(b"/contests/demo/state", method=b"HEAD"), reply(b"200 OK", STATE, head_only=True)),
    ("no team", get(b"/contests/demo/teams/t7"), refusal(404, b"NotFound", b"Not Found")),
    ("no token", get(b"/contests/demo/teams/t7", b"Authorization: Bearer nobody-here\r\n"),
     refusal(401, b"UnknownToken", b"Unauthorized", extra=b'WWW-Authenticate: Bearer realm="desk"\r\n')),
    ("DELETE", get(b"/contests/demo/teams/t7", b"Authorization: Bearer nobody-here\r\n", b"DELETE"),
     refusal(405, b"Method", b"Method Not Allowed", extra=b"Allow: GET, HEAD\r\n")),
    ("a query", get(b"/contests/demo/state?x=/y"), reply(b"200 OK", STATE)),
    ("an absolute target", get(b"http://x/contests/demo/state"), reply(b"200 OK", STATE)),
    ("an encoding", get(b"/contests/demo/state", b"Transfer-Encoding: chunked\r\nContent-Length: 9999999\r\n"),
     refusal(501, b"Encoding", b"Not Implemented")),
    ("no host", b"GET /contests/demo/state HTTP/1.1\r\n\r\n", refusal(400, b"Malformed", b"Bad Request")),
    ("two hosts", get(b"/contests/demo/state", b"Host: y\r\n"), refusal(400, b"Malformed", b"Bad Request")),
    ("HTTP/1.0", b"GET /contests/demo/state HTTP/1.0\n\n", reply(b"200 OK", STATE)),
    ("two lengths", get(b"/contests/demo/state", b"Content-Length: 0\r\nContent-Length: 0\r\n"), refusal(400, b"Malformed", b"Bad Request")),
    ("a body that is too long", get(b"/contests/demo/state", b"Content-Length: 2097153\r\n"), refusal(413, b"BodyTooLarge", b"Payload Too Large")),
    ("no target", get(b"*", method=b"OPTIONS"), refusal(400, b"Malformed", b"Bad Request")),
    ("bytes that are no head", b"\x00\xff\r\n\r\n", refusal(400, b"Malformed", b"Bad Request")),
    ("a head without an end", b"G" * 16_384, refusal(431, b"HeadTooLarge", b"Request Header Fields Too Large")),
    ("a head without an end, and more", b"G" * 40_000, refusal(431, b"HeadTooLarge", b"Request Header Fields Too Large")),
    ("nothing", b"", b""),
    ("a post", post(b"Idempotency-Key: k1\r\n"), reply(b"200 OK", FIRST)),
    ("two keys", post(b"Idempotency-Key: k1\r\nIdempotency-Key: k1\r\n"), refusal(400, b"Malformed", b"Bad Request")),
    ("the same again, which waits", post(b"Idempotency-Key: k1\r\nExpect: 100-continue\r\n"), INTERIM + reply(b"200 OK", FIRST)),
    ("in HTTP/1.0 nobody waits", post(b"Idempotency-Key: k1\r\nExpect: 100-continue\r\n", version=b"HTTP/1.0"), reply(b"200 OK", FIRST)),
    ("nor for no body", get(b"/contests/demo/state", b"Expect: 100-continue\r\nContent-Length: 0\r\n"), reply(b"200 OK", STATE)),
    ("other content", post(b"Idempotency-Key: k1\r\n", POSTED.replace(b"YWJj", b"")), refusal(409, b"KeyReused", b"Conflict")),
    ("its file", get(b"/contests/demo/submissions/s1-1/files", b"Authorization: Bearer token-a1\r\n"), reply(b"200 OK", b"abc", kind=b"application/zip")),
    ("its file, for others", get(b"/contests/demo/submissions/s1-1/files", b"authorization: bearer token-a2\r\n"), refusal(404, b"NotFound", b"Not Found")),
    ("the list", get(b"/contests/demo/submissions", b"Authorization: Bearer token-a1\r\n"), reply(b"200 OK", b"[" + FIRST + b"]")),
    ("the list without a token", get(b"/contests/demo/submissions"),
     reply(b"200 OK", b"[" + re.sub(rb'"files":\[.*?\],', b"", FIRST) + b"]")),
    ("two requests, of which one is read", get(b"/contests/demo/state") + get(b"/contests/demo/teams/t7"), reply(b"200 OK", STATE)),
]  # fmt: skip


def served(desk):
    """A folder with the demo contest, and its server."""
    folder = demo.made(desk, demo.FILES)
    return folder, Server(desk, folder)


def try_replies(desk):
    """Whole requests and their replies, byte for byte."""
    _, server = served(desk)
    for what, data, wanted in REPLIES:
        desk.same(what, server.ask(data), wanted)
    desk.same("one that waits for its reply", server.ask(get(b"/contests/demo/state"), ends=False), reply(b"200 OK", STATE))
    desk.same("a long body that nobody reads", server.ask(post(body=b"x" * 2_097_153)), refusal(413, b"BodyTooLarge", b"Payload Too Large"))
    server.at("2024-03-02 14:00:00")
    desk.same("after the end", server.ask(post(b"Idempotency-Key: k2\r\n")), refusal(409, b"NotOpen", b"Conflict", date="Sat, 02 Mar 2024 14:00:00 GMT"))
    desk.same("a repeat after the end", server.ask(post(b"Idempotency-Key: k1\r\n")), reply(b"200 OK", FIRST, date="Sat, 02 Mar 2024 14:00:00 GMT"))
    server.stop()


def try_sizes(desk):
    """The largest file, and one that has a byte more."""
    _, server = served(desk)
    for size, wanted in ((1_048_576, b"HTTP/1.1 200 OK"), (1_048_577, b"HTTP/1.1 413 Payload Too Large")):
        body = POSTED.replace(b"YWJj", base64.b64encode(b"x" * size))
        desk.same(f"a file of {size} bytes", server.ask(post(body=body)).split(b"\r\n")[0], wanted)
    server.stop()


def memory_of(process):
    """The bytes of memory that a process holds."""
    found = re.search(r"VmRSS:\s+(\d+) kB", pathlib.Path(f"/proc/{process.pid}/status").read_text(encoding="utf-8"))
    return int(found[1]) * 1024


def try_slow_body(desk):
    """A body of the largest size that comes slowly takes memory as it comes, and none for what is only announced."""
    _, server = served(desk)
    server.ask(get(b"/contests/demo/state"))
    body = POSTED.replace(b"YWJj", base64.b64encode(b"x" * 1_048_576))
    body += b" " * (LARGEST_BODY - len(body))
    data = post(body=body)
    before, held = memory_of(server.process), []
    with server.connected() as client:
        at = 0
        for end in (len(data) - len(body) + 1_000, len(data) // 2, len(data) - 1):
            client.sendall(data[at:end])
            time.sleep(0.3)
            held.append(memory_of(server.process) - before)
            at = end
        client.sendall(data[at:])
        desk.same("the reply", read_all(client).split(b"\r\n")[0], b"HTTP/1.1 200 OK")
    desk.note(held[0] < LARGEST_BODY // 4, f"a thousand bytes of a body took {held[0]:,} bytes")
    desk.note(held[0] < held[1] < held[2], f"memory as it comes: {held}")
    server.stop()


def try_clarifications(desk):
    """A question and its answer; both stand, each under its key, when the server was killed and when it was ended."""
    folder, server = served(desk)
    asked = post(b"Idempotency-Key: k1\r\n", QUESTION, path=CLARIFICATIONS)
    answered = post(b"Idempotency-Key: k1\r\n", ANSWER, team=b"j1", path=CLARIFICATIONS)
    other = post(b"Idempotency-Key: k1\r\n", QUESTION.replace(b"0", b"1"), path=CLARIFICATIONS)
    whole, date = b"[" + ASKED + b"," + ANSWERED + b"]", "Sat, 02 Mar 2024 14:30:00 GMT"
    desk.same("a question", server.ask(asked), reply(b"200 OK", ASKED))
    desk.same("its answer", server.ask(answered), reply(b"200 OK", ANSWERED))
    for how in (signal.SIGKILL, signal.SIGTERM):
        server.stop(how)
        server = Server(desk, folder)
        server.at("2024-03-02 14:30:00")
        for what, data, wanted in (
            ("the question again", asked, reply(b"200 OK", ASKED, date)),
            ("the answer again", answered, reply(b"200 OK", ANSWERED, date)),
            ("another question under the key", other, refusal(409, b"KeyReused", b"Conflict", date=date)),
            ("the list", get(CLARIFICATIONS, b"Authorization: Bearer token-a1\r\n"), reply(b"200 OK", whole, date)),
            ("the list without a token", get(CLARIFICATIONS), reply(b"200 OK", b"[" + ANSWERED.replace(b'"c1-1"', b"null") + b"]", date)),
            ("the question without a token", get(CLARIFICATIONS + b"/c1-1"), refusal(404, b"NotFound", b"Not Found", date=date)),
        ):
            desk.same(f"{what}, after signal {how}", server.ask(data), wanted)
    server.stop()


def try_texts(desk):
    """The longest texts of clarifications, ones that have a byte more, and bytes that are no text."""
    _, server = served(desk)
    malformed = refusal(400, b"Malformed", b"Bad Request")
    for number, text in enumerate((b"x" * 4_096, "é".encode() * 2_048, b"x"), 1):
        told = ASKED.replace(b"Is 0 allowed?", text).replace(b"c1-1", b"c1-%d" % number)
        given = server.ask(post(body=QUESTION.replace(b"Is 0 allowed?", text), path=CLARIFICATIONS))
        desk.same(f"a text of {len(text)} bytes", given, reply(b"200 OK", told))
        given = server.ask(get(CLARIFICATIONS + b"/c1-%d" % number, b"Authorization: Bearer token-j1\r\n"))
        desk.same(f"a text of {len(text)} bytes, once more", given, reply(b"200 OK", told))
    for text in (b"x" * 4_097, "é".encode() * 2_048 + b"x", b"", b"\xc3(", b"\xed\xa0\x80", b"\xc0\x80", b"a\0b", b"a\nb", b"\\udc00"):
        given = server.ask(post(body=QUESTION.replace(b"Is 0 allowed?", text), path=CLARIFICATIONS))
        desk.same(f"{len(text)} bytes that are no text, {text[:9]!r}", given, malformed)
    server.stop()


def try_cuts(desk):
    """A request that is cut after each of its bytes is malformed, and adds nothing."""
    _, server = served(desk)
    data = post(b"Idempotency-Key: k1\r\nExpect: 100-continue\r\n")
    head = data.index(b"\r\n\r\n") + 4
    malformed = refusal(400, b"Malformed", b"Bad Request")
    for size in range(1, len(data)):
        wanted = (INTERIM if size >= head else b"") + malformed
        desk.same(f"the first {size} bytes of a post", server.ask(data[:size]), wanted)
    desk.same("no submission", server.ask(get(b"/contests/demo/submissions")), reply(b"200 OK", b"[]"))
    server.stop()


def try_many(desk):
    """Requests one after the other, by a library's client."""
    _, server = served(desk)
    right = 0
    for number in range(desk.options.requests):
        client = http.client.HTTPConnection("127.0.0.1", server.port, timeout=PATIENCE)
        if number % 10 == 9 and number < 4_000:
            client.request("POST", "/contests/demo/submissions", POSTED, {"Authorization": "Bearer token-a1"})
            wanted = f"s1-{number // 10 + 1}"
        else:
            client.request("GET", "/contests/demo/teams/t1")
            wanted = "t1"
        answer = client.getresponse()
        right += answer.status == 200 and json.loads(answer.read())["id"] == wanted
        client.close()
    desk.note(right == desk.options.requests, f"{desk.options.requests} requests: {right} were right")
    server.stop()


def try_clients(desk):
    """Two clients at once, one that goes without a word, and slow ones."""
    _, server = served(desk)
    with server.connected() as first:
        answers = []
        second = threading.Thread(target=lambda: answers.append(server.ask(get(b"/contests/demo/state"))))
        second.start()
        time.sleep(0.5)
        desk.note(not answers, "the second client waits for the first")
        first.sendall(get(b"/contests/demo/state"))
        desk.same("the first client", read_all(first), reply(b"200 OK", STATE))
        second.join(PATIENCE)
    desk.same("the second client", answers and answers[0], reply(b"200 OK", STATE))
    server.connected().close()
    desk.same("after one that said nothing", server.ask(get(b"/contests/demo/state")), reply(b"200 OK", STATE))
    with server.connected() as slow:
        for byte in get(b"/contests/demo/state")[:3]:
            slow.sendall(bytes([byte]))
            time.sleep(1)
        start = time.monotonic()
        desk.same("beside one that stops in the middle", server.ask(get(b"/contests/demo/state")), reply(b"200 OK", STATE))
        waited = time.monotonic() - start
        desk.note(5 < waited < 15, f"that took {waited:.1f} seconds")
        desk.same("one that stops in the middle", read_all(slow), b"")
    server.stop()


def try_ends(desk):
    """What was answered stands after a kill and after each signal; so many requests, and it ends; a port that is taken."""
    folder, server = served(desk)
    other = demo.made(desk, demo.FILES)
    desk.answers("a port that is taken", refused("Net"), other, "serve", "cup.db", "--requests", "1", "--port", server.port)
    desk.answers("a file that is served", FAULT, folder, "serve", "cup.db", "--requests", "1")
    wanted = []
    for number, how in enumerate((signal.SIGKILL, signal.SIGINT, signal.SIGTERM, signal.SIGKILL), 1):
        answer = server.ask(post(b"Idempotency-Key: k%d\r\n" % number)).split(b"\r\n\r\n", 1)[1]
        wanted.append(answer)
        desk.note(json.loads(answer).get("id") == f"s1-{number}", f"post {number}: {answer!r}")
        server.stop(how)
        server = Server(desk, folder)
        desk.same(f"after signal {how}", server.ask(get(b"/contests/demo/submissions", b"Authorization: Bearer token-a1\r\n")),
                      reply(b"200 OK", b"[" + b",".join(wanted) + b"]"))
    server.stop()
    server = Server(desk, folder, requests=2)
    for _ in range(2):
        desk.same("one of two", server.ask(get(b"/contests/demo/state")), reply(b"200 OK", STATE))
    desk.note(server.ended() == 0, "the status after two requests")
    none = desk.run(folder, "serve", "cup.db", "--requests", "0")
    desk.note(none[0] == 0 and none[2] == "", f"no request: {none}")


def try_words(desk):
    """Words that are refused, and files that are no desk."""
    folder = desk.new_folder()
    (folder / "text").write_text("text", encoding="utf-8")
    for words, status in (
        (("cup.db",), 2), (("--requests", "1"), 2), (("cup.db", "--requests", "x"), 2), (("cup.db", "--requests", "-1"), 2),
        (("cup.db", "--requests", "4294967296"), 2), (("cup.db", "--requests", "1", "--port", "65536"), 2),
        (("cup.db", "--requests", "1", "--port"), 2), (("cup.db", "more", "--requests", "1"), 2),
        (("cup.db", "--requests", "1", "--requests", "1"), 2),
    ):
        given = desk.run(folder, "serve", *words)
        desk.note(given[0] == status and given[1] == "" and given[2].startswith("error: "), f"{words}: {given}")
    for name in ("text", "empty.db", "."):
        desk.answers(f"{name} is no desk", FAULT, folder, "serve", name, "--requests", "1")
    early = clock.at("1969-12-31 23:59:59")
    desk.answers("a clock of no moment, before FILE", refused("Clock"), folder, "serve", ".", "--requests", "1", before=early)


def try_curl(desk):
    """curl, as a team's script would call it."""
    folder, server = served(desk)
    (folder / "body.json").write_bytes(POSTED)
    base = f"http://127.0.0.1:{server.port}/contests/demo"
    for words, wanted in (
        ([f"{base}/state"], STATE),
        (["-H", "Authorization: Bearer token-a1", "-H", "Idempotency-Key: k1", "--data-binary", "@body.json", f"{base}/submissions"], FIRST),
        (["-H", "Authorization: Bearer token-a1", "-H", "Idempotency-Key: k1", "--data-binary", "@body.json", f"{base}/submissions"], FIRST),
        (["-H", "Authorization: Bearer token-a1", f"{base}/submissions/s1-1/files"], b"abc"),
        (["-I", f"{base}/state"], reply(b"200 OK", STATE, head_only=True)),
    ):
        desk.same(f"curl {words[-1]}", ran(["curl", "-s", *words], cwd=folder)[1], wanted)
    server.stop()


if __name__ == "__main__":
    PARTS = try_replies, try_sizes, try_slow_body, try_clarifications, try_texts, try_cuts, try_many, try_clients, try_ends, try_words, try_curl
    sys.exit(program.main(__doc__, Program, PARTS, program="desk", requests=1000))
