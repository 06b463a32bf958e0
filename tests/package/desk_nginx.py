#!/usr/bin/env -S python3 -B
"""Asks `desk serve` through Debian's nginx and the queue, as examples/nginx/ has them: TLS, many clients, a cache, two contests.

    desk_nginx.py [--program PATH] [--requests N] [--seconds N]

nginx runs in a folder of its own, on ports that the system gives, with a certificate that is made for it; the desks'
clocks are stopped by faketime. 200 clients ask at once by wrk, N seconds each (3), for a board that may be kept and
for one that may not. Dozens of clients send and read slowly while others are answered. Bodies of every size and form
reach the desk whole. Requests that two servers could read differently reach it as one request or not at all. N
requests (2,000) of callers of every kind, side by side, are each answered as the desk answers that caller. Posts
whose desk is killed and started underneath come once. No file that nginx keeps has a token, and what a slow client
hasn't read of a large reply lies in memory. Two contests stand side by side. The guide's certificate holds for the
machine's name. The pages are served. All this asks more than people do, so nginx has no limits here: desk_nginx_limits.py
tries those.

Takes nginx, haproxy, openssl, wrk, curl and faketime. Ends with the line `N passed, M failed`; the exit status is 0 if M is 0.
"""

import base64
import concurrent.futures
import hashlib
import json
import random
import re
import signal
import socket
import ssl
import sys
import threading
import time

from lib import demo, program
from lib.import_opinion import compact
from lib.nginx import HERE, POSTED, Client, Nginx, free_port, post_until_taken, without_lookups
from lib.program import PATIENCE, ROOT, Program, ran
from lib.queue import Queue
from lib.relay import Relay
from lib.server import Server, read_all
from lib.wire_opinion import asked

NOBODY = "token-nobody"
CALLERS = [None, "token-a1", "token-a2", "token-a9", "token-j1", "token-adm", NOBODY]
PATHS = [f"/contests/demo{rest}" for rest in (
    "", "/state", "/scoreboard", "/submissions", "/submissions/s1-1", "/submissions/s1-1/files", "/submissions/s9-9",
    "/judgements", "/judgements/s1-1.1", "/clarifications", "/clarifications/c1-1", "/awards", "/event-feed", "/teams/t9", "/nothing",
)] + ["/contests", "/jury/proposals", "/jury/rejudgings", "/jury/verifications"]  # fmt: skip
FIELDS = ("Content-Type", "Allow", "WWW-Authenticate")
SLOW, QUICK = 48, 40
# A reply that is larger than all buffers on its way, and whether a desk is done with it.
LARGE, LARGE_DONE = 30_000_000, threading.Event()
HOST = b"Host: x\r\nAuthorization: Bearer token-a1\r\n"
TEAMS = b"GET /demo/contests/demo/teams"
SMUGGLED = (
    b"POST /demo/contests/demo/clarifications HTTP/1.1\r\n"
    + HOST
    + b"Content-Length: 19\r\n\r\n"
    + b'{"text":"smuggled"}'
)


def front(desk):
    """A desk with the demo contest behind a relay, and nginx and the queue before it."""
    server = Server(desk, demo.made(desk, demo.FILES))
    relay = Relay(server.port)
    return server, relay, Nginx(desk.new_folder(), {"demo": queued(desk, relay.port)}, is_limited=False)


def queued(desk, port):
    """The port of a queue before a desk's."""
    return Queue(desk.new_folder(), port).port


def taken(relay):
    """What the desk was asked since this was called last, but for what nginx asks it for itself."""
    return without_lookups(relay.take())


def stop(server, nginx, relay=None):
    nginx.stop()
    server.stop()
    if relay is not None:
        relay.close()


def seconds_of(action):
    start = time.perf_counter()
    action()
    return time.perf_counter() - start


def try_many_clients(desk):
    """200 clients at once: of the public, whose board is kept for a second, and of a team, whose board never is."""
    server = Server(desk, demo.made(desk, demo.FILES))
    nginx = Nginx(desk.new_folder(), {"demo": queued(desk, server.port)}, is_limited=False)
    for who, fields in (("the public", []), ("a team", ["-H", "Authorization: Bearer token-a1"])):
        words = ["wrk", "-t", "2", "-c", "200", "-d", f"{desk.options.seconds}s", "--timeout", f"{PATIENCE}s", *fields]
        status, out, _ = ran([*words, f"https://127.0.0.1:{nginx.port}{HERE}/scoreboard"])
        count = int(re.search(rb"(\d+) requests in", out)[1])
        rate = float(re.search(rb"Requests/sec: +([\d.]+)", out)[1])
        is_right = status == 0 and count >= 200 and b"Non-2xx" not in out and b"Socket errors" not in out
        desk.note(is_right, f"200 clients of {who}: {out.decode()}")
        print(f"  200 clients of {who}: {count} replies, {rate:.0f} in a second")
    client = Client(nginx.port)
    for number in range(50):
        desk.same(f"request {number} of one connection", client.ask("GET", f"{HERE}/teams/t1")[0], 200)
    stop(server, nginx)


def sent_slowly(nginx, data):
    """What comes back for data that is sent byte by byte."""
    with nginx.connected() as client:
        for at in range(len(data)):
            client.sendall(data[at : at + 1])
            time.sleep(0.02)
        return client.recv(65536)


def hold(nginx, data, are_there, is_over):
    """Sends data, joins the others that hold a connection, and goes once it is over. Nothing is read."""
    with nginx.connected() as client:
        client.sendall(data)
        are_there.wait(PATIENCE)
        return is_over.wait(PATIENCE)


def try_slow_clients(desk):
    """Dozens of clients that send a post byte by byte, stop in the middle, or read nothing, hold no other."""
    server, relay, nginx = front(desk)
    large = compact({**POSTED, "files": [{"data": base64.b64encode(b"x" * 1_048_576).decode()}]}).encode()
    desk.same("a large file", Client(nginx.port, "token-a1").ask("POST", f"{HERE}/submissions", large)[0], 200)
    relay.take()
    body = compact(POSTED).encode()
    post = (
        b"POST /demo/contests/demo/submissions HTTP/1.1\r\n" + HOST + b"Content-Length: %d\r\n\r\n" % len(body) + body
    )
    get = b"GET /demo/contests/demo/submissions/s1-1/files HTTP/1.1\r\n" + HOST + b"\r\n"
    are_there, is_over = threading.Barrier(2 * SLOW + 1), threading.Event()
    with concurrent.futures.ThreadPoolExecutor(3 * SLOW) as pool:
        slow = [pool.submit(sent_slowly, nginx, post) for _ in range(SLOW)]
        held = [pool.submit(hold, nginx, data, are_there, is_over) for data in (post[:-9], get * 4) for _ in range(SLOW)]
        are_there.wait(PATIENCE)
        client = Client(nginx.port, "token-a2")
        took = [
            seconds_of(lambda: desk.same("a quick one", client.ask("GET", f"{HERE}/scoreboard")[0], 200))
            for _ in range(QUICK)
        ]
        desk.note(max(took) < 2, f"the longest of {QUICK} quick requests took {max(took):.2f} s")
        desk.same("clients that hold on", sum(not one.done() for one in held), 2 * SLOW)
        is_over.set()
        desk.same("clients that held on", [one.result() for one in held], [True] * 2 * SLOW)
        replies = [one.result() for one in slow]
    desk.same("slow posts", sum(reply.startswith(b"HTTP/1.1 200") for reply in replies), SLOW)
    kept = json.loads(Client(nginx.port, "token-a1").ask("GET", f"{HERE}/submissions")[2])
    desk.same("submissions", len(kept), SLOW + 1)
    print(f"  beside {3 * SLOW} slow clients a quick request took {max(took) * 1000:.0f} ms at most")
    stop(server, nginx, relay)


def try_bodies(desk):
    """Bodies of every size, in one piece and in chunks; the desk refuses those that are too large, and nginx the
    largest."""
    server, relay, nginx = front(desk)
    team = Client(nginx.port, "token-a1")

    def body(size):
        return compact({**POSTED, "files": [{"data": base64.b64encode(b"x" * size).decode()}]}).encode()

    cases = [("a file of the largest size", body(1_048_576), 200), ("a file that is a byte larger", body(1_048_577), 413),
             ("a body of the largest size", b" " * 2_097_152, 400), ("a body that is a byte larger", b" " * 2_097_153, 413),
             ("a body of 3 MiB", b" " * 3_145_728, 413), ("a body of a byte more", b" " * 3_145_729, 413)]  # fmt: skip
    for what, data, wanted in cases * 3:
        status, _, reply = team.ask("POST", f"{HERE}/submissions", data)
        desk.same(what, status, wanted)
        if wanted == 413 and len(data) <= 3_145_728:
            desk.same(f"{what}, whose refusal is the desk's", reply, b'{"code":413,"message":"BodyTooLarge"}')
    pieces = [body(9_000)[at : at + 999] for at in range(0, len(body(9_000)), 999)]
    desk.same("a body in chunks", team.ask("POST", f"{HERE}/submissions", pieces)[0], 200)
    words = ["curl", "-sk", "-H", "Authorization: Bearer token-a1", "-H", "Expect: 100-continue", "--data-binary", "@-"]
    _, out, _ = ran([*words, f"https://127.0.0.1:{nginx.port}{HERE}/submissions"], input=body(200_000))
    desk.note(out.startswith(b'{"contest_time"'), f"curl, which waits for the interim reply: {out[:200]}")
    status, fields, _ = Client(nginx.plain_port, is_plain=True).ask("GET", f"{HERE}/scoreboard")
    desk.same("without TLS", (status, fields["Location"]), (301, f"https://127.0.0.1{HERE}/scoreboard"))
    stop(server, nginx, relay)


def smuggling_cases():
    """Requests that two servers could read differently, each with another behind or within it."""
    start = b"POST /demo/contests/demo/clarifications HTTP/1.1\r\n" + HOST
    inner = SMUGGLED
    length = b"Content-Length: %d\r\n" % (5 + len(inner))
    chunked = b"Transfer-Encoding: chunked\r\n"
    return [
        ("a length and an encoding", start + length + chunked + b"\r\n0\r\n\r\n" + inner),
        ("an encoding and a length", start + chunked + length + b"\r\n0\r\n\r\n" + inner),
        ("two lengths", start + b"Content-Length: 0\r\n" + length + b"\r\n" + inner),
        ("two equal lengths", start + 2 * length + b"\r\n     " + inner),
        ("a list of lengths", start + b"Content-Length: 0, %d\r\n\r\n" % len(inner) + inner),
        ("a length with a sign", start + b"Content-Length: +%d\r\n\r\n" % len(inner) + inner),
        ("a length in hexadecimal", start + b"Content-Length: 0x10\r\n\r\n" + inner),
        ("a length that is folded", start + b"Content-Length:\r\n %d\r\n\r\n" % len(inner) + inner),
        ("a folded encoding", start + b"X: y\r\n Transfer-Encoding: chunked\r\n" + length + b"\r\n     " + inner),
        ("a space before a colon", start + b"Content-Length : %d\r\n\r\n" % len(inner) + inner),
        ("an encoding with a space", start + b"Transfer-Encoding : chunked\r\n" + length + b"\r\n0\r\n\r\n" + inner),
        ("an encoding that is unknown", start + b"Transfer-Encoding: xchunked\r\n" + length + b"\r\n0\r\n\r\n" + inner),
        ("two encodings", start + b"Transfer-Encoding: identity, chunked\r\n" + length + b"\r\n0\r\n\r\n" + inner),
        ("a chunk's size off its form", start + chunked + b"\r\n0x5\r\nabcde\r\n0\r\n\r\n" + inner),
        ("a field in the trailer", start + chunked + b"\r\n0\r\n" + length + b"\r\n" + inner[:0]),
        ("a null byte in a field", start + b"X: a\0b\r\n" + length + b"\r\n" + inner),
        ("a bare carriage return", start + b"X: a\rContent-Length: 0\r\n" + length + b"\r\n     " + inner),
        ("two hosts", start + b"Host: y\r\n" + length + b"\r\n     " + inner),
        ("two credentials", start + b"Authorization: Bearer token-a2\r\n" + length + b"\r\n     " + inner),
        ("a body behind a GET", start.replace(b"POST", b"GET") + length + b"\r\n     " + inner),
        ("a target with a line end", TEAMS + b"%0d%0aX:%20y HTTP/1.1\r\n" + HOST + b"\r\n"),
        ("a second request in a target", TEAMS + b"%20HTTP/1.1%0d%0a%0d%0aGET%20/x HTTP/1.1\r\n" + HOST + b"\r\n"),
        ("HTTP/0.9", TEAMS + b"\r\n" + inner),
        ("an upgrade", start + b"Connection: Upgrade\r\nUpgrade: h2c\r\n" + length + b"\r\n     " + inner),
    ]  # fmt: skip


def try_smuggling(desk):
    """Whatever is sent, each connection to the desk has one whole request, and none is what stood within another."""
    server, relay, nginx = front(desk)
    for what, data in smuggling_cases():
        with nginx.connected() as client:
            client.settimeout(3)
            try:
                client.sendall(data)
                read_all(client)
            except OSError:
                pass
        for sent in relay.take():
            desk.note(asked(sent)[0] == len(sent), f"{what}: the desk was sent {sent}")
            desk.note(not isinstance(asked(sent)[3], str), f"{what}: the desk was sent {sent}, which is no request")
    heard = json.loads(Client(nginx.port, "token-j1").ask("GET", f"{HERE}/clarifications")[2])
    desk.same("what was smuggled", [one for one in heard if one["text"] == "smuggled"], [])
    with nginx.connected() as client:
        client.sendall(SMUGGLED)
        desk.note(client.recv(65536).startswith(b"HTTP/1.1 200"), "the same by itself is a request")
    stop(server, nginx, relay)


def fill_contest(server):
    """Submissions of two teams before and in the freeze, with verdicts, and a question with its answer."""
    submission = ("/contests/demo/submissions", POSTED)
    question = ("/contests/demo/clarifications", {"text": "Is 0 allowed?"})
    answer = ("/contests/demo/clarifications", {"text": "Yes.", "reply_to_id": "c1-1"})
    wrong, *right = [
        ("/jury/proposals", {"submission_id": which, "judgement_type_id": verdict})
        for which, verdict in (("s1-1", "WA"), ("s1-2", "AC"), ("s2-1", "AC"))
    ]
    early = [("a1", submission), ("a1", question), ("j1", answer), ("j1", wrong)]
    frozen = [("a1", submission), ("a2", submission), ("a9", submission), ("j1", right[0]), ("j1", right[1])]
    for moment, (who, (path, value)) in [("09:05", one) for one in early] + [("13:10", one) for one in frozen]:
        server.at(f"2024-03-02 {moment}:00")
        Client(server.port, f"token-{who}", is_plain=True).ask("POST", path, compact(value))


def outline(answer):
    status, fields, body = answer
    return status, [fields[name] for name in FIELDS], body


def try_callers(desk):
    """Whoever asks, whatever others asked before, is answered as the desk itself answers this caller."""
    server, relay, nginx = front(desk)
    fill_contest(server)
    cases = [(who, method, path) for who in CALLERS for method in ("GET", "HEAD") for path in PATHS]
    wanted = {case: outline(Client(server.port, case[0], True).ask(*case[1:])) for case in cases}
    # Whose token no account has nginx tells so, whatever the path; and the public that nothing of the jury's is for it.
    for who, method, path in cases:
        if who == NOBODY:
            wanted[who, method, path] = wanted[who, method, "/contests"]
        elif who is None and path.startswith("/jury/"):
            wanted[who, method, path] = wanted[who, method, "/jury/proposals"]
    boards = {wanted[who, "GET", "/contests/demo/scoreboard"][2] for who in CALLERS}
    desk.note(len(boards) >= 4, f"callers see {len(boards)} different boards")
    relay.take()
    lock, choice = threading.Lock(), random.Random(7)

    def ask_some(number):
        clients = {who: Client(nginx.port, who) for who in CALLERS}
        for _ in range(number):
            with lock:
                who, method, path = choice.choice(cases)
                prefix = choice.choice(["/demo", "" if path.startswith("/contests/demo") else "/demo"])
                query = choice.choice(["", "?x=1", f"?token={who}"])
            given = outline(clients[who].ask(method, prefix + path + query))
            desk.same(f"{who} {method} {prefix}{path}{query}", given, wanted[who, method, path])

    with concurrent.futures.ThreadPoolExecutor(16) as pool:
        for done in [pool.submit(ask_some, desk.options.requests // 16) for _ in range(16)]:
            done.result()
    count = len(taken(relay))
    desk.note(count < desk.options.requests // 16 * 16, f"of {desk.options.requests} requests {count} count the desk")
    stop(server, nginx, relay)


def try_cache(desk):
    """What is kept: a second or two of the public's replies, nothing else, and never what a caller with a credential is
    answered."""
    server, relay, nginx = front(desk)
    public, team, path = Client(nginx.port), Client(nginx.port, "token-a1"), f"{HERE}/scoreboard"
    first = public.ask("HEAD", path)
    desk.same(
        "a GET after a HEAD", outline(public.ask("GET", path)), outline((first[0], first[1], team.ask("GET", path)[2]))
    )
    desk.same("requests of two of these", len(taken(relay)), 2)
    for _ in range(5):
        team.ask("GET", path)
        team.ask("HEAD", path)
    desk.same("requests of a team's ten", len(taken(relay)), 10)
    for fields in (
        {"Authorization": "Basic eHg6eXk="},
        {"Authorization": "Bearer "},
        {"Authorization": "x"},
        {"authorization": "Bearer token-no"},
    ):
        desk.same(f"a credential {fields}", public.ask("GET", path, **fields)[0], 401)
    desk.same("requests of these four", len(taken(relay)), 0)
    given = public.ask("GET", path, Authorization="")
    desk.note(given[0] == 401 or given[2] == public.ask("GET", path)[2], f"an empty credential: {given}")
    missing = [public.ask("GET", f"{HERE}/teams/t7")[0] for _ in range(3)]
    relay.take()
    desk.same("what isn't there", missing, [404] * 3)
    team.ask("POST", f"{HERE}/submissions", compact(POSTED))
    time.sleep(2.1)
    pending = json.loads(public.ask("GET", path)[2])
    desk.same("a board after two seconds", pending, json.loads(public.ask("GET", path)[2]))
    desk.note(
        any(cell["num_pending"] for row in pending["rows"] for cell in row["problems"]),
        f"a board after two seconds: {pending}",
    )
    stop(server, nginx, relay)


def try_kept_files(desk):
    """nginx keeps replies, and whose token it knows, in files. None has a token: they have digests of those that were taken."""
    server, relay, nginx = front(desk)
    tokens = [who for who in CALLERS if who is not None]
    for who in CALLERS:
        for path in PATHS:
            Client(nginx.port, who).ask("GET", f"/demo{path}")
    files = [file for name in ("accounts", "cache", "replies") for file in (nginx.folder / name).rglob("*") if file.is_file()]
    texts = [file.read_bytes() for file in files]
    desk.same("tokens in nginx's files", [who for who in tokens if any(who.encode() in text for text in texts)], [])
    digests = [hashlib.sha256(who.encode()).hexdigest().encode() for who in tokens]
    kept = [who for who, digest in zip(tokens, digests) if any(digest in text for text in texts)]
    desk.same("the digests in them", kept, [who for who in tokens if who != NOBODY])
    desk.note(any(b"/scoreboard" in text for text in texts), "no file has a board of the public")
    stop(server, nginx, relay)


def try_large_replies(desk):
    """What a slow client doesn't take of a large reply lies in /run, which is in memory, and in no other folder. The desk is
    free meanwhile, and the file is gone once the client is."""
    conf = (ROOT / "examples/nginx/desk.conf").read_text(encoding="utf-8")
    desk.note("proxy_temp_path /run/" in conf, "desk.conf keeps what a slow client doesn't take elsewhere")
    with socket.create_server(("127.0.0.1", 0)) as large:
        threading.Thread(target=answer_largely, args=(large,), daemon=True).start()
        nginx = Nginx(desk.new_folder(), {"demo": queued(desk, large.getsockname()[1])})
        with nginx.connected() as client:
            client.sendall(b"GET /demo/contests/demo/submissions HTTP/1.1\r\n" + HOST + b"\r\n")
            desk.same("the desk's own part of it", LARGE_DONE.wait(PATIENCE), True)
            desk.same("where the rest lies", [nginx.open_files(name) > 0 for name in ("replies", "proxy")], [True, False])
        time.sleep(0.5)
        desk.same("and afterwards", [nginx.open_files(name) for name in ("replies", "proxy")], [0, 0])
        nginx.stop()


def answer_largely(listener):
    """Answers each connection by so many bytes that no buffer has them all."""
    while True:
        try:
            client, _ = listener.accept()
        except OSError:
            return
        with client:
            is_lookup = not without_lookups([client.recv(65536)])
            body = b"[]" if is_lookup else b"x" * LARGE
            head = b"HTTP/1.1 200 OK\r\nContent-Type: application/json\r\nContent-Length: %d\r\n\r\n" % len(body)
            client.sendall(head + body)
        if not is_lookup:
            LARGE_DONE.set()


def try_restarts(desk):
    """Posts while their desk is killed and started again: each is there once, and is answered so to its repeat."""
    folder, port = demo.made(desk, demo.FILES), free_port()
    server = Server(desk, folder, port=str(port))
    queue = Queue(desk.new_folder(), port)
    nginx = Nginx(desk.new_folder(), {"demo": queue.port}, is_limited=False)
    posts = [(team, number) for number in range(60) for team in (1, 2, 3)]
    with concurrent.futures.ThreadPoolExecutor(12) as pool:
        running = [pool.submit(post_until_taken, nginx.port, *one) for one in posts]
        for how in (signal.SIGKILL, signal.SIGTERM) * 3:
            time.sleep(0.1)
            server.stop(how)
            queue.stop()
            time.sleep(0.1)
            server = Server(desk, folder, port=str(port))
            queue.start()
        replies = [one.result() for one in running]
    desk.note(sum(away for _, _, away in replies) > 0, "no post met a desk that was away")
    for one, (status, reply, _) in zip(posts, replies):
        desk.same(f"the post {one}", status, 200)
        desk.same(f"the post {one}, repeated", post_until_taken(nginx.port, *one)[1], reply)
    ids = [json.loads(reply)["id"] for _, reply, _ in replies]
    kept = json.loads(Client(nginx.port).ask("GET", f"{HERE}/submissions")[2])
    desk.same("submissions", sorted(one["id"] for one in kept), sorted(set(ids)))
    desk.same("ids", len(set(ids)), len(posts))
    stop(server, nginx)


def contest_cases():
    """Whose token asks two contests for which path, the status that comes, and what stands in the reply."""
    tokens = {"demo": "token-j1", "demo-2": "secret-j1"}
    cases = [
        ("token-j1", path, 404, "") for path in ("/contests", "/jury/proposals", "/contests/demo-3", "/", "/demo-2x/a")
    ]
    for mine, other in [(mine, other) for mine in tokens for other in tokens]:
        is_own, token = mine == other, tokens[mine]
        named = f'"id":"{mine}"' if is_own else ""
        cases.append((token, f"/{other}/jury/proposals", 200 if is_own else 401, "[]" if is_own else "UnknownToken"))
        cases.append((token, f"/{other}/contests/{mine}", 200 if is_own else 401, named))
        cases.append((token, f"/{other}/contests", 200 if is_own else 401, named))
        cases.append((token, f"/contests/{other}", 200 if is_own else 401, named))
    return cases


def try_two_contests(desk):
    """Two desks side by side: a path leads to one of them, and a token of the one is nobody's at the other."""
    accounts = demo.FILES["accounts-csv"].replace("token-", "secret-")
    other = {**demo.FILES, "init": demo.STARTED.replace('"demo"', '"demo-2"'), "accounts-csv": accounts}
    first, second = (Server(desk, demo.made(desk, files)) for files in (demo.FILES, other))
    nginx = Nginx(desk.new_folder(), {"demo": queued(desk, first.port), "demo-2": queued(desk, second.port)})
    for token, path, wanted, text in contest_cases():
        status, _, reply = Client(nginx.port, token).ask("GET", path)
        desk.note(status == wanted and text in reply.decode(), f"{token} asks for {path}: {status} {reply}")
    stop(first, nginx)
    second.stop()


def try_certificate(desk):
    """The certificate that the guide makes: who trusts it, and no other, reaches the machine by its name."""
    server, relay, nginx = front(desk)
    name = ran(["hostname", "-f"])[1].decode().strip()
    trusting = ssl.create_default_context(cafile=nginx.folder / "desk/certificate.pem")
    # (browsers look at its other names alone)
    trusting.hostname_checks_common_name = False
    for host, wanted in ((name, "TLSv1.3"), ("another.example", "CERTIFICATE_VERIFY_FAILED")):
        try:
            with socket.create_connection(("127.0.0.1", nginx.port), timeout=PATIENCE) as client:
                said = trusting.wrap_socket(client, server_hostname=host).version()
        except ssl.SSLError as error:
            said = error.reason
        desk.same(f"the certificate of {name}, asked for {host}", said, wanted)
    stop(server, nginx, relay)


def try_pages(desk):
    """The pages and what they load, each with the fields that hold them to it; and nothing else of the machine."""
    server, relay, nginx = front(desk)
    public = Client(nginx.port)
    for file in sorted(it for it in (ROOT / "web").rglob("*") if it.is_file()):
        name = file.relative_to(ROOT / "web")
        status, fields, body = public.ask("GET", f"/demo/{name}")
        desk.same(name, (status, body), (200, file.read_bytes()))
        policy = fields["Content-Security-Policy"]
        desk.note(all(f"{what}-src 'self'" in policy for what in ("script", "img")), f"{name}: {fields}")
    desk.same("without a name", public.ask("GET", "/demo/")[2], (ROOT / "web/scoreboard.html").read_bytes())
    for path in (
        "/demo/../README.md",
        "/demo/%2e%2e/README.md",
        "/demo/..%2fREADME.md",
        "/demo../README.md",
        "/demo/.git/config",
    ):
        desk.note(public.ask("GET", path)[0] in (400, 404), f"{path} is served")
    desk.same("requests that count the desk", len(taken(relay)), 0)
    stop(server, nginx, relay)


PARTS = [
    try_many_clients,
    try_slow_clients,
    try_bodies,
    try_smuggling,
    try_callers,
    try_cache,
    try_kept_files,
    try_large_replies,
    try_restarts,
    try_two_contests,
    try_certificate,
    try_pages,
]

if __name__ == "__main__":
    sys.exit(program.main(__doc__, Program, PARTS, program="desk", requests=2_000, seconds=3))
