"""A second opinion on the bytes of requests and replies.

Written to be read beside docs/FORMATS.md, section 8: what the bytes of a connection ask for, and which bytes answer them. What is
asked is answered by desk_opinion.py.
"""

import datetime
import re

from . import desk_opinion, feed_opinion
from .import_opinion import compact

HEAD_LIMIT, BODY_LIMIT = 16_384, 2_097_152
INTERIM = b"HTTP/1.1 100 Continue\r\n\r\n"
STATUSES = {**desk_opinion.STATUSES, "HeadTooLarge": 431, "Encoding": 501}
PHRASES = {200: "OK", 400: "Bad Request", 401: "Unauthorized", 403: "Forbidden", 404: "Not Found", 405: "Method Not Allowed",
           409: "Conflict", 413: "Payload Too Large", 431: "Request Header Fields Too Large", 501: "Not Implemented",
           503: "Service Unavailable"}  # fmt: skip
WORD = rb"[!#$%&'*+\-.^_`|~0-9A-Za-z]+"
FIELDS = rb"(?:%s:[\t\x20-\x7e\x80-\xff]*\r?\n)*" % WORD
HEAD = re.compile(rb"(?:\r?\n)?(%s) ([\x21-\x7e\x80-\xff]+) HTTP/1\.([01])\r?\n(%s)\r?\n" % (WORD, FIELDS))
NOBODY = "no account's token"


class Refusal(Exception):
    """The bytes are refused by this name."""


def head_of(data):
    """The bytes that are taken as the head."""
    end = re.search(rb"\n\r?\n", data[:HEAD_LIMIT])
    if end is None and len(data) >= HEAD_LIMIT:
        raise Refusal("HeadTooLarge")
    if end is None:
        raise Refusal("Malformed")
    return data[: end.end()]


def fields_of(lines):
    """The values of each field, by its name in small letters."""
    found = {}
    for line in re.findall(rb"[^\n]*\n", lines):
        name, _, value = line.rstrip(b"\r\n").partition(b":")
        found.setdefault(name.lower(), []).append(value.strip(b" \t"))
    return found


def size_of(values):
    """How long the body is."""
    if len(values) > 1 or not all(re.fullmatch(rb"[0-9]+", value) for value in values):
        raise Refusal("Malformed")
    digits = values[0].lstrip(b"0") if values else b""
    if len(digits) > 7 or int(digits or b"0") > BODY_LIMIT:
        raise Refusal("BodyTooLarge")
    return int(digits or b"0")


def path_of(target):
    if target.startswith(b"http://"):
        slash = target.find(b"/", len(b"http://"))
        target = target[slash:] if slash >= 0 else b"/"
    if not target.startswith(b"/"):
        raise Refusal("Malformed")
    return target.partition(b"?")[0].decode("utf-8")


def caller_of(values):
    """Who asks, as desk_opinion.py is told it."""
    if not values:
        return "public"
    found = re.fullmatch(rb"(?i:bearer) +([A-Za-z0-9._~+/-]+=*)", values[0]) if len(values) == 1 else None
    return found[1].decode() if found and found[1] != b"public" else NOBODY


def key_of(values):
    """The key, or a text that is none."""
    return values[0].decode("latin-1") if len(values) == 1 else ("?" if values else None)


def is_utf8(data):
    try:
        return data.decode("utf-8") is not None
    except UnicodeDecodeError:
        return False


def asked(data):
    """What bytes ask for: how many of them are read, what goes out before the body is read, whether the reply is its head alone,
    and who asks, the key, the method, the path and the body; or in the place of these five the name of a refusal."""
    try:
        head = head_of(data)
    except Refusal as refusal:
        return min(len(data), HEAD_LIMIT), b"", False, str(refusal)
    found = HEAD.fullmatch(head)
    if found is None or not is_utf8(found[2]):
        return len(head), b"", False, "Malformed"
    method, target, minor, fields = found[1].decode(), found[2], found[3], fields_of(found[4])
    try:
        if b"transfer-encoding" in fields:
            raise Refusal("Encoding")
        if minor == b"1" and len(fields.get(b"host", [])) != 1:
            raise Refusal("Malformed")
        size, path = size_of(fields.get(b"content-length", [])), path_of(target)
    except Refusal as refusal:
        return len(head), b"", method == "HEAD", str(refusal)
    waits = minor == b"1" and size > 0 and any(value.lower() == b"100-continue" for value in fields.get(b"expect", []))
    interim, body = INTERIM if waits else b"", data[len(head) : len(head) + size]
    if len(body) < size:
        return len(data), interim, method == "HEAD", "Malformed"
    request = caller_of(fields.get(b"authorization", [])), key_of(fields.get(b"idempotency-key", [])), method, path, body
    return len(head) + size, interim, method == "HEAD", request


def reply(now, status, body, extra=b"", kind=b"application/json", head_only=False):
    """The bytes of a reply."""
    date = datetime.datetime(1970, 1, 1) + datetime.timedelta(seconds=now // 1000)
    lines = [f"HTTP/1.1 {status} {PHRASES[status]}".encode(), date.strftime("Date: %a, %d %b %Y %H:%M:%S GMT").encode()]
    lines += [extra] if extra else []
    lines += [b"Content-Type: " + kind, b"Content-Length: %d" % len(body), b"Connection: close", b"", b"" if head_only else body]
    return b"\r\n".join(lines)


def spelled(now, answer, head_only):
    """The bytes of an answer as desk_opinion.py tells it."""
    status, _, rest = answer.partition(" ")
    extra, kind = b"", b"application/json"
    if rest.startswith("Allow: "):
        allowed, _, rest = rest.partition(" {")
        extra, rest = allowed.encode(), "{" + rest
    elif rest.startswith("WWW-Authenticate: Bearer "):
        extra, rest = b'WWW-Authenticate: Bearer realm="desk"', rest.removeprefix("WWW-Authenticate: Bearer ")
    for content in ("application/zip", feed_opinion.CONTENT):
        if rest.startswith(f"{content} "):
            kind, rest = content.encode(), rest.removeprefix(f"{content} ")
            break
    return reply(now, int(status), rest.encode("utf-8", "surrogateescape"), extra, kind, head_only)


def served(contest, now, data):
    """How many bytes of a connection are read, the status of its reply (0 if nothing came), all bytes that go out, and the contest
    after it."""
    if not data:
        return 0, 0, b"", contest
    count, interim, head_only, request = asked(data)
    if isinstance(request, str):
        status = STATUSES[request]
        body = compact({"code": status, "message": request}).encode()
        return count, status, interim + reply(now, status, body, head_only=head_only), contest
    answer, after = desk_opinion.handled(contest, now, *request)
    return count, int(answer.partition(" ")[0]), interim + spelled(now, answer, head_only), after
