"""Requests that are spoiled, by a seed."""

import re

from .chance import Chance
from .import_opinion import json_of
from .replay_opinion import Fault
from .timekeeper import TIMES, WRONG_TIMES

ODD_BYTES = [b"\xc3(", b"\xed\xa0\x80", b"\xc0\x80", b"\xff", b"\xf5\x80\x80\x80", b"\xe2\x82", b"\xef\xbb\xbf", "é".encode(), b"\0", b"\x7f", b"\r", b"\n",
             b"\t", b'"', b"\\", b"\\ud800", b"\\u0000", b" ", b":"]  # fmt: skip
ODD_NUMBERS = [b"1e999", b"-1e999", b"1e-999", b"9" * 30, b"9" * 310, b"1" + b"0" * 308, b"-0", b"01", b"1.", b"+1", b"0x1", b"NaN",
               b"Infinity", b"-", b"18446744073709551616", b"1E400", b"0e99999", b"1.5"]  # fmt: skip
ODD_LENGTHS = [b"", b"+5", b"-1", b"1, 1", b"0x10", b"1.0", b" 7 ", b"00", b"0007", b"2097152", b"2097153", b"9" * 40, b"0" * 40]
ODD_FILES = ["[]", '[{"data":"YWJj"},{"data":"YWJj"}]', '[{"data":""}]', '[{"data":"YWI"}]', '[{"data":"YWJ="}]', '[{"data":"YW=="}]',
             '[{"data":"YX=="}]', '[{"data":"YWJj=="}]', '[{"data":"YWJj\\n"}]', '[{"data":"YWJ-"}]', '[{"data":"=="}]', '[{"data":null}]',
             '[{}]', '[[]]', '{"data":"YWJj"}', '["YWJj"]', '[{"data":"YWJj","data":"YWJk"}]', '[{"data":7,"data":"YWJj"}]', '[null]',
             '[{"data":"/+8="}]', '[{"data":"____"}]']  # fmt: skip
ODD_FIELDS = [b"Transfer-Encoding: chunked", b"transfer-encoding:", b"Host: y", b"Content-Length: 0", b"Expect: 100-continue",
              b"EXPECT:100-Continue ", b"Expect: 100-continue, x", b"Authorization: Basic YTpi", b"Authorization: Bearer token-j1",
              b"Idempotency-Key: k1", b"X", b"X :y", b" folded", b"X:\x01", b"X: \xff\xfe", b"Connection: keep-alive", b": y",
              b"X:" + b"y" * 9_000, b"X:" + b"y" * 17_000, b"\r\n".join([b"a:"] * 4_000), b"Content-Type: text/plain"]  # fmt: skip
ODD_TARGETS = [b"*", b"http://x%s", b"http://x", b"https://x%s", b"HTTP://x%s", b"%s?a=/b", b"%s#a", b"/%s", b"%s/", b"/..%s",
               b"%s\xc3\xa9", b"%s\xff", b"%%2f%s"]  # fmt: skip
SMUGGLED = b"POST /jury/finalize HTTP/1.1\r\nHost: x\r\nAuthorization: Bearer token-adm\r\n\r\n"
WHOLE_TIME = re.compile(r"\d{4}-\d\d-\d\dT\d\d:\d\d:[0-5]\d\.\d{3}(Z|[+-](0\d|1\d|2[0-3]):[0-5]\d)")


def times_known(row):
    """Whether the second opinion reads the times in a value as the desk does: of those that are spoiled it can't tell."""
    named = [row.get(name) for name in ("start_time", "scoreboard_thaw_time")] if isinstance(row, dict) else []
    return all(not isinstance(one, str) or one in TIMES + WRONG_TIMES or WHOLE_TIME.fullmatch(one) for one in named)


def can_say(method, body):
    """The same of a request."""
    try:
        return method != "PATCH" or times_known(json_of(body))
    except Fault:
        return True


def nested(depth):
    return b"[" * (depth - depth // 3) + b'{"":' * (depth // 3) + b"1" + b"}" * (depth // 3) + b"]" * (depth - depth // 3)


class Spoiler(Chance):
    """Ways to spoil the bytes of a request: each takes its head and its body, and gives bytes."""

    def bytes_changed(self, head, body):
        data = bytearray(head + body)
        for _ in range(self.random.randint(1, 3)):
            at = self.random.randrange(len(data))
            data[at] = self.often(data[at] ^ (1 << self.random.randrange(8)), [self.random.randrange(256), 10, 32, 34], 0.5)
        return bytes(data)

    def cut(self, head, body):
        data = head + body
        return data[: self.random.randrange(len(data) + 1)]

    def piece_again(self, head, body):
        """A piece of it stands twice, or not at all."""
        data = head + body
        at, end = sorted(self.random.randrange(len(data) + 1) for _ in range(2))
        return data[: self.one([at, end])] + data[self.one([at, end]) :]

    def whole_again(self, head, body):
        return (head + body) * 2

    def second_request(self, head, body):
        """A second request behind it, or in its body, or in the place of its body."""
        return self.one([head + body + SMUGGLED, self.with_length(head, len(body) + len(SMUGGLED)) + body + SMUGGLED, head + SMUGGLED,
                         self.with_length(head, 0) + SMUGGLED])  # fmt: skip

    def with_length(self, head, length):
        length = length if isinstance(length, bytes) else b"%d" % length
        return re.sub(rb"Content-Length:[^\r\n]*", lambda _: b"Content-Length: " + length, head)

    def wrong_length(self, head, body):
        near = [b"%d" % max(0, len(body) + by) for by in (-2, -1, 1, 2, 100)]
        return self.with_length(head, self.one(near + ODD_LENGTHS)) + body

    def sized(self, head, body):
        """The body, and a length that is right."""
        return self.with_length(head, len(body)) + body

    def odd_bytes(self, head, body):
        at = self.random.randrange(len(body) + 1)
        odd = self.sized(head, body[:at] + self.one(ODD_BYTES) + body[at:])
        at = self.random.randrange(len(head))
        return self.often(odd, [head[:at] + self.one(ODD_BYTES) + head[at:] + body], 0.7)

    def odd_number(self, head, body):
        """A number in the place of a value, or in a member more."""
        values = list(re.finditer(rb'(?<=:)("[^"]*"|null|true|false|\d+)', body))
        if not values or self.random.random() < 0.3:
            return self.sized(head, self.with_member(body, b'"x":' + self.one(ODD_NUMBERS)))
        found = self.one(values)
        return self.sized(head, body[: found.start()] + self.one(ODD_NUMBERS) + body[found.end() :])

    def with_member(self, body, member):
        """An object with a member more, in front or at its end."""
        if not body.startswith(b"{") or not body.endswith(b"}") or body == b"{}":
            return b"{" + member + b"}"
        return self.one([b"{" + member + b"," + body[1:], body[:-1] + b"," + member + b"}"])

    def deep(self, head, body):
        """A member that nests so deep that the whole has 126 to 129 layers, or many."""
        return self.sized(head, self.with_member(body, b'"x":' + nested(self.one([125, 126, 127, 128, 900]))))

    def member_again(self, head, body):
        """A member that stands twice, with another value the second time."""
        members = re.findall(rb'"\w+":(?:"[^"]*"|null|true|false|\d+)', body) or [b'"text":"x"']
        other = re.sub(rb":.*", lambda _: b":" + self.one([b'"a"', b'"k"', b"null", b"7", b"[]"]), self.one(members))
        return self.sized(head, self.with_member(body, self.often(other, members, 0.8)))

    def odd_files(self, head, body):
        files = self.one(ODD_FILES).encode()
        return self.sized(head, re.sub(rb'"files":\[\{[^\]]*\}\]', lambda _: b'"files":' + files, body))

    def odd_field(self, head, body):
        lines = head[:-4].split(b"\r\n")
        lines.insert(self.random.randint(0 if self.random.random() < 0.05 else 1, len(lines)), self.one(ODD_FIELDS))
        return b"\r\n".join(lines) + b"\r\n\r\n" + body

    def odd_line_ends(self, head, body):
        """Lines that end in LF alone, empty lines in front, fields in other letters, without spaces or with more."""
        head = self.one([head, head.replace(b"\r\n", b"\n"), b"\r\n" + head, b"\n" + head, b"\n\n" + head, head[:-2] + b"\n",
                         head.replace(b"\r\n", b"\r", 1)])  # fmt: skip
        if self.random.random() < 0.5:
            spaced = self.one([b":", b": \t ", b":  "])
            head = re.sub(rb"(?m)^([A-Z][\w-]+): ", lambda found: self.one([found[1].upper(), found[1].lower()]) + spaced, head)
        return head + body

    def odd_target(self, head, body):
        method, target, rest = head.split(b" ", 2)
        odd = self.one(ODD_TARGETS)
        return b" ".join([method, odd % target if b"%s" in odd else odd, rest]) + body

    def odd_version(self, head, body):
        version = self.one([b"HTTP/1.0", b"HTTP/1.0", b"HTTP/2", b"http/1.1", b"HTTP/1.1 ", b"HTTP/1.10", b""])
        head = head.replace(b"HTTP/1.1", version, 1)
        return (head.replace(b"Host: x\r\n", b"") if self.random.random() < 0.4 else head) + body

    def waiting(self, head, body):
        """One that waits for the interim reply, whole or cut in its body."""
        head = head.replace(b"\r\n\r\n", b"\r\nExpect: 100-continue\r\n\r\n")
        return head + self.often(body, [body[: len(body) // 2]], 0.7)

    def spoiled_file(self, data):
        """A file of which bytes are changed, a piece is cut or repeated, or in which something odd stands."""
        at, odd = self.random.randrange(len(data) + 1), [b",", b'"', b"\r\n", b"\n\n", b"[]", nested(126), nested(127)]
        others = [self.bytes_changed(b"", data or b"x"), self.cut(b"", data), self.piece_again(b"", data)]
        return self.often(data[:at] + self.one(ODD_BYTES + ODD_NUMBERS + odd) + data[at:], others, 0.5)

    def spoiled(self, data):
        """The bytes of a request in one way or two, and the name of the last."""
        ways = [self.bytes_changed, self.cut, self.piece_again, self.whole_again, self.second_request, self.wrong_length, self.odd_bytes,
                self.odd_number, self.deep, self.member_again, self.odd_files, self.odd_field, self.odd_line_ends, self.odd_target,
                self.odd_version, self.waiting]  # fmt: skip
        for _ in range(1 if self.random.random() < 0.8 else 2):
            end = data.find(b"\r\n\r\n") + 4
            way = self.one(ways if end > 3 and data[:end].count(b" ") > 1 else ways[:1])
            data = way(data[:end] if end > 3 else data, data[end:] if end > 3 else b"") or b"G"
        return data, way.__name__
