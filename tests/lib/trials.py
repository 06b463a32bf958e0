"""What a director, teams and judges do with the contest in a file, to be done again with something in its way."""

import functools
import shutil
import socket
import subprocess

from . import cells_opinion, clock, demo, first_schema
from .clock import text_of
from .demo import AT_REHEARSAL, START
from .import_opinion import compact
from .program import PATIENCE, Program, line_of, ran
from .rehearsal import END, FREEZE, files_of, judged, posted, sent
from .server import Server, read_all
from .sqlite import asked, dump

POSTS = f"{AT_REHEARSAL}/submissions"
EARLY, AT_TEN, FROZEN, AT_END = START - 3_600_000, START + 3_600_000, FREEZE + 1_200_000, END + 1_000
TEAMS = "id,name,group_ids,hidden\n" + "".join(f"n{n},Team {n},,\n" for n in range(1, 201))

# What was asked before: minutes after nine, who asks, a path, a body. Three submissions; two of two teams; a submission that is
# judged, and three questions; a rejudging of three that is complete.
THREE = [(10 + at, "token-a1", POSTS, posted(problem)) for at, problem in enumerate("abc")]
TWO = [(10, "token-a1", POSTS, posted()), (11, "token-a2", POSTS, posted("b"))]
ASKED = [(10, "token-a1", POSTS, posted()), (11, "token-j1", "/jury/proposals", judged("s1-1", "AC"))]
ASKED += [(12 + at, "token-a1", f"{AT_REHEARSAL}/clarifications", compact({"text": f"Question {at}"})) for at in range(3)]
IDS = ("s1-1", "s1-2", "s1-3")
REJUDGED = THREE + [(20, "token-j1", "/jury/proposals", judged(which, "AC")) for which in IDS]
REJUDGED += [(31, "token-j1", "/jury/rejudgings", compact({"reason": "data", "submission_ids": IDS}))]
REJUDGED += [(32, "token-j1", "/jury/rejudgings/1/verdicts", judged(which, "WA")) for which in IDS]
# What is asked then: who asks, a key, a method, a path, a body.
APPLY = ("token-j1", None, "POST", "/jury/rejudgings/1/apply", "")
THAWED = compact({"id": "rehearsal", "scoreboard_thaw_time": clock.moment(END + 60_000)})
THAW = ("token-adm", None, "PATCH", AT_REHEARSAL, THAWED)
LATE = ("token-adm", None, "POST", "/jury/teams", compact({"id": "t5", "name": "Late", "group_ids": ["north"]}))
ACCOUNT = ("token-adm", None, "POST", "/jury/accounts", compact({"id": "n1", "role": "team", "team_id": "t1", "token": "token-n1"}))
EXTENSION = ("token-adm", None, "POST", "/jury/extension", compact({"duration": "5:20:00"}))
TOKEN = ("token-adm", None, "POST", "/jury/tokens", compact({"account_id": "a1", "token": "other-a1"}))
NAME = ("token-adm", None, "POST", "/jury/names", compact({"team_id": "t1", "name": "Zeta"}))
VERDICTS = "submission_id,judgement_type_id\ns1-1,AC\ns2-1,WA\n"


def shown(folder):
    """What sqlite3 shows of the contest. A new database gets its first byte last; until then it is as none."""
    file = folder / "cup.db"
    return dump(folder / "none.db" if file.is_file() and file.read_bytes()[:1] in (b"", b"\0") else file)


class Trials(Program):
    """The program, and what is done with it."""

    @functools.cached_property
    def trials(self):
        return [*commands(self), *upgrades(self), *requests(self)]

    def copied(self, base):
        folder = self.new_folder()
        shutil.copytree(base, folder, dirs_exist_ok=True)
        return folder


class Trial:
    """Something that is done at a moment with a folder's contest. It answers its status and what it says; once that is
    kept the same says `again`, if it is tried."""

    def __init__(self, desk, name, base, moment, done, again=None):
        self.desk, self.name, self.base, self.moment, self.done, self.again = desk, name, base, moment, done, again
        self.clock = desk.new_folder() / "clock"
        self.clock.write_text(f"{text_of(moment)}\n", encoding="utf-8")
        whole = desk.copied(base)
        self.before, (status, self.said), self.after = shown(base), self.answer(whole), shown(whole)
        if again is SAME:
            self.again = self.said
        is_right = cells_opinion.differences(whole / "cup.db") == ([], [])
        what = f"{name}, whole: {status}, {self.said}, {'right' if is_right else 'other'} cells"
        desk.note(status == 0 and is_right and self.before != self.after, what)
        shutil.rmtree(whole)

    def answer(self, folder, library=None, **variables):
        """What it answers, with a library in the way of its calls as the variables say."""
        how = clock.shown_by(self.clock)
        loaded = f"{how['LD_PRELOAD']}:{library}" if library else how["LD_PRELOAD"]
        texts = {name: str(value) for name, value in variables.items()}
        return self.done(folder, {**how, **texts, "LD_PRELOAD": loaded})

    def is_done(self, given):
        """Whether it was answered as done."""
        return given == (0, self.said) or (self.said != "" and given[1] == self.said)

    def left(self, what, folder, given):
        """Holds what a run left that answered so: the contest after, or, if it wasn't answered as done, the one before.
        Answers whether it is the one after."""
        found = shown(folder)
        is_right = found == self.after or (found == self.before and not self.is_done(given))
        self.desk.note(is_right, f"{what}: answered {given}, and sqlite3 shows {found[-300:]}")
        return found == self.after

    def same_again(self, what, folder, is_kept):
        """Holds that with nothing in its way the same ends as a whole run does; or, if it is kept and isn't tried
        again, that the contest can be opened."""
        if is_kept and self.again is None:
            self.desk.note(self.desk.run(folder, "board", "cup.db")[0] == 0, f"{what}: no board")
            return
        wanted, given = (0, self.again if is_kept else self.said), self.answer(folder)
        found = shown(folder)
        what = f"{what}, and again: {given}, wanted {wanted}, and sqlite3 shows {found[-300:]}"
        self.desk.note((given, found) == (wanted, self.after), what)


SAME = object()


def command(desk, *words):
    def done(folder, how):
        status, out, err = ran([desk.path, *words], cwd=folder, env=how)
        return status, (out + err).decode()

    return done


def request(desk, data):
    """One request to a server, which ends after it. If the connection broke nothing is said."""

    def done(folder, how):
        words = [desk.path, "serve", "cup.db", "--requests", "1"]
        with subprocess.Popen(words, cwd=folder, env=how, stdout=subprocess.PIPE, stderr=subprocess.PIPE) as server:
            line = line_of(server.stdout).decode()
            said = asked_at(int(line.rsplit(":", 1)[1]), data) if line else b""
            try:
                return server.wait(PATIENCE), (said + server.stderr.read()).decode()
            except subprocess.TimeoutExpired:
                server.kill()
                raise

    return done


def asked_at(port, data):
    try:
        with socket.create_connection(("127.0.0.1", port), timeout=PATIENCE) as client:
            client.sendall(data)
            client.shutdown(socket.SHUT_WR)
            return read_all(client)
    except OSError:
        return b""


def served(desk, calls):
    """A folder with the rehearsal, in which these calls were answered: minutes after nine, who asks, a path, a body."""
    folder = demo.made(desk, files_of(False))
    server = Server(desk, folder, requests=len(calls))
    for at, who, path, body in calls:
        server.at(text_of(START + at * 60_000))
        reply = server.ask(sent(who, None, "POST", path, body))
        desk.note(reply.startswith(b"HTTP/1.1 20"), f"{path} at {at}: {reply}")
    server.ended()
    (folder / "clock").unlink()
    return folder


def commands(desk):
    """A contest that is made, and imports of teams and of two verdicts."""
    files = files_of(False)
    empty = desk.new_folder()
    (empty / "init").write_text(files["init"], encoding="utf-8")
    yield Trial(desk, "init", empty, EARLY, command(desk, "init", "cup.db", "init"), "")
    made = demo.made(desk, {name: text for name, text in files.items() if name not in ("teams", "accounts-csv")})
    (made / "teams").write_text(TEAMS, encoding="utf-8")
    add_teams = command(desk, "import", "cup.db", "teams-csv", "teams")
    yield Trial(desk, "an import of teams", made, EARLY, add_teams, "added 0\n")
    folder = served(desk, TWO)
    (folder / "verdicts").write_text(VERDICTS, encoding="utf-8")
    add_verdicts = command(desk, "import", "cup.db", "verdicts-csv", "verdicts")
    yield Trial(desk, "an import of verdicts", folder, AT_TEN, add_verdicts, "added 0\n")
    bare = desk.copied(folder)
    asked(bare / "cup.db", "DELETE FROM cells")
    yield Trial(desk, "cells that are filled", bare, AT_TEN, command(desk, "board", "cup.db"), SAME)
    celless = desk.copied(served(desk, ASKED))
    asked(celless / "cup.db", "DROP TABLE cells")
    yield Trial(desk, "a table of cells that is made anew", celless, AT_TEN, command(desk, "board", "cup.db"), SAME)


def upgrades(desk):
    """Upgrades of a file of the first schema, which has cells or, as the first desks made it, none."""
    folder = served(desk, ASKED)
    for with_cells in (True, False):
        base, name = desk.new_folder(), f"an upgrade {'with' if with_cells else 'without'} cells"
        first_schema.make(folder / "cup.db", base / "cup.db", with_cells)
        yield Trial(desk, name, base, AT_TEN, command(desk, "upgrade", "cup.db"), SAME)


def requests(desk):
    """A submission with a key, a verdict, a rejudging of three that is applied, a thaw, a late team and an account; an extension in the
    freeze, a token that is replaced and a name that is corrected."""
    for name, calls, now, asked_for, is_repeated in (
        ("a submission", THREE, AT_TEN, ("token-a2", "k1", "POST", POSTS, posted(size=20_000)), SAME),
        ("a verdict", THREE, AT_TEN, ("token-j1", None, "POST", "/jury/proposals", judged("s1-1", "AC")), None),
        ("a rejudging", REJUDGED, AT_TEN, APPLY, None),
        ("a thaw", THREE, AT_END, THAW, None),
        ("a late team", THREE, AT_TEN, LATE, SAME),
        ("an account", THREE, AT_TEN, ACCOUNT, SAME),
        ("an extension", THREE, FROZEN, EXTENSION, SAME),
        ("a token", THREE, AT_TEN, TOKEN, SAME),
        ("a name", THREE, AT_TEN, NAME, SAME),
    ):
        yield Trial(desk, name, served(desk, calls), now, request(desk, sent(*asked_for)), is_repeated)
