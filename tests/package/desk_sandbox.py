#!/usr/bin/env -S python3 -B
"""Runs programs that do harm by examples/judge/run_tests, in its sandbox, and judges a contest by it.

    desk_sandbox.py [--program PATH]

The programs are those of sandbox/, each named by its verdict: right and wrong ones, ones that don't compile or fail, and
ones that fork, share their time among children, fill memory and the disk, read other files, open the network or never end.
Another user runs them, several side by side. Afterwards no process of it is left and no file, the tests are as they were,
and nobody was reached. What is right only outside of the sandbox is run there too: the harm can be seen. Then come the
forms of a problem package, what can't be judged, and a contest that examples/judge/judge.py has judged by the same
command, which it also ends in the middle of a test. Last a command looks for the bridge's token.

Takes bwrap, g++, faketime and setpriv, and runs as root. Where bwrap itself can run nothing, since the machine allows
no namespaces, what needs them is skipped. Ends with the line `N passed, M failed`, with `, K skipped` behind it if
something was; the exit status is 0 if M is 0.
"""

import base64
import concurrent.futures
import json
import os
import pathlib
import shutil
import socket
import subprocess
import sys
import tempfile
import threading
import time

from lib import demo, program
from lib.import_opinion import compact
from lib.nginx import Client
from lib.program import DATA, PATIENCE, ROOT, Program, line_of, ran
from lib.server import Server

# A user who runs nothing else, as the guide has it.
USER = 64_001
AS_USER = ["setpriv", f"--reuid={USER}", f"--regid={USER}", "--clear-groups"]
# Whether the machine allows a sandbox at all: run_tests has no say in that.
BARE = [*AS_USER, "bwrap", "--unshare-all", "--ro-bind", "/", "/", "true"]
VERDICTS = ("AC", "WA", "TLE", "RTE", "CE")
TYPES = [{"id": name, "name": name, "solved": name == "AC", "penalty": name not in ("AC", "CE")} for name in VERDICTS]
LANGUAGES = [{"id": "cpp", "name": "C++"}, {"id": "python3", "name": "Python 3"}]
LANGUAGE_OF = {".cpp": "cpp", ".py": "python3"}
# What is right outside of the sandbox alone.
HARM = ["WA.reads.py", "WA.writes.cpp", "WA.network.py", "WA.network.cpp", "WA.namespaces.cpp"]
TESTS_OF_SUM = {"sample/1.in": "1 2\n", "sample/1.ans": "3\n", "secret/01-small.in": "3 4\n", "secret/01-small.ans": "7\n",
                "secret/02-large.in": "4000000000 5\n", "secret/02-large.ans": "4000000005\n"}  # fmt: skip


class Sandbox(Program):
    """A problem, and a user who may come to it."""

    def __init__(self, options, folder):
        super().__init__(options, folder)
        folder.chmod(0o755)
        self.reached = []
        self.listener = socket.create_server(("127.0.0.1", 0))
        threading.Thread(target=self.accept, daemon=True).start()
        for name in ("run_tests", "judge.py"):
            shutil.copy(ROOT / "examples/judge" / name, folder)
        self.problems, self.place, self.secret = folder / "problems", folder / "place", folder / "secret.h"
        self.place.mkdir()
        self.secret.write_text("// token-of-a-judge\n", encoding="utf-8")
        os.chown(self.secret, USER, USER)
        self.package("a", TESTS_OF_SUM)
        for path in (self.problems, *self.problems.rglob("*"), self.place):
            os.chown(path, USER, USER)
        status, _, err = ran(BARE)
        self.works, self.why = status == 0, err.decode().strip()

    def accept(self):
        while True:
            self.reached.append(self.listener.accept()[1])

    def package(self, name, files, **more):
        """A problem package with tests, and with more files."""
        for path, text in {**{f"data/{test}": text for test, text in files.items()}, **more}.items():
            file = self.problems / name / path
            file.parent.mkdir(parents=True, exist_ok=True)
            file.write_text(text, encoding="utf-8")

    def program(self, name):
        """A program of sandbox/, which knows where harm could be done."""
        text = (DATA / "sandbox" / name).read_text(encoding="utf-8")
        answer = self.problems / "a/data/secret/01-small.ans"
        known = {"@SECRET@": self.secret, "@ANSWER@": answer, "@PLACE@": self.place, "@PORT@": self.listener.getsockname()[1]}
        for word, value in known.items():
            text = text.replace(word, str(value))
        file = self.new_folder() / name
        file.write_text(text, encoding="utf-8")
        return file

    def judge(self, problem, language, file, options=(), path=os.environ["PATH"]):
        words = ["--problems", self.problems, "--seconds", "1", "--memory", "256", *options, problem, language, "", file]
        status, out, err = ran([*AS_USER, self.folder / "run_tests", *words], env={**os.environ, "PATH": path})
        return status, out.decode(), err.decode()

    def needs_sandbox(self, count):
        """Whether cases that need one can be tried; else so many are skipped."""
        if not self.works:
            self.skip(f"{count} cases, since no sandbox can be made here: {self.why}", count)
        return self.works


def processes_of(user):
    """The processes of a user, but for those that are over."""
    found = []
    for folder in pathlib.Path("/proc").glob("[0-9]*"):
        try:
            status = (folder / "status").read_text(encoding="utf-8")
        except OSError:
            continue
        if f"\nUid:\t{user}\t" in status and "\nState:\tZ" not in status:
            found.append(status.split("\n", 1)[0])
    return found


def left_in_tmp():
    return [path for path in pathlib.Path(tempfile.gettempdir()).iterdir() if path.lstat().st_uid == USER]


def try_programs(desk):
    """Each program has its verdict, and leaves nothing."""
    names = sorted(file.name for file in (DATA / "sandbox").iterdir())
    if not desk.needs_sandbox(len(names)):
        return
    before = {file: file.read_bytes() for file in desk.problems.rglob("*") if file.is_file()}

    def judge(name):
        file, start = desk.program(name), time.monotonic()
        given = desk.judge("a", LANGUAGE_OF[file.suffix], file)
        return given, time.monotonic() - start

    with concurrent.futures.ThreadPoolExecutor(3) as pool:
        for name, (given, took) in zip(names, pool.map(judge, names)):
            desk.same(name, given, (0, f"{name.partition('.')[0]}\n", ""))
            desk.note(took < 30, f"{name} took {took:.1f} s")
    time.sleep(0.2)
    desk.same("processes that are left", processes_of(USER), [])
    after = {file: file.read_bytes() for file in desk.problems.rglob("*") if file.is_file()}
    desk.same("the tests, afterwards", after, before)
    desk.same("who was reached", desk.reached, [])
    desk.same("what was written elsewhere", list(desk.place.iterdir()), [])
    desk.same("what is left in /tmp", left_in_tmp(), [])


def try_harm(desk):
    """Outside of the sandbox the same programs do what they are held back from in it."""
    if not desk.needs_sandbox(len(HARM)):
        return
    for name in HARM:
        file = desk.program(name)
        words = ["/usr/bin/python3", file]
        if file.suffix == ".cpp":
            words = [file.with_suffix("")]
            subprocess.run(["g++", "-o", words[0], file], check=True)
        desk.same(f"{name}, outside", ran([*AS_USER, *words], input=b"3 4\n")[1].strip(), b"7")
    shutil.rmtree(desk.place)
    desk.place.mkdir()
    time.sleep(0.2)
    desk.note(len(desk.reached) == 2, f"outside of the sandbox {len(desk.reached)} of 2 were reached")


# A file of a problem, and the verdict on a program that sleeps for 3.2 seconds.
TIMES = [("none", "", "TLE"), (".timelimit", "2\n", "AC"), ("problem.yaml", "limits:\n  time_limit: 2.0\n", "AC")]
BY_ONE = "float_tolerance 1"
# Files of a problem beside its tests, its answer, what a program prints, and the verdict.
PACKAGES = [
    ("letters of either case", {}, "Yes", "YES", "AC"),
    ("letters of one case", {"problem.yaml": "validator_flags: case_sensitive\n"}, "Yes", "YES", "WA"),
    ("spaces that may differ", {}, "1 2\n", "1   2", "AC"),
    ("spaces that may not", {"problem.yaml": "validator_flags: space_change_sensitive\n"}, "1 2\n", "1   2\n", "WA"),
    ("a number that is near", {"problem.yaml": "validator_flags: float_tolerance 1e-6\n"}, "0.3333333333", "0.33333335", "AC"),
    ("a number that isn't", {"problem.yaml": "validator_flags: float_tolerance 1e-6\n"}, "0.3333333333", "0.3334", "WA"),
    ("no number", {"problem.yaml": "validator_flags: float_absolute_tolerance 1\n"}, "0.5", "nan", "WA"),
    ("no end of a number", {"problem.yaml": f"validator_flags: {BY_ONE}\n"}, "inf", "7", "WA"),
    ("the same word of it", {"problem.yaml": f"validator_flags: {BY_ONE}\n"}, "inf", "Inf", "AC"),
    ("an answer that is too large", {"problem.yaml": f"validator_flags: {BY_ONE}\n"}, "1e400", "7", "WA"),
    ("one that is as large", {"problem.yaml": f"validator_flags: {BY_ONE}\n"}, "1e300", "1e400", "WA"),
    ("a number as Python alone spells it", {"problem.yaml": f"validator_flags: {BY_ONE}\n"}, "10", "1_0", "WA"),
    ("a number of other digits", {"problem.yaml": f"validator_flags: {BY_ONE}\n"}, "10", "१०", "WA"),
    ("numbers as people spell them", {"problem.yaml": f"validator_flags: {BY_ONE}\n"}, "10 10 .5", "+10. 1.0e+01 0.5", "AC"),
    ("numbers without a tolerance", {}, "0.5", "0.50", "WA"),
    ("a word too few", {}, "1 2 3", "1 2", "WA"),
]  # fmt: skip
FAILING = [
    ("a validator of its own", {"output_validators/check.py": ""}, {"secret/1.in": "", "secret/1.ans": ""}, "has a validator of its own"),
    ("a custom validation", {"problem.yaml": "validation: custom\n"}, {"secret/1.in": "", "secret/1.ans": ""}, "has a validator of its own"),
    ("no tolerance", {"problem.yaml": "validator_flags: float_tolerance inf\n"}, {"secret/1.in": "", "secret/1.ans": ""}, "no tolerance"),
    ("no tests", {}, {"secret/none": ""}, "has no tests"),
    ("no answer", {}, {"secret/1.in": ""}, "no answer to ['1.in']"),
]  # fmt: skip
# Sandboxes that don't begin: none at all, and none but for the first look, or for what compiles.
BROKEN = [
    ("no sandbox begins", "exit 1"),
    ("a sandbox that fails once it compiles", 'case "$*" in *" true") exec /usr/bin/bwrap "$@" ;; esac; exit 1'),
    ("a sandbox that fails once it runs", 'case "$*" in *" true" | *g++*) exec /usr/bin/bwrap "$@" ;; esac; exit 0'),
]


def try_packages(desk):
    """What a problem package says of its validator, its limits and its tests."""
    if not desk.needs_sandbox(len(PACKAGES) + 4):
        return
    for number, (what, more, answer, given, wanted) in enumerate(PACKAGES):
        desk.package(f"p{number}", {"secret/1.in": "", "secret/1.ans": answer}, **more)
        file = desk.new_folder() / "s1-1"
        file.write_text(f"print({given!r}, end='')\n", encoding="utf-8")
        desk.same(what, desk.judge(f"p{number}", "python3", file), (0, f"{wanted}\n", ""))
    slow = desk.new_folder() / "s1-1"
    slow.write_text("import time\ntime.sleep(3.2)\nprint(1)\n", encoding="utf-8")
    for number, (name, text, wanted) in enumerate(TIMES):
        desk.package(f"t{number}", {"secret/1.in": "", "secret/1.ans": "1"}, **{name: text})
        desk.same(f"a time limit in {name}", desk.judge(f"t{number}", "python3", slow), (0, f"{wanted}\n", ""))
    named = desk.judge("a", "cpp", desk.program("RTE.status.cpp"), options=["--name", "RTE=WA"])
    desk.same("a type by another name", named, (0, "WA\n", ""))


def try_failing(desk):
    """What can't be judged: nothing is printed, the status is 1, and it is said why."""
    if not desk.needs_sandbox(len(FAILING) + len(BROKEN) + 3):
        return
    right = desk.program("AC.sum.cpp")
    cases = [("a language", ("a", "java", right), "it runs no java"), ("a problem", ("none", "cpp", right), "has no tests")]
    for number, (what, more, tests, wanted) in enumerate(FAILING):
        desk.package(f"f{number}", tests, **more)
        cases.append((what, (f"f{number}", "cpp", right), wanted))
    for what, words, wanted in cases:
        status, out, err = desk.judge(*words)
        desk.note((status, out) == (1, "") and wanted in err, f"{what}: {status} {out} {err}")
    status, out, err = ran([desk.folder / "run_tests", "--problems", desk.problems, "a", "cpp", "", right])
    desk.note((status, out) == (1, b"") and b"a user of its own" in err, f"as root: {status} {out} {err}")
    for what, said in BROKEN:
        folder = desk.new_folder()
        (folder / "bwrap").write_text(f"#!/bin/sh\n{said}\n", encoding="utf-8")
        (folder / "bwrap").chmod(0o755)
        status, out, err = desk.judge("a", "cpp", right, path=f"{folder}:{os.environ['PATH']}")
        desk.note((status, out) == (1, "") and "the sandbox " in err, f"{what}: {status} {out} {err}")


def bridge_to(desk, server, *options, command=None):
    """The bridge, which judges the demo contest by the sandbox, or by another command."""
    command = command or f"{desk.folder}/run_tests --problems {desk.problems} --seconds 1 --memory 256"
    words = [desk.folder / "judge.py", f"127.0.0.1:{server.port}", "demo", "--run", command, "--pause", "0.2", *options]
    how = {"stdout": subprocess.PIPE, "stderr": subprocess.STDOUT, "env": {**os.environ, "DESK_TOKEN": "token-j1"}}
    return subprocess.Popen([*AS_USER, *words], **how)


def try_contest(desk):
    """A contest whose submissions are judged by the bridge and this command. Their entry points look like options."""
    programs = ["AC.sum.cpp", "AC.sum.py", "WA.difference.py", "CE.syntax.cpp", "RTE.memory.cpp", "TLE.forks.cpp"]
    if not desk.needs_sandbox(len(programs)):
        return
    files = {**demo.FILES, "judgement-types": json.dumps(TYPES), "languages": json.dumps(LANGUAGES)}
    server = Server(desk, demo.made(desk, files))
    wanted = {}
    for name in programs:
        file = desk.program(name)
        data = base64.b64encode(file.read_bytes()).decode()
        body = {"problem_id": "a", "language_id": LANGUAGE_OF[file.suffix], "files": [{"data": data}], "entry_point": "--name=WA=AC"}
        answer = Client(server.port, "token-a1", True).ask("POST", "/contests/demo/submissions", compact(body))
        wanted[json.loads(answer[2])["id"]] = name.partition(".")[0]
    bridge = bridge_to(desk, server, "--jobs", "2")
    given, end = {}, time.monotonic() + 300
    while len(given) < len(wanted) and time.monotonic() < end:
        time.sleep(0.2)
        served = json.loads(Client(server.port, "token-j1", True).ask("GET", "/contests/demo/judgements")[2])
        given = {one["submission_id"]: one["judgement_type_id"] for one in served}
    bridge.terminate()
    said = bridge.communicate(timeout=PATIENCE)[0]
    desk.same(f"the verdicts, of a bridge that says {said}", given, wanted)
    server.stop()


def try_too_long(desk):
    """A command that the bridge ends leaves nothing, in the middle of a test."""
    if not desk.needs_sandbox(3):
        return
    server = Server(desk, demo.made(desk, demo.FILES))
    data = base64.b64encode(desk.program("TLE.sleeps.cpp").read_bytes()).decode()
    body = compact({"problem_id": "a", "language_id": "cpp", "files": [{"data": data}]})
    Client(server.port, "token-a1", True).ask("POST", "/contests/demo/submissions", body)
    bridge = bridge_to(desk, server, "--limit", "2")
    said = line_of(bridge.stdout)
    desk.note(b"s1-1 is left for people: the command took longer than 2 seconds" in said, f"what the bridge says: {said}")
    bridge.terminate()
    desk.same("the status of a bridge that is ended", bridge.wait(PATIENCE), 0)
    bridge.stdout.close()
    time.sleep(0.5)
    desk.same("processes that are left", processes_of(USER), [])
    desk.same("what is left in /tmp", left_in_tmp(), [])
    server.stop()


# A command that looks for a token in the process that called it, and says where it found one.
LOOKS = """#!/usr/bin/python3
import os, re
found, parent = [], f"/proc/{os.getppid()}"
try:
    found.append(b"token-j1" in open(f"{parent}/environ", "rb").read())
    areas, memory = re.findall("(?m)^([0-9a-f]+)-([0-9a-f]+) rw", open(f"{parent}/maps").read()), open(f"{parent}/mem", "rb", 0)
    for first, last in areas:
        memory.seek(int(first, 16))
        found.append(b"token-j1" in memory.read(int(last, 16) - int(first, 16)))
except OSError as error:
    found.append(type(error).__name__)
print("AC" if found == ["PermissionError"] else f"found:{','.join(map(str, found))}")
"""


def try_token(desk):
    """A command, which is of the same user, reads neither the environment nor the memory of the bridge."""
    server = Server(desk, demo.made(desk, demo.FILES))
    body = compact({"problem_id": "a", "language_id": "cpp", "files": [{"data": "YWJj"}]})
    Client(server.port, "token-a1", True).ask("POST", "/contests/demo/submissions", body)
    command = desk.new_folder() / "looks"
    command.write_text(LOOKS, encoding="utf-8")
    command.chmod(0o755)
    bridge = bridge_to(desk, server, command=str(command))
    desk.same("what a command finds", line_of(bridge.stdout), b"s1-1 AC\n")
    bridge.terminate()
    bridge.communicate(timeout=PATIENCE)
    server.stop()


PARTS = (try_programs, try_harm, try_packages, try_failing, try_contest, try_too_long, try_token)

if __name__ == "__main__":
    sys.exit(program.main(__doc__, Sandbox, PARTS, program="desk"))
