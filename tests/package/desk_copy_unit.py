#!/usr/bin/env -S python3 -B
"""Does what the unit that copies a contest does, and brings the copy to a second machine by ssh.

    desk_copy_unit.py [--program PATH]

The unit is examples/nginx/desk-copy@.service. An sshd on the loopback address, with keys of its own, stands for the second
machine. The unit's commands run as they are written, with these folders in the place of its own: a contest is copied, and the
copy arrives whole, with the same bytes and time; so does the next one, which replaces it. It lies apart from what that machine
copies itself. If the second machine is away or its key isn't known, the command fails, and the copy here stands. Without
SECOND nothing is brought. The key is let in as docs/GUIDE.md has it: it writes among what is brought, and reads and removes
nothing. The unit writes down when the copy began, which nginx shows to the jury's page. Before a new program the guide has a
copy begin after the desk's end, which is tried with a systemctl that does nothing. The calls on the system are those that the
unit lets through. It is exposed no more than the unit of the desk may be (`systemd-analyze security`).

Takes sshd, ssh-keygen, rsync, nginx, openssl, strace and systemd-analyze. Ends with the line `N passed, M failed`; the
exit status is 0 if M is 0.
"""

import json
import os
import pwd
import re
import shlex
import shutil
import signal
import subprocess
import sys
import time

from lib import demo, program
from lib.copier import TOOL
from lib.nginx import GUIDE, Client, Nginx, free_port
from lib.program import PATIENCE, ROOT, Program, ran
from lib.units import calls_in, try_exposure, try_filter

UNIT = ROOT / "examples/nginx/desk-copy@.service"
TEXT = UNIT.read_text(encoding="utf-8")
SSHD = """\
ListenAddress 127.0.0.1
Port {port}
HostKey {folder}/host
AuthorizedKeysFile {folder}/authorized
PidFile {folder}/pid
StrictModes no
UsePAM no
PasswordAuthentication no
"""


# The commands of the unit, in the order in which they run: each only if the one before did well.
COPY, BRING, TELL = re.findall(r"(?m)^ExecStart(?:Post)?=(.*)$", TEXT)
# How the guide lets the first machine's key in at the second.
KEY = re.search(r"(?m)^echo '(.*LINE)' > /var/lib/desk/\.ssh/authorized_keys$", GUIDE)[1]
# What stands in them, and isn't of this machine.
TELLER = TOOL.with_name("desk-copied")
TOOLS = {f"/usr/local/bin/{tool.name} ": f"{tool} " for tool in (TOOL, TELLER)}
# What is in the first machine's folder then.
FILES = ["copies", "demo", "demo.json", "trace"]


def command(line):
    """A command of the unit, for the contest demo. systemd writes a `$` that isn't its own twice."""
    return line.replace("%i", "demo").replace("$$", "$")


class Machines:
    """A machine with a contest and its copies, and a second one, which ssh reaches."""

    def __init__(self, desk):
        self.desk, self.first, self.second, self.port = desk, desk.new_folder(), desk.new_folder(), free_port()
        made = demo.made(desk, demo.FILES)
        for folder in (self.first / "demo", self.first / "copies", self.second / "copies", self.second / "brought"):
            folder.mkdir(mode=0o700)
        (made / "cup.db").rename(self.first / "demo/demo.db")
        for name in ("host", "known", "open", "unknown"):
            ran(["ssh-keygen", "-q", "-t", "ed25519", "-N", "", "-f", self.second / name])
        for name, line in (("known.pub", KEY), ("open.pub", "LINE")):
            self.admit(name, line)
        (self.second / "config").write_text(SSHD.format(port=self.port, folder=self.second), encoding="utf-8")
        os.makedirs("/run/sshd", exist_ok=True)
        self.sshd = subprocess.Popen(["/usr/sbin/sshd", "-D", "-e", "-f", self.second / "config"], stderr=subprocess.DEVNULL)
        self.wait_for_sshd()

    def admit(self, name, line):
        """Writes down that a key is let in, as the guide has it, or in another way."""
        key = (self.second / name).read_text(encoding="utf-8").strip()
        line = line.replace("/var/lib/desk/", f"{self.second}/").replace("LINE", key)
        with (self.second / "authorized").open("a", encoding="utf-8") as file:
            file.write(f"{line}\n")

    def wait_for_sshd(self):
        end = time.monotonic() + PATIENCE
        while not (self.second / "pid").exists() and self.sshd.poll() is None and time.monotonic() < end:
            time.sleep(0.05)

    def shell(self, key):
        """ssh, with a key, to the port of the second machine."""
        options = [f"Port={self.port}", f"IdentityFile={self.second / key}", "StrictHostKeyChecking=no", "BatchMode=yes"]
        options += [f"UserKnownHostsFile={self.second / 'hosts'}", "IdentityAgent=none"]
        return shlex.join(["ssh", "-F", "none", *(word for option in options for word in ("-o", option))])

    def does(self, line, key="known", env=None):
        """The status of a command of the unit, as it is written, with the calls that it makes."""
        words, own = command(line), {"/var/lib/desk/": f"{self.first}/", "/run/desk-copied/": f"{self.first}/", **TOOLS}
        own["/usr/local/bin/desk "] = f"{self.desk.path} "
        for text, other in own.items():
            words = words.replace(text, other)
        trace = ["strace", "-f", "-qq", "-o", self.first / "trace"]
        env = {"PATH": os.environ["PATH"], "RSYNC_RSH": self.shell(key), **(env or {})}
        answer = ran([*trace, *shlex.split(words)], env=env, cwd=self.first, umask=0o077)
        return answer, calls_in(self.first / "trace")

    def copies(self):
        """The copy here and the one there: its bytes and its second."""
        found = [self.first / "copies/demo.db", self.second / "brought/demo.db"]
        return [(file.read_bytes(), int(file.stat().st_mtime)) if file.exists() else None for file in found]

    def files(self):
        return sorted(os.listdir(self.second / "brought"))

    def stop(self):
        self.sshd.send_signal(signal.SIGTERM)
        self.sshd.wait()


def second_of():
    """How the second machine is named: by who this is."""
    return {"SECOND": f"{pwd.getpwuid(os.geteuid()).pw_name}@127.0.0.1"}


def try_brought(desk):
    """Two copies after each other, and what the unit lets through."""
    machines, called = Machines(desk), set()
    for late in ("late1", "late2"):
        (machines.first / "late.csv").write_text(f"id,role,team_id,token\n{late},judge,,token-{late}\n", encoding="utf-8")
        desk.answers(f"an account {late}", (0, "added 1\n", ""), machines.first, "import", "demo/demo.db", "accounts-csv", "late.csv")
        answer, calls = machines.does(COPY)
        desk.same("desk-copy", answer, (0, b"", b""))
        called |= calls
        answer, calls = machines.does(BRING, env=second_of())
        desk.note(answer[0] == 0, f"rsync: {answer}")
        called |= calls
        here, there = machines.copies()
        desk.note(here is not None and late.encode() in here[0], f"the copy lacks {late}")
        desk.same("the copy at the second machine", there, here)
        desk.same("its files", machines.files(), ["demo.db"])
    late = machines.first / "late.csv"
    desk.answers("the copy that came", (0, "added 0\n", ""), machines.second, "import", "brought/demo.db", "accounts-csv", late)
    desk.same("the second machine's own copies", os.listdir(machines.second / "copies"), [])
    desk.note({"connect", "execve", "fdatasync"} <= called or {"connect", "execve", "fsync"} <= called, f"the calls that were seen: {called}")
    try_filter(desk, TEXT, called)
    machines.stop()


def try_away(desk):
    """A second machine that is away, a key that it doesn't know, and none."""
    machines = Machines(desk)
    desk.same("desk-copy", machines.does(COPY)[0], (0, b"", b""))
    here = machines.copies()[0]
    for what, key, env in (("an unknown key", "unknown", second_of()), ("no second machine", "known", {})):
        status = machines.does(BRING, key=key, env=env)[0][0]
        desk.note((status == 0) == (not env), f"{what}: status {status}")
        desk.same(f"{what}: the copies", machines.copies(), [here, None])
    machines.stop()
    status = machines.does(BRING, env=second_of())[0][0]
    desk.note(status != 0, "a machine that is away: status 0")
    desk.same("a machine that is away: the copies", machines.copies(), [here, None])


def try_told(desk):
    """When the newest copy began, as the unit writes it down, and as nginx shows it to anybody; before that it isn't there."""
    machines, nginx = Machines(desk), Nginx(desk.new_folder(), {"demo": free_port()})
    copy, file = machines.first / "copies/demo.db", machines.first / "demo.json"
    client = Client(nginx.port)
    given = client.ask("GET", "/demo/copied.json")[0], machines.does(TELL)[0][0], file.exists()
    desk.same("before a copy", given, (404, 1, False))
    machines.does(COPY)
    for moment, text in ((1_809_781_470.25, "2027-05-08T13:04:30.250+00:00"), (1_809_781_500, "2027-05-08T13:05:00.000+00:00")):
        os.utime(copy, (moment, moment))
        answer, calls = machines.does(TELL)
        desk.same("desk-copied", answer, (0, b"", b""))
        try_filter(desk, TEXT, calls)
        desk.same("who may read it", (file.stat().st_mode & 0o777, sorted(os.listdir(machines.first))), (0o644, FILES))
        shutil.copy(file, nginx.folder)
        status, fields, body = client.ask("GET", "/demo/copied.json")
        given = status, fields["Content-Type"], fields["Cache-Control"], json.loads(body)
        desk.same("what nginx shows", given, (200, "application/json", "no-cache", {"time": text}))
    nginx.stop()
    machines.stop()


def try_words(desk):
    """What desk-copied refuses."""
    folder = desk.new_folder()
    (folder / "copy.db").touch()
    for words in ((), ("copy.db",), ("--help", "x"), ("copy.db", "a", "b")):
        desk.same(f"desk-copied {words}", ran([TELLER, *words], cwd=folder)[:2], (2, b""))
    for words, name in ((("none.db", "a.json"), "none.db"), (("copy.db", "none/a.json"), "none/a.json.new")):
        line = f"desk-copied: {name}: No such file or directory\n".encode()
        desk.same(f"desk-copied {words}", ran([TELLER, *words], cwd=folder), (1, b"", line))


def sent(machines, key, *words):
    """Whether rsync does well with these words, by a key."""
    env = {"PATH": os.environ["PATH"], "RSYNC_RSH": machines.shell(key)}
    return ran(["rsync", "--times", *map(str, words)], env=env, cwd=machines.first)[0] == 0


def try_key(desk):
    """The first machine's key lets it write among what is brought, and nothing else; a key without the guide's words lets it
    do all, as a control."""
    machines, there = Machines(desk), second_of()["SECOND"]
    (machines.first / "new").write_text("new\n", encoding="utf-8")
    (machines.second / "copies/demo.db").write_text("its own\n", encoding="utf-8")
    cases = {
        "a shell": lambda key: b"once" in ran([*shlex.split(machines.shell(key)), there, "echo once"])[1],
        "a file elsewhere": lambda key: sent(machines, key, "new", f"{there}:{machines.second}/copies/{key}")
        and (machines.second / "copies" / key).exists(),
        "a file above": lambda key: sent(machines, key, "new", f"{there}:../copies/above-{key}"),
        "a file of there": lambda key: sent(machines, key, f"{there}:{machines.second}/copies/demo.db", f"taken-{key}"),
        "what was brought": lambda key: sent(machines, key, f"{there}:demo.db", f"brought-{key}"),
    }
    desk.same("a file", (sent(machines, "known", "new", f"{there}:"), machines.files()), (True, ["new"]))
    (machines.second / "brought/demo.db").write_text("brought\n", encoding="utf-8")
    may = {key: [what for what, does in cases.items() if does(key)] for key in ("known", "open")}
    desk.same("what the key of the guide lets in", may["known"], [])
    desk.note({"a shell", "a file elsewhere", "a file of there"} <= set(may["open"]), f"what any key lets in: {may['open']}")
    forced = [*shlex.split(re.search('command="([^"]*)"', KEY)[1])[:-1], machines.second / "brought"]
    asks = {"SSH_CONNECTION": "x", "SSH_ORIGINAL_COMMAND": "rsync --server -tre.LsfxCIvu --delete . ./"}
    said = ran(forced, env={**os.environ, **asks}, stdin=subprocess.DEVNULL)
    desk.note(said[0] == 1 and b"--delete has been disabled" in said[2], f"what the key says of a removal: {said}")
    desk.same("the second machine's own", (machines.second / "copies/demo.db").read_text(encoding="utf-8"), "its own\n")
    machines.stop()


# What systemd does with what the guide stops and starts: a unit that is started while it runs isn't started anew.
SYSTEMCTL = """touch copying
systemctl() {
    for unit in "${@:2}"; do
        case "$1 $unit" in
        "stop desk-copy@spring") rm copying ;;
        "start desk-copy@spring") [ -e copying ] || echo "a copy begins" ;;
        *) echo "$1 $unit" ;;
        esac
    done
}
install() { echo "a new program"; }
"""
NEW_PROGRAM = re.search(r"(?s)\*\*A new program\*\*.*?```sh\n(.*?)```", GUIDE)[1]


def try_new_program(desk):
    """A new program, as the guide has it, while a copy is on its way: another one begins after the desk's end."""
    said = ran(["bash", "-c", SYSTEMCTL + NEW_PROGRAM], cwd=desk.new_folder())[1].decode().splitlines()
    wanted = ["stop desk-copy@spring.timer", "stop desk@spring", "a copy begins", "a new program", "start desk@spring",
              "start desk-copy@spring.timer"]  # fmt: skip
    desk.same("what is done", said, wanted)


def try_exposed(desk):
    try_exposure(desk, UNIT)


PARTS = (try_brought, try_away, try_key, try_told, try_words, try_new_program, try_exposed)

if __name__ == "__main__":
    sys.exit(program.main(__doc__, Program, PARTS, program="desk"))
