#!/usr/bin/env -S python3 -B
"""Starts a desk and its queue by their units, under systemd, and ends them in each way in which they can end.

    desk_units.py [--program PATH]

systemd is the first process of a machine apart, over this one's files (lib/booted.py): it can set nothing of the
kernel, whose settings are held beside those of before. The units are those of examples/nginx/, put there by the lines
of docs/GUIDE.md. The desk is killed, twice within a second too, stopped and started anew, and the queue is killed
alone: after each both are there again, the desk first, no connection of before is answered by the desk after it, and
no post of before reaches it. While another program has the desk's port no queue starts, and once that is gone both
do. A port for which there is none 10,000 above is refused with its reason in the log. How long each takes is printed.

Takes haproxy, faketime, systemd, unshare, nsenter, capsh and curl. Where no such machine can be made its cases are
skipped. Ends with the line `N passed, M failed`, with `, K skipped` behind it if something was; the exit status is 0
if M is 0.
"""

import collections
import pathlib
import re
import sys
import time

from lib import demo, program
from lib.booted import Booted, settings
from lib.nginx import GUIDE
from lib.program import PATIENCE, ROOT, Program
from lib.units import try_exposure

NGINX = ROOT / "examples/nginx"
UNITS = ("desk@.service", "desk-queue@.service")
# How the guide has their files put in place by hand.
BY_HAND = re.findall(r"(?m)^(?:\(cd examples/nginx && cp queue|cp examples/nginx/desk@).*$", GUIDE)
BOTH = ["active", "active"]
PORT, BEHIND = 8081, 18081
# What tells how units are, and which process one is.
PROCESS = "systemctl show -P MainPID"
SHOW = "systemctl show -p ActiveState,ActiveEnterTimestampMonotonic,MainPID desk@demo desk-queue@demo"
ASK = f"curl -s -o /dev/null -w '%{{http_code}}' --max-time 5 127.0.0.1:{PORT}/contests/demo"
# A request that is open at the queue of before: its head isn't whole yet, and it says what came once it is.
OPEN = f"""exec 3<>/dev/tcp/127.0.0.1/{PORT}; printf 'GET /contests HTTP/1.1\\r\\n' >&3; touch /run/open
until [ -e /run/close ]; do sleep 0.05; done
printf 'Host: x\\r\\n\\r\\n' >&3; head -c 12 <&3"""
# Posts of a judge, all at once; a file for each says how it is answered, and one that all are.
POSTED, CURL = 48, "curl -s --oauth2-bearer token-j1"
CLARIFICATIONS = f"127.0.0.1:{PORT}/contests/demo/clarifications"
POSTS = f"""mkdir -p /run/posts; (cd /run/posts; for it in $(seq {POSTED}); do
    {CURL} -o /dev/null -w '%{{http_code}}\\n' -d '{{"text":"before"}}' {CLARIFICATIONS} > $it.status &
done; wait; touch over) > /dev/null 2>&1 &"""
OTHER = f"import socket, time; s = socket.create_server(('127.0.0.1', {BEHIND})); time.sleep(600)"


State = collections.namedtuple("State", "name since process")
NONE = [State("inactive", 0, 0)] * 2


class Machine(Program):
    """The machine with the contest demo, and the kernel's settings of before."""

    def __init__(self, options, folder):
        super().__init__(options, folder)
        self.before, made = settings(), demo.made(self, demo.FILES)
        self.machine = Booted(folder)
        if self.machine.why:
            return
        self.machine.does("useradd --system --create-home --home-dir /var/lib/desk desk; mkdir -p /var/lib/desk/demo")
        self.machine.put("/usr/local/bin/desk", (pathlib.Path(self.path)).read_bytes(), 0o755)
        self.machine.put("/var/lib/desk/demo/demo.db", (made / "cup.db").read_bytes(), 0o600)
        self.machine.does("chown -R desk: /var/lib/desk")
        for file in NGINX.iterdir():
            self.machine.put(f"/root/clone/examples/nginx/{file.name}", file.read_bytes())
        self.same("the guide's lines", len(BY_HAND), 2)
        put = f"mkdir -p /etc/desk; cd /root/clone; {'; '.join(BY_HAND)}"
        self.same("what they print", self.machine.does(put), (0, ""))
        self.set_port(PORT)

    def set_port(self, port):
        self.machine.put("/etc/desk/demo", f"PORT={port}\n".encode())

    def says(self, script):
        return self.machine.does(script)[1]

    def state(self):
        """How the desk and its queue are, since when by systemd's clock, and which process each is."""
        units = [dict(line.split("=", 1) for line in block.splitlines()) for block in self.says(SHOW).split("\n\n")]
        since = "ActiveEnterTimestampMonotonic"
        return [State(one["ActiveState"], int(one[since]), int(one["MainPID"])) for one in units]

    def log(self, unit="desk@demo"):
        return self.says(f"journalctl --no-pager -o cat -u {unit}")


def names(state):
    return [one.name for one in state]


def both_anew(machine, before, changed=(True, True)):
    """Waits until both are there, each with another process if it should have one, and answer; how long it took."""
    start = time.monotonic()
    while time.monotonic() < start + PATIENCE:
        state = machine.state()
        others = tuple(now.process != then.process for now, then in zip(state, before))
        if names(state) == BOTH and others == changed and machine.says(ASK) == "200":
            return time.monotonic() - start
        time.sleep(0.05)
    return None


def judged(machine, what, before, changed=(True, True)):
    """Both are there again, and the queue began after the desk."""
    took = both_anew(machine, before, changed)
    state = machine.state()
    machine.note(took is not None, f"{what}: not there again: {state}, {machine.says(ASK)}, {machine.log()[-600:]}")
    machine.note(state[0].since <= state[1].since, f"{what}: the queue began before the desk: {state}")
    if took is not None:
        print(f"  {what}: both answer again after {took:.1f} s")


def try_first_start(machine):
    """The desk's unit is started, and its queue with it."""
    status, text = machine.machine.does("systemctl start desk@demo")
    machine.same("systemctl start", (status, text), (0, ""))
    judged(machine, "a start", NONE)
    ports = machine.says("ss -Hltn | awk '{print $4}' | sort").split()
    machine.same("who listens", ports, [f"127.0.0.1:{BEHIND}", f"127.0.0.1:{PORT}"])
    owners = machine.says(f"stat -c %U /proc/$({PROCESS} desk@demo) /proc/$({PROCESS} desk-queue@demo)").split()
    machine.note(owners[0] == "desk" and owners[1] not in ("desk", "root"), f"who they are: {owners}")
    files = machine.says("grep 'open files' /proc/$(systemctl show -P MainPID desk-queue@demo)/limits").split()
    machine.same("files that the queue may have open", files[3:5], ["16384", "16384"])
    machine.same("what the queue says", machine.log("desk-queue@demo").count("ALERT"), 0)


def open_one(machine):
    """A connection to the queue of now, whose request isn't whole."""
    begin = f"rm -f /run/open /run/close /run/came /run/over; (trap '' PIPE; {OPEN}) > /run/came 2>&1; touch /run/over"
    machine.says(f"({begin}) > /dev/null 2>&1 & until [ -e /run/open ]; do sleep 0.05; done")


def came(machine):
    """What the connection of before was answered once its request was whole, after the end of its queue."""
    return machine.says("touch /run/close; until [ -e /run/over ]; do sleep 0.05; done; cat /run/came")


# How they end, and whether each is another process afterwards.
DESK, QUEUE = f"kill -9 $({PROCESS} desk@demo)", f"kill -9 $({PROCESS} desk-queue@demo)"
ENDS = {
    "a desk that is killed": (DESK, (True, True)),
    "a desk that ends": (DESK.replace("-9", "-15"), (True, True)),
    "a queue that is killed": (QUEUE, (False, True)),
    "both killed at once": (f"{DESK} $({PROCESS} desk-queue@demo)", (True, True)),
    "systemctl restart desk@demo": ("systemctl restart desk@demo", (True, True)),
    "systemctl restart desk-queue@demo": ("systemctl restart desk-queue@demo", (False, True)),
    "a desk without a queue": ("systemctl stop desk-queue@demo; systemctl try-restart desk@demo", (True, True)),
    "systemctl stop and start": ("systemctl stop desk@demo && systemctl start desk@demo", (True, True)),
}


def try_ends(machine):
    for what, (script, changed) in ENDS.items():
        before = machine.state()
        open_one(machine)
        machine.says(script)
        judged(machine, what, before, changed)
        machine.note("HTTP" not in came(machine), f"{what}: a connection of before was answered")


def try_waiting(machine):
    """Posts that a desk which stands still was handed, and posts that wait, when it is killed: none is answered, and
    none is at the desk after it, which counts them."""
    before = machine.state()
    machine.says(f"kill -STOP $({PROCESS} desk@demo); {POSTS}")
    machine.says(f"until [ $(ss -Htn state established dst 127.0.0.1:{BEHIND} | wc -l) -ge 32 ]; do sleep 0.05; done")
    machine.says(DESK)
    judged(machine, "a desk that stands still and is killed", before)
    answers = machine.says("until [ -e /run/posts/over ]; do sleep 0.05; done; cat /run/posts/*.status").split()
    machine.note(len(answers) == POSTED and not {"200", "409"} & set(answers), f"posts of before: {answers}")
    count = f"{CURL} {CLARIFICATIONS} | grep -o '\"id\"' | wc -l"
    machine.same("posts of before at the desk after it", machine.says(count), "0")
    post = f"{CURL} -o /dev/null -d '{{\"text\":\"now\"}}' {CLARIFICATIONS}"
    machine.same("with a post of now, as a control", machine.says(f"{post}; {count}"), "1")


def try_two_crashes(machine):
    """The desk is killed once more as soon as it is a process again."""
    before = machine.state()
    open_one(machine)
    other = f"now=$({PROCESS} desk@demo) && [ $now != 0 ] && [ $now != $first ]"
    until = f"until {other}; do sleep 0.01; done"
    first = f"first=$({PROCESS} desk@demo); kill -9 $first"
    killed = machine.says(f"{first}; {until}; kill -9 $now; echo $first $now").split()
    machine.same("desks that were killed", len(set(killed)), 2)
    judged(machine, "two crashes", before)
    machine.note("HTTP" not in came(machine), "two crashes: a connection of before was answered")
    machine.note(str(machine.state()[0].process) not in killed, "the desk that was killed is there")


def try_stop(machine):
    """Both are stopped by the desk's unit, and by nothing are they back."""
    machine.says("systemctl stop desk@demo")
    time.sleep(2)
    machine.same("after a stop", names(machine.state()), ["inactive", "inactive"])
    machine.same("who listens", machine.says("ss -Hltn"), "")


def try_other_program(machine):
    """Another program has the desk's port: the desk can't start, and no queue leads to that program."""
    until = f"until ss -Hltn | grep -q :{BEHIND}; do sleep 0.05; done"
    machine.says(f'systemd-run --unit=other python3 -c "{OTHER}"; {until}')
    status, _ = machine.machine.does("systemctl start desk@demo")
    machine.note(status != 0, "a desk whose port is another's: systemctl start does well")
    until = 'until [ "$(systemctl show -P NRestarts desk@demo)" -ge 2 ]; do sleep 0.1; done'
    machine.says(f"timeout {PATIENCE} bash -c '{until}'")
    machine.same("its reason", machine.log().count("refused: Net") >= 2, True)
    machine.same("the queue", machine.state()[1][::2], ("inactive", 0))
    machine.same("who listens", machine.says("ss -Hltn | awk '{print $4}'"), f"127.0.0.1:{BEHIND}")
    before = machine.state()
    machine.says("systemctl stop other")
    judged(machine, "another program that is gone", before)
    machine.says("systemctl stop desk@demo")


def try_ports(machine):
    """Ports that have none 10,000 above, and words that are none, are refused for good; the highest one isn't."""
    for port in ("55536", "65535", "0", "", "http"):
        machine.set_port(port)
        status, _ = machine.machine.does("systemctl start desk@demo")
        line, said = f"PORT is {port}, and goes from 1 to 55535", machine.log("desk@demo -n 8")
        machine.note(status != 0 and line in said, f"PORT={port}: {status}, {said}")
        time.sleep(1.5)
        machine.same(f"PORT={port}: both", names(machine.state()), ["failed", "inactive"])
    machine.set_port("55535")
    machine.says("systemctl start desk@demo")
    ports = machine.says("sleep 1; ss -Hltn | awk '{print $4}' | sort").split()
    machine.same("the highest port", ports, ["127.0.0.1:55535", "127.0.0.1:65535"])
    machine.says("systemctl stop desk@demo")


def try_exposures(machine):
    """How exposed both are, without a machine."""
    for name in UNITS:
        try_exposure(machine, NGINX / name)


def try_settings(machine):
    """The kernel's settings are those of before."""
    machine.machine.end()
    now = settings()
    changed = {path for path in {*machine.before, *now} if machine.before.get(path) != now.get(path)}
    machine.same("settings of the kernel that changed", changed, set())
    machine.note(len(now) > 100, f"settings that were looked at: {len(now)}")


STEPS = (try_first_start, try_ends, try_waiting, try_two_crashes, try_stop, try_other_program, try_ports)


def try_systemd(machine):
    if machine.machine.why:
        why = f"no machine apart can be made here: {machine.machine.why}"
        return machine.skip(f"the units under systemd, since {why}", len(STEPS))
    for step in STEPS:
        held = machine.passed
        step(machine)
        print(f"  {re.sub('try_', '', step.__name__).replace('_', ' ')}: {machine.passed - held} held", flush=True)


if __name__ == "__main__":
    sys.exit(program.main(__doc__, Machine, (try_exposures, try_systemd, try_settings), program="desk"))
