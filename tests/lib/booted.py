"""A machine apart in which systemd is the first process: with processes, a network, files and groups of its own, over
the files of this machine, of which it changes none. It can't set anything of the kernel: /proc/sys and /sys can only
be read there, and it has no right to set the clock, to load modules or to make devices."""

import atexit
import os
import pathlib
import re
import subprocess
import time

from .program import LONGEST, PATIENCE, line_of

# Begins the machine in a folder, and ends it and its group of processes once nothing more is read. It is the first
# process of those that it begins, so these end with it however it ends.
BEGIN = r"""
set -e
mount --make-rprivate /
mount -t proc proc /proc
mount -t tmpfs none "$1"
cd "$1"
mkdir up work root groups
mount -t cgroup2 none groups
mount -t overlay -o "lowerdir=/,upperdir=up,workdir=work" overlay root
group=$PWD/groups/$2
mkdir "$group"
sh -c 'echo $$ > "$1/cgroup.procs" && exec unshare --mount --pid --fork --uts --ipc --net --cgroup bash -c "$2"' \
    begin "$group" "$3" </dev/null >&2 &
first=
until first=$(head -n 1 "$group/init.scope/cgroup.procs" 2>/dev/null) && [ "$first" ]; do
    kill -0 $! 2>/dev/null || break
    sleep 0.1
done
echo "begun $first"
read -r end || true
[ -z "$first" ] || kill -9 "$first"
wait $! || true
for try in 1 2 3 4 5; do
    find "$group" -depth -type d -exec rmdir {} + 2>/dev/null || sleep 0.2
    [ -d "$group" ] || break
done
"""
# What becomes the first process.
BOOT = r"""
set -e
cd root
mount -t proc proc proc
mount --bind proc/sys proc/sys
mount -o remount,bind,ro proc/sys
mount -t sysfs -o ro sysfs sys
mount -t cgroup2 cgroup2 sys/fs/cgroup
mount -t tmpfs -o mode=755 tmpfs run
mount -t tmpfs -o mode=1777 tmpfs tmp
mount -t tmpfs -o mode=755 tmpfs dev
mkdir dev/shm dev/pts
mount -t devpts -o newinstance,mode=620,ptmxmode=666 devpts dev/pts
ln -s pts/ptmx dev/ptmx
for device in null zero full random urandom tty; do touch dev/$device; mount --bind /dev/$device dev/$device; done
rm -rf etc/systemd/system {usr/,}lib/systemd/system/{sysinit,basic,local-fs,multi-user,sockets,timers}.target.wants
mkdir -p etc/systemd/system etc/systemd/journald.conf.d mnt/before
: > etc/fstab
printf '[Journal]\nStorage=volatile\nAudit=no\nReadKMsg=no\n' > etc/systemd/journald.conf.d/apart.conf
printf '[Unit]\nWants=systemd-journald.service\n' > etc/systemd/system/apart.target
pivot_root . mnt/before
cd /
umount -l /mnt/before
ip link set lo up
drop=cap_sys_module,cap_sys_time,cap_sys_boot,cap_sys_rawio,cap_syslog,cap_mknod,cap_audit_control
begin="exec /lib/systemd/systemd --system --unit=apart.target --show-status=0 --log-target=journal"
path=/usr/local/sbin:/usr/local/bin:/usr/sbin:/usr/bin:/sbin:/bin
exec env -i container=apart PATH=$path capsh --drop=$drop -- -c "$begin"
"""
# What counts itself, and so is never as it was; all else of the kernel's settings has to stay.
PASSING = re.compile(r"/(random/.*|dentry-state|inode-(state|nr)|file-nr|aio-nr|ns_last_pid|pty/nr|quota/.*|kmsg)\Z")


def settings():
    """The kernel's settings of files and of itself, as this machine has them."""
    found = {}
    for path in sorted(it for folder in ("fs", "kernel") for it in pathlib.Path("/proc/sys", folder).rglob("*")):
        try:
            if path.is_file() and not PASSING.search(str(path)):
                found[str(path)] = path.read_bytes()
        except OSError:
            continue
    return found


class Booted:
    """The machine, which ends with the script. `why` says why there is none, if none can be had here."""

    def __init__(self, folder):
        place, group = folder / "machine", f"desk-booted-{os.getpid()}"
        place.mkdir()
        apart = ["unshare", "--mount", "--pid", "--fork", "--kill-child"]
        words = [*apart, "bash", "-c", BEGIN, "begin", place, group, BOOT]
        self.said = open(folder / "boot.log", "w+", encoding="utf-8")
        self.process = subprocess.Popen(words, stdin=subprocess.PIPE, stdout=subprocess.PIPE, stderr=self.said)
        atexit.register(self.end)
        self.first = None
        if re.fullmatch(rb"begun \d+\n", line_of(self.process.stdout)):
            self.first = self.first_in(place / "groups" / group / "init.scope/cgroup.procs")
        self.why = "" if self.first and self.is_up() else self.told()

    def first_in(self, path):
        """Its first process, as this machine numbers it: the one in a file that the shell sees which began it."""
        shell = pathlib.Path(f"/proc/{self.process.pid}/task/{self.process.pid}/children").read_text(encoding="utf-8")
        return int(pathlib.Path(f"/proc/{int(shell)}/root{path}").read_text(encoding="utf-8").split()[0])

    def told(self):
        self.said.seek(0)
        return " ".join(self.said.read().split())[-300:] or "systemd doesn't begin"

    def does(self, script):
        """The status of a script there, and what it prints."""
        kinds = ("mount", "uts", "ipc", "net", "pid", "cgroup", "root", "wd")
        into = ["nsenter", f"--target={self.first}", *(f"--{kind}" for kind in kinds)]
        how = {"stdin": subprocess.DEVNULL, "stdout": subprocess.PIPE, "stderr": subprocess.STDOUT, "text": True}
        done = subprocess.run([*into, "bash", "-c", script], check=False, timeout=LONGEST, **how)
        return done.returncode, done.stdout.rstrip("\n")

    def is_up(self):
        """Waits until systemd has begun what it begins with."""
        end = time.monotonic() + PATIENCE
        while time.monotonic() < end:
            if self.does("systemctl is-active apart.target systemd-journald")[1] == "active\nactive":
                return True
            time.sleep(0.1)
        return False

    def put(self, path, content, mode=0o644):
        """Writes a file there."""
        file = pathlib.Path(f"/proc/{self.first}/root{path}")
        file.parent.mkdir(parents=True, exist_ok=True)
        file.write_bytes(content)
        file.chmod(mode)

    def end(self):
        if self.process.poll() is None:
            self.process.stdin.close()
            self.process.wait(PATIENCE)
        self.said.close()
