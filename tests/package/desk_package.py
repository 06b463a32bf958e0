#!/usr/bin/env -S python3 -B
"""Makes the Debian package of the built program, looks at what is in it, and installs it.

    desk_package.py [--program PATH] [--no-root]

The package is held beside the files that it is made of, Debian's lintian, the help of the program and of its commands, and
what `systemd-analyze security` says of its unit. The calls of `desk serve` on the system are those that the unit lets through.
Then a fresh root of Debian gets it by apt, docs/GUIDE.md is followed there as root and as the user desk, by the blocks that
are marked so and by the commands of sections 2 to 4, up to a board that nginx answers over TLS. The next version takes its
place, and this one again, while the desk serves; then the package is purged. No systemd runs there: a script stands in for
`systemctl`, which starts what the unit says as its user.

Where no root can be made, since there are no root's rights, no namespaces or no mirror that answers, the package is
only unpacked, and the last line counts that as skipped; whatever else fails is a failure. With --no-root none is tried:
it takes some 50 seconds.

Takes dpkg-deb, lintian, systemd-analyze, groff, strace, mmdebstrap, unshare, curl and sqlite3. Ends with the line `N passed, M failed`
and, if something couldn't be tried, `, K skipped`; the exit status is 0 if M is 0.
"""

import hashlib
import os
import pathlib
import re
import shlex
import signal
import socket
import subprocess
import sys
import threading

from lib import program
from lib.nginx import free_port
from lib.program import LONGEST, ROOT, Program, line_of
from lib.units import calls_in, try_exposure, try_filter

sys.path.insert(0, str(ROOT / "examples/day"))
from follow_guide import commands_in

GUIDE = (ROOT / "docs/GUIDE.md").read_text(encoding="utf-8")
BY_PACKAGE = re.compile(r"(?ms)^<!-- by the package -->\n```sh\n(.*?)^```$")
CONSOLE = re.compile(r"(?ms)^```console\n(.*?)^```$")
IN_NGINX = [f"{name}.conf" for name in ("account", "ask", "files", "pages", "public", "refusals", "replies")]
IN_NGINX.insert(1, "account.js")
IN_DESK = ["away.http", "malformed.http", "queue.cfg"]
CONFIGURED = [*(f"/etc/desk/{name}" for name in IN_DESK), *(f"/etc/nginx/desk/{name}" for name in IN_NGINX), "/etc/nginx/sites-available/desk"]
UNIT, COPY_UNIT, QUEUE_UNIT = (f"usr/lib/systemd/system/{name}@.service" for name in ("desk", "desk-copy", "desk-queue"))
# The name of the machine in the fresh root.
NAME = "desk.example"
# What stands in a fresh root beside what every machine has: what the package names, and what the guide calls.
BESIDE = "haproxy,nginx,libnginx-mod-http-js,curl,jq,openssl,sqlite3,systemd,python3"
DEBIAN = ["--quiet", "--variant=minbase", "bookworm"]
# What isn't the package's, and changes by itself.
PASSING = ("proc", "sys", "dev", "run", "tmp", "var/log", "var/cache", "var/lib/dpkg", "var/lib/apt", "var/lib/systemd")
SYSTEMCTL = r"""#!/bin/sh
# Starts what systemd would start, in the folder in which it would: a desk, and the queue that its unit wants.
cd /
command_of() {
    sed -n "s/%i/$name/g; s/[\$][\$]/\$/g; /^ExecStart=/,/[^\\]\$/{ s/^ExecStart=//; p }" "/usr/lib/systemd/system/$1@.service"
}
case "$*" in
"reload nginx") exec nginx ;;
"enable --now desk@"*)
    name=${3#desk@}
    /usr/bin/systemctl enable "$3"
    . "/etc/desk/$name"
    mkdir -p "/run/desk/$name" && chown desk: "/run/desk/$name"
    su desk -s /bin/sh -c "umask 077; export PORT=$PORT; $(command_of desk)" >/dev/null 2>&1 &
    grep -q "^Wants=desk-queue@" /usr/lib/systemd/system/desk@.service &&
        su nobody -s /bin/sh -c "export PORT=$PORT; exec $(command_of desk-queue)" >/dev/null 2>&1 & ;;
*) exit 1 ;;
esac
"""
BASH = """source {completion}
COMP_WORDS=({words}) COMP_CWORD=$((${{#COMP_WORDS[@]}} - 1))
_desk {program} "${{COMP_WORDS[COMP_CWORD]}}" "${{COMP_WORDS[COMP_CWORD - 1]}}"
echo "${{COMPREPLY[@]}}"
"""
UP = "import fcntl, socket, struct; fcntl.ioctl(socket.socket(), 0x8914, struct.pack('16sh', b'lo', 65))"


def section(number):
    """A section of the guide."""
    return re.search(rf"(?ms)^## {number}\. .*?(?=^## |\Z)", GUIDE)[0]


def said(*words, **how):
    """What a command prints, on both streams, and its status."""
    how = {"stdout": subprocess.PIPE, "stderr": subprocess.STDOUT, "text": True, "timeout": 300, **how}
    done = subprocess.run(list(map(str, words)), check=False, **how)
    return done.returncode, done.stdout


def linked():
    """The libraries that the program stands on and that aren't of this repository."""
    lines = [line.split(":") for line in (ROOT / "crates.txt").read_text(encoding="utf-8").splitlines() if line[:1] != "#"]
    own = {name: rest.split() for name, rest in lines}
    found, todo = set(), ["desk"]
    while todo:
        crate = todo.pop()
        todo += [it for it in own.get(crate, ()) if it not in found]
        found.add(crate)
    return found - set(own)


def listed(root):
    """All paths under a root, but for those that change by themselves."""
    found = set()
    for folder, folders, files in os.walk(root):
        here = os.path.relpath(folder, root)
        folders[:] = [it for it in folders if os.path.normpath(f"{here}/{it}") not in PASSING]
        found |= {os.path.normpath(f"{here}/{it}") for it in folders + files}
    return found


class Package(Program):
    """The package, made once, and what is in it."""

    def __init__(self, options, folder):
        super().__init__(options, folder)
        self.inside = folder / "inside"
        self.file = self.made_in("once")
        said("dpkg-deb", "-x", self.file, self.inside)
        self.version = self.file.name.split("_")[1]
        self.helps = {"desk": self.run(folder, "help")[1]}
        for command in self.commands():
            self.helps[f"desk-{command}"] = self.run(folder, command, "--help")[1]

    def made_in(self, name, **how):
        """The package, made in a folder of its own."""
        (self.folder / name).mkdir()
        status, text = said(ROOT / "tools/package", self.path, "--to", self.folder / name, **how)
        if status:
            raise SystemExit(f"tools/package: {text}")
        return pathlib.Path(text.strip())

    def commands(self):
        """The commands that the help lists, but for `help`."""
        block = self.helps["desk"].split("Commands:\n")[1].split("\n\n")[0]
        return [line.split()[0] for line in block.splitlines() if line.split()[0] != "help"]

    def read(self, path):
        return (self.inside / path).read_bytes()

    def is_from(self, path, source):
        self.note(self.read(path) == (ROOT / source).read_bytes(), f"{path} isn't {source}")


def files_below(folder):
    """The files of a folder and of the folders in it, by their paths there."""
    return sorted(str(it.relative_to(folder)) for it in folder.rglob("*") if it.is_file())


def try_files(package):
    """Who owns what, with which modes; what is a copy of what."""
    package.same("its name", package.file.name, f"desk_{package.version}_amd64.deb")
    for line in said("dpkg-deb", "-c", package.file)[1].splitlines():
        mode, owner, _, _, _, path = line.split(maxsplit=5)
        kind = "lrwxrwxrwx" if " -> " in path else "drwxr-xr-x" if path.endswith("/") else "-rw-r--r--"
        example = ROOT / path.removeprefix("./usr/share/desk/")
        if kind[0] == "-" and (path.startswith("./usr/bin/") or example.is_file() and os.access(example, os.X_OK)):
            kind = "-rwxr-xr-x"
        package.same(path, (mode, owner), (kind, "root/root"))
    pages = files_below(ROOT / "web")
    package.same("pages", files_below(package.inside / "usr/share/desk/web"), pages)
    for name in pages:
        package.is_from(f"usr/share/desk/web/{name}", f"web/{name}")
    for name in ("README.md", "docs/GUIDE.md", "docs/FORMATS.md", "docs/SHEET.md"):
        package.is_from(f"usr/share/doc/desk/{name}", name)
    for name in IN_DESK:
        package.is_from(f"etc/desk/{name}", f"examples/nginx/{name}")
    for name in IN_NGINX:
        package.is_from(f"etc/nginx/desk/{name}", f"examples/nginx/{name}")
    for name in ("front", "through"):
        package.is_from(f"usr/share/desk/examples/nginx/{name}.conf", f"examples/nginx/{name}.conf")
    package.is_from("usr/bin/contest-package", "examples/package/contest-package")
    package.same("what an upgrade asks about", said("dpkg-deb", "-I", package.file, "conffiles")[1].split(), CONFIGURED)


def try_places(package):
    """The files of the package name its own folders, and the program is the one that was given."""
    units = [f"usr/lib/systemd/system/desk-copy@.{kind}" for kind in ("service", "timer")]
    for path in (UNIT, QUEUE_UNIT, *units, "usr/share/desk/examples/nginx/riverside.conf", "etc/nginx/sites-available/desk"):
        found = re.findall(rb"/usr/local|/srv|conf\.d", package.read(path))
        package.same(f"{path}: folders of what is installed by hand", found, [])
    package.note(b"alias /usr/share/desk/web/;" in package.read("usr/share/desk/examples/nginx/riverside.conf"), "no pages")
    package.note(b"exec /usr/bin/desk serve" in package.read(UNIT), "the unit starts another program")
    for name in ("desk-copy", "desk-judge"):
        status, text = said(package.inside / "usr/bin" / name, "--help")
        package.note(status == 0 and "usage" in text.lower(), f"{name} --help: {text}")
    desk = package.inside / "usr/bin/desk"
    package.same("its help", said(desk, "help"), (0, package.helps["desk"]))
    package.note(desk.stat().st_size < os.stat(package.path).st_size, "the program isn't stripped")
    package.note("no symbols" in said("nm", desk)[1], "the program has symbols")
    status, text = said(package.path, "--version")
    package.note(status != 0 or text.startswith(f"desk {package.version},"), f"--version says {text}")


def try_papers(package):
    """What is linked, under which terms; what is new."""
    text = package.read("usr/share/doc/desk/copyright").decode()
    package.note("The owner has given no licence" in text, "copyright doesn't say that there is no licence")
    for library in sorted(linked()):
        package.note(bool(re.search(rf"\b{library}\b", text)), f"copyright doesn't name {library}")
    log = said("gzip", "-dc", package.inside / "usr/share/doc/desk/changelog.gz")[1]
    package.same("changelog", log, (ROOT / "CHANGELOG").read_text(encoding="utf-8"))
    package.note(log.startswith(f"desk ({package.version}) "), f"CHANGELOG doesn't begin with {package.version}")
    described = said("dpkg-deb", "-f", package.file, "Description")[1]
    for what, text in (("the description", described), ("README.md", (ROOT / "README.md").read_text(encoding="utf-8"))):
        is_told = "It runs no submitted program: judges give the verdicts" in " ".join(text.split())
        package.note(is_told, f"{what} doesn't say that no submitted program is run")


def try_same_bytes(package):
    """The same input makes the same bytes, whoever makes it; another time makes others."""
    wanted = hashlib.sha256(package.file.read_bytes()).hexdigest()
    other = {**os.environ, "TZ": "Asia/Tokyo", "LC_ALL": "C", "TMPDIR": str(package.folder)}
    again = package.made_in("again", env=other, umask=0o077)
    package.same("bytes made twice", hashlib.sha256(again.read_bytes()).hexdigest(), wanted)
    later = package.made_in("later", env={**os.environ, "SOURCE_DATE_EPOCH": "1800000000"})
    package.note(hashlib.sha256(later.read_bytes()).hexdigest() != wanted, "another time makes the same bytes")
    package.note(" 2027-01-15 " in said("dpkg-deb", "-c", later)[1], "the time that is set isn't that of the files")


def try_refusals(package):
    """What no package is made of, and why."""
    other, silent = package.folder / "other", package.folder / "silent"
    other.write_text("#!/bin/sh\necho desk 9.9.9, proved by nobody\n", encoding="utf-8")
    silent.write_text("#!/bin/sh\n", encoding="utf-8")
    for file in (other, silent):
        file.chmod(0o755)
    cases = {
        "nowhere": "package: there is no program nowhere: build it by ./desk help, or name one\n",
        str(silent): f"package: {silent} lists no commands: is it the desk?\n",
        str(other): f"package: {other} says 'desk 9.9.9, proved by nobody', and the sources are of {package.version}: build it\n",
    }
    for path, line in cases.items():
        package.same(path, said(ROOT / "tools/package", path, cwd=package.folder), (1, line))
    package.same("packages of none", list(package.folder.glob("*.deb")), [])


def try_lintian(package):
    status, text = said("lintian", "--allow-root", "--fail-on", "error", package.file)
    package.note(status == 0 and not re.search("(?m)^E:", text), f"lintian: {text}")


def try_manual(package):
    """A page for each command, with all words of its help in their order."""
    pages = package.inside / "usr/share/man/man1"
    scripts = {it.name for it in (package.inside / "usr/bin").iterdir()} - {"desk"}
    package.same("pages", {it.name.removesuffix(".1.gz") for it in pages.iterdir()}, set(package.helps) | scripts)
    for name, text in package.helps.items():
        words = f"gzip -dc {pages}/{name}.1.gz | groff -ww -man -Tutf8 -rLL=2000n -P-cbou"
        status, page = said("bash", "-c", f"set -o pipefail; {words}")
        page, at = " ".join(page.lower().split()), 0
        package.note(status == 0 and "warning" not in page and f" {name} - " in page, f"{name}(1): {page}")
        for piece in re.split(r"\n|  +", text.removeprefix("Usage: ").lower()):
            piece = piece.strip().removeprefix("usage: ").removesuffix(":")
            found = page.find(piece, at)
            package.note(found >= 0, f"{name}(1) lacks {piece!r}, or has it too soon")
            at = max(at, found)


def completed(package, *words):
    """What bash offers for the last of these words."""
    script = {"completion": package.inside / "usr/share/bash-completion/completions/desk", "program": package.path}
    text = BASH.format(words=" ".join(map(shlex.quote, ("desk", *words))), **script)
    return said("bash", "--norc", "-c", text, cwd=ROOT / "examples/cup")[1].split()


def try_completion(package):
    """What bash offers: commands, each option of each, kinds of files, and else files."""
    package.same("commands", completed(package, ""), [*package.commands(), "help"])
    package.same("commands in e", completed(package, "e"), ["export"])
    for command in package.commands():
        options = re.findall(r"(?m)^ +(?:-h, )?(--[a-z-]+)", package.helps[f"desk-{command}"])
        package.same(f"options of {command}", completed(package, command, "--"), options)
    kinds = "judgement-types languages problems groups teams teams-csv accounts-csv verdicts-csv"
    package.same("kinds", completed(package, "import", "cup.db", ""), kinds.split())
    package.same("formats", completed(package, "board", "cup.db", "--format", ""), ["text", "csv"])
    package.same("formats of an export", completed(package, "export", "cup.db", "--format", ""), ["csv", "icpc"])
    package.same("audiences", completed(package, "feed", "--audience", "j"), ["jury"])
    package.same("files", completed(package, "import", "cup.db", "teams-csv", "te"), ["teams.csv"])


def try_unit(package):
    """How exposed the unit is, and that it lets through what the desk calls."""
    for name in (UNIT, COPY_UNIT, QUEUE_UNIT):
        try_exposure(package, package.inside / name)
    unit = package.read(UNIT).decode()
    for line in ("User=desk", "UMask=0077", "CapabilityBoundingSet=", "RestrictAddressFamilies=AF_INET"):
        package.note(f"\n{line}\n" in unit, f"the unit lacks {line}")
    folder, cup, port = package.new_folder(), ROOT / "examples/cup", free_port()
    package.answers("init", (0, "", ""), folder, "init", "cup.db", cup / "contest.json")
    for kind in ("judgement-types", "languages", "groups", "problems", "teams-csv", "accounts-csv"):
        file = next(cup.glob(f"{kind.removesuffix('-csv')}.*"))
        package.note(package.run(folder, "import", "cup.db", kind, file)[0] == 0, f"import of {kind}")
    words = ["strace", "-f", "-qq", "-o", folder / "calls", package.path, "serve", folder / "cup.db", "--requests", "2"]
    with subprocess.Popen([*words, "--port", str(port)], stdout=subprocess.PIPE) as server:
        line_of(server.stdout)
        here = f"127.0.0.1:{port}/contests/riverside"
        start = '{"start_time":"2031-01-01T00:00:00Z"}'
        said("curl", "-s", "--oauth2-bearer", "example-director", "-X", "PATCH", "-d", start, here)
        package.note("rows" in said("curl", "-s", f"{here}/scoreboard")[1], "no board under strace")
    called = calls_in(folder / "calls")
    package.note("fdatasync" in called and "accept4" in called, f"the calls that were seen: {called}")
    try_filter(package, unit, called)


def fresh_root(package):
    """A root of Debian with what the package stands on, in which systemctl is a script; None if none can be made here."""
    root, why = package.folder / "root", ""
    if os.geteuid() or package.options.no_root:
        why = "it takes root's rights, and no --no-root"
    elif said("unshare", "--mount", "--net", "--pid", "--fork", "true")[0]:
        why = "no namespaces can be made"
    else:
        status, text = said("mmdebstrap", "--skip=cleanup/apt/lists", f"--include={BESIDE}", *DEBIAN, root)
        if status and said("mmdebstrap", "--simulate", *DEBIAN, "/dev/null")[0]:
            why = f"no mirror answers: {' '.join(text.split())[-300:]}"
        elif status:
            package.note(False, f"no fresh root: mmdebstrap says {text[-1500:]}")
            return None
    if why:
        package.skip(f"a fresh root of Debian, since {why}")
        return None
    tool = root / "usr/local/sbin/systemctl"
    tool.write_text(SYSTEMCTL, encoding="utf-8")
    tool.chmod(0o755)
    (root / "etc/apt/apt.conf.d/90yes").write_text('APT::Get::Assume-Yes "true";\n', encoding="utf-8")
    (root / "etc/hosts").write_text(f"127.0.0.1 localhost\n127.0.1.1 {NAME} {socket.gethostname()}\n", encoding="utf-8")
    return root


class Inside:
    """A root in which commands run, with processes and a network of its own, which end with it."""

    def __init__(self, root):
        self.root = root
        apart = ["unshare", "--mount", "--net", "--pid", "--fork", "--kill-child", f"--mount-proc={root}/proc"]
        start = f"python3 -c {shlex.quote(UP)} && exec chroot {shlex.quote(str(root))} /bin/bash --norc"
        pipes = {"stdin": subprocess.PIPE, "stdout": subprocess.PIPE, "stderr": subprocess.STDOUT, "text": True}
        env = {"PATH": "/usr/local/sbin:/usr/sbin:/usr/bin:/sbin:/bin", "HOME": "/root", "LC_ALL": "C.UTF-8"}
        self.shell = subprocess.Popen([*apart, "bash", "-c", start], env={**env, "DEBIAN_FRONTEND": "noninteractive"}, **pipes)

    def does(self, script):
        """The status of a script, and what it prints. One that doesn't end ends the root."""
        self.shell.stdin.write(f"( set -e; cd /root\n{script}\n) </dev/null\nprintf '\\n=%d=\\n' $?\n")
        self.shell.stdin.flush()
        lines, limit = [], threading.Timer(LONGEST, self.shell.kill)
        limit.start()
        try:
            for line in self.shell.stdout:
                if re.fullmatch(r"=\d+=\n", line):
                    return int(line.strip("=\n")), "".join(lines).removesuffix("\n")
                lines.append(line)
            return -1, "".join(lines)
        finally:
            limit.cancel()

    def end(self):
        self.shell.stdin.close()
        try:
            self.shell.wait(10)
        except subprocess.TimeoutExpired:
            self.shell.send_signal(signal.SIGKILL)
            self.shell.wait()


def done(package, inside, what, script):
    """What a script prints in the root, where it has to end well."""
    status, text = inside.does(script)
    package.note(status == 0, f"{what}: {status}: {text[-1500:]}")
    return text


def follow_guide(package, inside):
    """The guide's commands, from the package to nginx."""
    (first,), (links, rest) = BY_PACKAGE.findall(section(1)), BY_PACKAGE.findall(section(5))
    as_root, _, as_desk = first.partition("su - desk\n")
    done(package, inside, "section 1", as_root)
    commands = [command for number in (1, 2, 3, 4) for block in CONSOLE.findall(section(number)) for command, _ in commands_in(block)]
    (inside.root / "tmp/commands").write_text(as_desk + "\n".join(commands) + "\n", encoding="utf-8")
    text = done(package, inside, "sections 1 to 4", "su - desk -c 'bash --norc /tmp/commands'")
    package.note("added 7" in text and "東京ペンギン" in text and "-rw-------" in text, f"sections 1 to 4: {text}")
    done(package, inside, "section 5", links + rest)


def look_at_board(package, inside):
    """What nginx answers, over TLS, under the certificate that the guide makes."""
    here = f"--cacert /etc/nginx/desk/certificate.pem https://{NAME}"
    board = f"curl -s --fail {here}/spring/contests/spring"
    until = f"for i in $(seq 100); do {board}/scoreboard >/dev/null && break; sleep 0.1; done"
    text = done(package, inside, "the board", f"{until}; {board}/scoreboard")
    teams = sorted(set(re.findall(r'"team_id":"(\w+)"', text)))
    package.same("teams on the board", teams, ["owls", "penguins", "zoe"])
    page = done(package, inside, "the page", f"curl -s --fail {here}/spring/scoreboard.html")
    package.same("the page of the board", page, (ROOT / "web/scoreboard.html").read_text(encoding="utf-8"))
    token = "$(sed -n 's/^director,.*,//p' /var/lib/desk/spring/accounts.csv)"
    text = done(package, inside, "an account", f'{board}/account --oauth2-bearer "{token}"')
    package.note('"type":"admin"' in text, f"the director's account: {text}")
    text = done(package, inside, "modes", "cd /var/lib/desk; stat -c '%a %U %n' . spring/spring.db; stat -c %U /proc/$(pidof desk)")
    package.same("modes", text.split("\n"), ["700 desk .", "600 desk spring/spring.db", "desk", ""])
    text = done(package, inside, "what starts", "ls /etc/systemd/system/multi-user.target.wants")
    package.note("desk@spring.service" in text, f"the machine starts {text}")


def next_version(package):
    """A package of the version after this one, with a word more in its README; and that version."""
    folder, (major, minor, patch) = package.folder / "next", package.version.split(".")
    version = f"{major}.{minor}.{int(patch) + 1}"
    said("dpkg-deb", "-R", package.file, folder)
    control, readme = folder / "DEBIAN/control", folder / "usr/share/doc/desk/README.md"
    control.write_text(control.read_text(encoding="utf-8").replace(f"Version: {package.version}", f"Version: {version}"), encoding="utf-8")
    readme.write_text("The next version.\n" + readme.read_text(encoding="utf-8"), encoding="utf-8")
    file = package.folder / f"desk_{version}_amd64.deb"
    status, text = said("dpkg-deb", "--root-owner-group", "-b", folder, file)
    package.note(status == 0, f"the next version: {text}")
    return version, file


def take_next_version(package, inside):
    """The next version takes the place of this one while a desk serves: the contests and what the director set up stay."""
    version, file = next_version(package)
    (inside.root / "root" / file.name).write_bytes(file.read_bytes())
    contest = inside.root / "var/lib/desk/spring/spring.db"
    done(package, inside, "a setting", "echo '# kept' >> /etc/nginx/desk/account.conf")
    before = contest.read_bytes()
    text = done(package, inside, "the next version", f"apt-get install ./{file.name} && dpkg-query -W -f '=${{Version}}=' desk")
    package.note(text.endswith(f"={version}="), f"the version after an upgrade: {text[-200:]}")
    text = done(package, inside, "its README", "head -n 1 /usr/share/doc/desk/README.md; tail -n 1 /etc/nginx/desk/account.conf; nginx -t 2>&1 | tail -n 1")
    package.note(text.startswith("The next version.\n# kept\n") and "successful" in text, f"what an upgrade leaves: {text}")
    package.note(contest.read_bytes() == before, "an upgrade changes the contest")
    look_at_board(package, inside)
    text = done(package, inside, "the version before", f"apt-get install --allow-downgrades ./{package.file.name} && dpkg-query -W -f '=${{Version}}=' desk")
    package.note(text.endswith(f"={package.version}="), f"the version after a way back: {text[-200:]}")
    done(package, inside, "what was set", f"sed -i '/^# kept$/d' /etc/nginx/desk/account.conf; rm {file.name}")
    look_at_board(package, inside)


def try_fresh_root(package):
    root = fresh_root(package)
    if root is None:
        return try_unpacked(package)
    inside = Inside(root)
    done(package, inside, "nginx of Debian", "nginx -t 2>&1")
    (root / "root" / package.file.name).write_bytes(package.file.read_bytes())
    before = listed(root)
    follow_guide(package, inside)
    look_at_board(package, inside)
    take_next_version(package, inside)
    contest = root / "var/lib/desk/spring/spring.db"
    done(package, inside, "the desk ends", "kill $(pidof desk haproxy); nginx -s stop; sleep 1")
    kept = contest.read_bytes()
    done(package, inside, "removed", "apt-get remove desk && nginx -t")
    package.note((root / "etc/nginx/sites-available/desk").exists(), "a package that is removed keeps its settings")
    done(package, inside, "purged", "apt-get purge desk && nginx -t")
    left = {path for path in listed(root) - before if not path.startswith("var/lib/desk")}
    package.same("what a purge leaves beside the contests", left, set())
    kept_lines = (root / "etc/nginx/nginx.conf").read_text(encoding="utf-8").count("worker_connections 8192;")
    package.same("lines of nginx that a purge leaves as the guide has them", kept_lines, 1)
    package.same("what a purge doesn't bring back", before - listed(root), {"etc/nginx/sites-enabled/default"})
    package.note(contest.read_bytes() == kept, "a purge changes the contest")
    text = done(package, inside, "the user", "id -un desk; stat -c '%a %U' /var/lib/desk")
    package.same("the contests' user", text.split(), ["desk", "700", "desk"])
    done(package, inside, "again", "apt-get install ./desk_*_amd64.deb && desk board /var/lib/desk/spring/spring.db")
    inside.end()


def try_unpacked(package):
    """The unpacked program makes a contest."""
    desk, cup, folder = package.inside / "usr/bin/desk", package.inside / "usr/share/desk/examples/cup", package.new_folder()
    package.same("init", said(desk, "init", folder / "cup.db", cup / "contest.json"), (0, ""))
    package.note("Riverside Cup" in said(desk, "board", folder / "cup.db")[1], "no board of an unpacked program")


if __name__ == "__main__":
    PARTS = (try_files, try_places, try_papers, try_same_bytes, try_refusals, try_lintian, try_manual, try_completion, try_unit)
    sys.exit(program.main(__doc__, Package, [*PARTS, try_fresh_root], program="desk", no_root=False))
