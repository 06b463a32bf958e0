"""What a script is asked for, the program that it runs, and what that answers."""

import argparse
import concurrent.futures
import os
import pathlib
import resource
import select
import signal
import subprocess
import tempfile
import time

from .tally import BREAKS, Tally

LIB = pathlib.Path(__file__).resolve().parent
TESTS, ROOT = LIB.parent, LIB.parent.parent
DATA = TESTS / "data"
# Seconds for what comes unless something is broken: for a server or a browser, and for a command. They cost nothing
# while all is well.
PATIENCE, LONGEST = 90, 600
PIPES = {"stdout": subprocess.PIPE, "stderr": subprocess.PIPE, "timeout": LONGEST}


def refused(line):
    """The answer of a command of the desk that is refused so."""
    return 1, "", f"refused: {line}\n"


DONE, FAULT, FILE = (0, "", ""), refused("E24 StoreFault"), refused("File")


def options_of(about, usual):
    """What a script's words say of its options, of which each is as usual if no word names it: a number, numbers, a folder, a
    flag, one of some words, which is the first, or a program, which the gate builds under its name. A program must be there."""
    parser = argparse.ArgumentParser(description=about, formatter_class=argparse.RawDescriptionHelpFormatter)
    programs = [name for name, value in usual.items() if isinstance(value, str)]
    for name, value in usual.items():
        how = {"type": type(value), "default": value, "metavar": "N" if isinstance(value, int) else "PATH"}
        if isinstance(value, bool):
            how = {"action": "store_true"}
        elif isinstance(value, tuple):
            how = {"choices": value, "default": value[0]}
        elif isinstance(value, list):
            how = {"type": int, "nargs": "+", "default": value, "metavar": "N"}
        elif isinstance(value, str):
            how = {"type": pathlib.Path, "default": ROOT / "crates" / value / "out" / value, "metavar": "PATH"}
        parser.add_argument("--" + name.replace("_", "-"), **how)
    options = parser.parse_args()
    for name in programs:
        if not vars(options)[name].is_file():
            parser.error(f"there is no program {vars(options)[name]}: build it, or name one by --{name}")
    return options


def main(about, kind, parts, **usual):
    """A script: runs its parts over a tally of this kind, which is made of its options and a folder, and ends with what
    was counted. A tally that can't be made is a failed case. What still writes to the folder ends with the script."""
    options = options_of(about, usual)
    with tempfile.TemporaryDirectory(ignore_cleanup_errors=True) as folder:
        try:
            tally = kind(options, pathlib.Path(folder))
        except BREAKS as error:
            tally = Tally()
            tally.broke("before its parts", error)
            tally.leave(parts)
        else:
            tally.run_parts(parts)
    return tally.end()


def line_of(stream, seconds=PATIENCE):
    """The next line of a pipe that nothing was read from but by this; or what came of one within some seconds."""
    end, line, ready = time.monotonic() + seconds, b"", select.poll()
    ready.register(stream, select.POLLIN)
    while not line.endswith(b"\n") and ready.poll(1000 * max(0, end - time.monotonic())):
        byte = os.read(stream.fileno(), 1)
        if not byte:
            break
        line += byte
    return line


def ran(words, **how):
    """What a program answers: its status, and the bytes on standard output and standard error."""
    done = subprocess.run(words, **{**PIPES, **how})
    return done.returncode, done.stdout or b"", done.stderr


def compiled(name, folder):
    """A library of NAME.c, to be loaded into a program before its own."""
    library = f"{folder}/{name}.so"
    subprocess.run(["cc", "-O1", "-shared", "-fPIC", "-o", library, LIB / f"{name}.c", "-ldl"], check=True)
    return library


def ran_refused(words, library, call, later, **how):
    """What a program answers with this call for memory refused, and if told all later ones too; and how many were. The library
    is that of refuse_call.c."""
    reader, writer = os.pipe()
    env = {**os.environ, "LD_PRELOAD": library, "REFUSE_CALL": str(call), "REFUSE_TELL": str(writer)}
    if later:
        env["REFUSE_LATER"] = "1"
    answer = ran(words, env=env, pass_fds=[writer], **how)
    os.close(writer)
    with os.fdopen(reader, "rb") as told:
        return answer, len(told.read())


def limited_to(count):
    """What a program does at its start so that no file takes more than so many bytes of it."""

    def limit():
        signal.signal(signal.SIGXFSZ, signal.SIG_IGN)
        resource.setrlimit(resource.RLIMIT_FSIZE, (count, count))

    return limit


def lanes():
    """Threads, one for each processor that this process may use."""
    return concurrent.futures.ThreadPoolExecutor(len(os.sched_getaffinity(0)))


def refused_in_turn(one, step):
    """Has a function refuse the first call for memory, and each so manieth after it, until none is left: how many of these were told.
    It answers how many calls it refused, and whether that was told."""
    call, told, is_over = 1, 0, False
    with lanes() as pool:
        while not is_over:
            tried = list(pool.map(one, range(call, call + 100 * step, step)))
            is_over, told = not all(count for count, _ in tried), told + sum(is_told for _, is_told in tried)
            call += 100 * step
    return told


class Program(Tally):
    """The program that the options name, and a folder in which cases have folders of their own."""

    def __init__(self, options, folder):
        super().__init__()
        self.options, self.path, self.folder, self.made = options, str(options.program.resolve()), folder, 0

    def new_folder(self):
        with self.lock:
            self.made += 1
            folder = self.folder / f"case{self.made}"
        folder.mkdir()
        return folder

    def run(self, folder, *words, before=(), **how):
        """What it answers in a folder, as texts."""
        status, out, err = ran([*before, self.path, *map(str, words)], cwd=folder, **how)
        return status, out.decode(), err.decode()

    def answers(self, what, wanted, *words, **how):
        self.same(what, self.run(*words, **how), wanted)
