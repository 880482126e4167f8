"""Starting the built program in new folders, and what a store or a client's file shows afterwards: for tools/misuse."""

import contextlib
import os
import pathlib
import re
import subprocess
import sys
import tempfile
import time

MOST_SECONDS = 240
BEGUN = time.monotonic()
PROGRAM = os.path.abspath(sys.argv[1])
# What a program ends with and writes where another one has the lock.
TAKEN = {"run": (6, "", "im: disk fault\n"), "verify": (8, "", "im: keeper fault\n")}


def seconds():
    """The time since the beginning."""
    return time.monotonic() - BEGUN


class NotTried(Exception):
    """A trial that can't be made here, and why."""


class Ended:
    """How a program ended, and what it wrote."""

    def __init__(self, process, given=None):
        try:
            out, errors = process.communicate(given and given.encode(), max(1, MOST_SECONDS - seconds()))
        except subprocess.TimeoutExpired:
            process.kill()
            process.communicate()
            raise NotTried("the time was over") from None
        self.status, self.out, self.errors = process.returncode, out.decode(), errors.decode()
        self.lines = self.out.splitlines()
        # The transaction of each `set` that was told.
        self.told = [int(number) for number in re.findall(r"^a \d+ tx (\d+)$", self.out, re.MULTILINE)]

    def is_taken(self, word):
        return (self.status, self.out, self.errors) == TAKEN[word]


def start(words, folder, **more):
    pipe = subprocess.PIPE
    return subprocess.Popen(words, cwd=folder, stdin=pipe, stdout=pipe, stderr=pipe, **more)


def run(script, folder, options=(), **more):
    return Ended(start([PROGRAM, "run", *options], folder, **more), script)


def verify(stream, folder, **more):
    return Ended(start([PROGRAM, "verify"], folder, **more), stream)


def shell(command, given, folder):
    return Ended(start(["bash", "-c", command, PROGRAM], folder), given)


def end_input(process, given):
    """Gives a program its whole input. Only then it begins with the store."""
    process.stdin.write(given.encode())
    process.stdin.close()
    process.stdin = None


@contextlib.contextmanager
def new_folder():
    place = os.environ.get("TMPDIR") or ("/dev/shm" if os.path.isdir("/dev/shm") else None)
    with tempfile.TemporaryDirectory(dir=place, prefix="misuse-") as folder:
        yield os.path.realpath(folder)


@contextlib.contextmanager
def small_disk():
    """A disk of 64 KiB, in memory."""
    if os.geteuid() != 0:
        raise NotTried("it wants root")
    with new_folder() as folder:
        done = subprocess.run(["mount", "-t", "tmpfs", "-o", "size=64k", "tmpfs", folder], capture_output=True)
        if done.returncode != 0:
            raise NotTried("no disk could be mounted")
        try:
            yield folder
        finally:
            subprocess.run(["umount", folder], check=True)


def remount(folder, option):
    subprocess.run(["mount", "-o", f"remount,{option}", folder], check=True)


def sets(count, name="k", value="1"):
    return "".join(f"a: set {name}{i}={value}\n" for i in range(count))


def holds(folder, keys):
    """How many transactions a store holds, or None where it doesn't open, and how many of these keys, each with the
    transaction that was told of it, it shows as they were told."""
    done = run("".join(f"a: get {key}\n" for key in keys) + "a: get none\n", folder)
    if done.status != 0:
        return None, 0
    shown = sum(line.endswith(f" tx {tx}") for tx, line in zip(keys.values(), done.lines))
    return int(done.lines[-1].split()[1]), shown


def messages(folder, items):
    """The report of a new store with one transaction: its state, and so many times the proof of its entry."""
    return run("a: set k=" + "v" * 200 + "\na: state\n" + "a: item 1 0\n" * items, folder).out


def kept(folder):
    """The lines of a client's file, and whether each is a message with its LF."""
    text = pathlib.Path(folder, "im-client.txt").read_text()
    lines = text.splitlines()
    return lines, text[-1:] in ("", "\n") and all(line.startswith("{") for line in lines)
