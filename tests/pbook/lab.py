"""Runs the program as a user does, in a folder of its own, and counts what is as it should be."""
import os
import pathlib
import re
import resource
import shutil
import signal
import subprocess
import tempfile

LOCK = ".lock"


class Lab:
    def __init__(self, binary):
        self.passed = self.failed = 0
        self.folder = pathlib.Path(tempfile.mkdtemp(prefix="pbook-"))
        self.folder.chmod(0o755)
        # a copy, where nobody may run it too
        self.binary = str(self.folder / "pbook")
        shutil.copy(binary, self.binary)
        self.made = 0
        self.lines = set()  # the first words of the pages that were as they should be

    def close(self):
        shutil.rmtree(self.folder)

    def room(self):
        """An empty folder."""
        self.made += 1
        room = self.folder / str(self.made)
        room.mkdir()
        return room

    def count(self, name, good, told=""):
        self.passed, self.failed = self.passed + bool(good), self.failed + (not good)
        if not good:
            print(f"FAIL {name}: {str(told)[:600]}")

    def group(self, name):
        """Says how many passed since the last group."""
        print(f"ok   {name}, {self.passed} so far" if not self.failed else f"     {name}, {self.passed} passed and {self.failed} failed so far", flush=True)

    def run(self, room, *words, given=b"", prepare=None, command=None):
        """What it writes on standard output and on standard error, and how it ends."""
        words = [word if isinstance(word, bytes) else str(word).encode() for word in words]
        run = subprocess.run([command or self.binary, *words], cwd=room, input=given, capture_output=True, timeout=120, check=False, preexec_fn=prepare)
        return run.stdout, run.stderr, run.returncode

    def shell(self, room, line, prepare=None, **names):
        """The same of a line of shell in which $PBOOK is the program."""
        run = subprocess.run(["sh", "-c", line], cwd=room, capture_output=True, timeout=120, check=False, preexec_fn=prepare, env={**os.environ, "PBOOK": self.binary, **names})
        return run.stdout, run.stderr, run.returncode

    def page(self, name, page, room, *words, given=b"", prepare=None):
        """The page, or a test of it, is what the command prints; it says nothing else, and writes no file but those that `files` are compared with by the caller."""
        out, err, status = self.run(room, *words, given=given, prepare=prepare)
        text = out.decode("latin-1")
        good = page(text) if callable(page) else text == page
        if good:
            line = re.sub(r"UNREAD line [0-9]+", "UNREAD", text.split("\n", 1)[0])
            self.lines.add(re.sub(r"(REFUSED [0-9]+) [0-9]+( line [0-9]+)?", r"\1", line))
        self.count(name, good and err == b"" and status == 0, (words, text[:200], err, status, None if callable(page) else page[:200]))
        return text


def held(room):
    """Every file below a folder with its bytes, its kind and mode; what a link leads to."""
    found = {}
    for path in sorted(room.rglob("*")):
        state = path.lstat()
        content = os.readlink(path) if path.is_symlink() else path.read_bytes() if path.is_file() else None
        found[str(path.relative_to(room))] = (oct(state.st_mode), content)
    return found


def stack(kib):
    """For a process that is to have so much stack."""

    def prepare():
        resource.setrlimit(resource.RLIMIT_STACK, (kib << 10, kib << 10))
        resource.setrlimit(resource.RLIMIT_CORE, (0, 0))

    return prepare


def nobody():
    os.setgroups([])
    os.setgid(65534)
    os.setuid(65534)


def small_files():
    """Files of at most 20 bytes; a write beyond them fails, and does not end the program."""
    signal.signal(signal.SIGXFSZ, signal.SIG_IGN)
    resource.setrlimit(resource.RLIMIT_FSIZE, (20, 20))
