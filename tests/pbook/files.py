"""Files: what is written and what is left, additions at once, a program that is ended or whose system calls fail at every call."""
import os
import pathlib
import subprocess
import threading

import reference as ref
from lab import held, nobody, small_files
from pages import BAD, SESSION, TEXTS
from reference import MEETS, packed

HERE = pathlib.Path(__file__).resolve().parent
BOOK = packed(SESSION)
MORE = BOOK + packed([(MEETS, 0, 1, 5)])
CHANGES = [("add", ["b.rec", "MEETS", "1", "5"]), ("withdraw", ["b.rec", "8"]), ("pack", ["b.rec", "b.rec"]), ("convert", ["b.rec", "b.rec"])]
NEXT = {"add": MORE, "withdraw": BOOK[:-6], "pack": BOOK, "convert": BOOK}


def told(lab, name, words, error, room, *command, status=0, prepare=None, given=b""):
    """Nothing on standard output, the error alone on standard error, and every file as it was."""
    before = held(room)
    out, err, rc = lab.run(room, *command, prepare=prepare, given=given)
    lab.count(name, out == b"" and err.decode() == error and rc == status and held(room) == before, (words, out, err, rc, {k: v for k, v in held(room).items() if before.get(k) != v}))


def plain(lab):
    """What stands in the way of reading and writing."""
    room = lab.room()
    (room / "b.rec").write_bytes(BOOK)
    (room / "folder").mkdir()
    (room / "link").symlink_to("b.rec")
    (room / "nowhere").symlink_to("missing")
    os.mkfifo(room / "fifo")
    others = ["fifo", "folder"]
    if os.getuid() == 0:
        os.mknod(room / "null", 0o20666, os.makedev(1, 3))
        others.append("null")
    missing, folder = "No such file or directory", "Is a directory"
    for command in ("check", "show", "grid", "why", "ask", "replicates"):
        told(lab, f"{command} of no file", command, f"none: {missing}\n", room, command, "none")
        told(lab, f"{command} of a folder", command, f"folder: {folder}\n", room, command, "folder")
    for command in ("inside", "touching", "apart"):
        told(lab, f"{command} of no file", command, f"none: {missing}\n", room, command, "none", "1")
    for name, words in (("ask", ["PART", "1", "0"]), ("why", ["PART", "1", "0"]), ("verify", ["b.rec"]), ("compare", ["b.rec"]), ("pack", ["out"]), ("convert", ["out"]), ("add", ["PART", "1", "0"]), ("withdraw", ["0"])):
        told(lab, f"{name} of no file", name, f"none: {missing}\n", room, name, "none", *words)
    told(lab, "compare with no file", "", f"none: {missing}\n", room, "compare", "b.rec", "none")
    told(lab, "verify of no chain", "", f"none: {missing}\n", room, "verify", "b.rec", "none")
    told(lab, "verify of a folder", "", f"folder: {folder}\n", room, "verify", "b.rec", "folder")
    told(lab, "no name at all", "", f": {missing}\n", room, "check", "")
    told(lab, "new of what is there", "", "b.rec: File exists\n", room, "new", "b.rec")
    told(lab, "new of a folder", "", "folder: File exists\n", room, "new", "folder")
    told(lab, "new of a link", "", "nowhere: File exists\n", room, "new", "nowhere")
    told(lab, "new in no folder", "", f"none/b.rec: {missing}\n", room, "new", "none/b.rec")
    told(lab, "new in a file", "", "b.rec/b.rec: Not a directory\n", room, "new", "b.rec/b.rec")
    link, other = "a link: name the file that it leads to", "not a plain file"
    for name, said in (("link", link), ("nowhere", link), *((name, other) for name in others)):
        told(lab, f"add to {name}", name, f"{name}: {said}\n", room, "add", name, "MEETS", "1", "5")
        told(lab, f"withdraw from {name}", name, f"{name}: {said}\n", room, "withdraw", name, "0")
        told(lab, f"pack to {name}", name, f"{name}: {said}\n", room, "pack", "b.rec", name)
        told(lab, f"convert to {name}", name, f"{name}: {said}\n", room, "convert", "b.rec", name)
    told(lab, "add in no folder", "", f"none/b.rec.lock: {missing}\n", room, "add", "none/b.rec", "MEETS", "1", "5")
    told(lab, "pack to no folder", "", f"none/out.lock: {missing}\n", room, "pack", "b.rec", "none/out")
    lab.page("check through a link", ref.check(BOOK), room, "check", "link")
    lab.page("check of a device", ref.check(b""), room, "check", "/dev/null")
    long = "a" * 250
    (room / long).write_bytes(b"")
    lab.page("a name of 250 bytes", "RECORDS 1 PIECES 2\n", room, "add", long, "PART", "1", "0")
    (room / (long + "b")).write_bytes(b"")
    told(lab, "a name of 251 bytes", "", f"{long}b.lock: File name too long\n", room, "add", long + "b", "PART", "1", "0")
    for length in (4095, 4096, 4097, 9000):
        out, err, _ = lab.run(room, "check", "a" * length)
        lab.count(f"a path of {length} bytes", out == b"" and err.startswith(b"aaa") and err.endswith(b": File name too long\n"), (out, err[-50:]))
        out, err, _ = lab.run(room, "add", "a" * length, "PART", "1", "0")
        lab.count(f"an addition to a path of {length} bytes", out == b"" and err.startswith(b"aaa") and err.endswith(b": File name too long\n"), (out, err[-50:]))
    # std opens files whose names are UTF-8 alone; words may be any bytes
    name = "bücher.rec".encode()
    (room / name.decode()).write_bytes(b"")
    lab.page("a name in UTF-8", "RECORDS 1 PIECES 2\n", room, "add", name, "PART", "1", "0")
    lab.page("words that are no text", "WORDS UNREAD not a kind\n", room, "add", "b.rec", b"\xff", "1", "0")
    for command, words, suffix in (("check", [], b""), ("new", [], b""), ("add", ["PART", "1", "0"], b".lock"), ("pack", ["out"], b"")):
        before = held(room)
        out, err, _ = lab.run(room, command, b"\xff.rec", *words)
        said = b"\xff.rec" + suffix + b": Invalid or incomplete multibyte or wide character\n"
        lab.count(f"{command} of a name that is no text", out == b"" and err == said and held(room) == before, (out, err))
    # the words first, then the lock, then the book
    (room / "b.rec.lock").write_bytes(b"x")
    (room / "none.lock").write_bytes(b"x")
    before = held(room)
    lab.page("bad words before the lock", "WORDS UNREAD not a kind\n", room, "add", "b.rec", "parts", "1", "2")
    lab.page("bad words before a missing book", "WORDS UNREAD a word too many\n", room, "withdraw", "none", "1", "2")
    lab.page("bad words before a missing book", "WORDS UNREAD not a kind\n", room, "ask", "none", "parts", "1", "2")
    lab.page("bad words before a missing book", "WORDS UNREAD not a choice of facts: all or sheets\n", room, "why", "none", "part", "1", "2", "x")
    lab.page("bad words before a missing book", "WORDS UNREAD a number from 0 to 65535 is missing\n", room, "inside", "none", "x")
    for command in (["add", "b.rec", "MEETS", "1", "5"], ["withdraw", "b.rec", "0"], ["pack", "b.rec", "b.rec"], ["convert", "none", "b.rec"], ["pack", "fifo", "b.rec"]):
        told(lab, f"{command}: the lock first", "", "b.rec.lock: File exists\nremove b.rec.lock where no other pbook runs\n", room, *command)
    told(lab, "the lock before a missing book", "", "none.lock: File exists\nremove none.lock where no other pbook runs\n", room, "add", "none", "MEETS", "1", "5")
    lab.count("locks of others stay", held(room) == before)
    (room / "b.rec.lock").unlink()
    lab.page("then it is free", "RECORDS 10 PIECES 6\n", room, "add", "b.rec", "MEETS", "1", "5")
    lab.count("the new book", (room / "b.rec").read_bytes() == MORE)


def modes(lab):
    """The new file has the old one's mode, and OUT that of the book that it is made from."""
    for mode in (0o600, 0o644, 0o640, 0o666, 0o400, 0o755, 0o4711):
        for command, words in CHANGES:
            room = lab.room()
            (room / "b.rec").write_bytes(BOOK)
            (room / "b.rec").chmod(mode)
            out, err, _ = lab.run(room, command, *words)
            state = held(room)
            lab.count(f"{command} keeps {mode:o}", out.startswith(b"RECORDS") and err == b"" and state == {"b.rec": (oct(0o100000 | mode), NEXT[command])}, (out, err, state))
    for name, before in (("new", None), ("there", 0o640)):
        room = lab.room()
        (room / "b.rec").write_bytes(BOOK)
        (room / "b.rec").chmod(0o600)
        if before:
            (room / "out").write_bytes(b"old")
            (room / "out").chmod(before)
        out, err, _ = lab.run(room, "pack", "b.rec", "out")
        lab.count(f"OUT, {name}, has BOOK's mode", out == b"RECORDS 9 PIECES 6\n" and err == b"" and held(room)["out"] == (oct(0o100600), BOOK), (out, err, held(room)))
    room = lab.room()
    out, err, _ = lab.shell(room, 'umask 027; "$PBOOK" new b.rec')
    lab.count("new by the umask", out == b"RECORDS 0 PIECES 1\n" and held(room) == {"b.rec": (oct(0o100640), b"")}, (out, err, held(room)))


def outputs(lab):
    """A page that cannot be written whole, closed descriptors, folders that may not be written."""
    full, closed = b"standard output: No space left on device\n", b"standard output: Bad file descriptor\n"
    for redirection, error in (("> /dev/full", full), (">&-", closed), (">&- 2>&-", b""), ("<&- >&- 2>&-", b"")):
        for line in ("check b.rec", "ask b.rec PART 5 2", "why b.rec PART 5 2", "grid b.rec", "show b.rec", "help"):
            room = lab.room()
            (room / "b.rec").write_bytes(BOOK)
            before = held(room)
            out, err, _ = lab.shell(room, f'"$PBOOK" {line} {redirection}')
            lab.count(f"{line} {redirection}", out == b"" and err == error and held(room) == before, (out, err))
        for command, words in CHANGES:
            room = lab.room()
            (room / "b.rec").write_bytes(BOOK)
            out, err, _ = lab.shell(room, f'"$PBOOK" {command} {" ".join(words)} {redirection}')
            lab.count(f"{command} {redirection}", out == b"" and err == error and held(room) == {"b.rec": (oct(0o100644), NEXT[command])}, (out, err, held(room)))
        room = lab.room()
        out, err, _ = lab.shell(room, f'"$PBOOK" new b.rec {redirection}')
        lab.count(f"new {redirection}", out == b"" and err == error and held(room) == {"b.rec": (oct(0o100644), b"")}, (out, err, held(room)))
    room = lab.room()
    (room / "b.rec").write_bytes(BOOK)
    out, err, _ = lab.shell(room, '{ sleep 0.3; "$PBOOK" show b.rec; } | :')
    lab.count("a pipe that nobody reads", out == b"" and err == b"standard output: Broken pipe\n", (out, err))
    for line, error in (("ask b.rec <&-", "standard input: Bad file descriptor"), ("replicates b.rec <&-", "standard input: Bad file descriptor"), ("compare b.rec b.rec <&-", "standard input: Bad file descriptor"), ("ask b.rec < .", "standard input: Is a directory")):
        out, err, _ = lab.shell(room, f'"$PBOOK" {line}')
        lab.count(line, out == b"" and err.decode() == error + "\n", (out, err))
    for closed_first in ("<&-", "2>&-", ">&-", "<&- 2>&-", "<&- >&- 2>&-"):
        for command, words in CHANGES:
            room = lab.room()
            (room / "b.rec").write_bytes(TEXTS["7"] if command == "add" else BAD["14"])
            (room / "b.rec.note").write_bytes(b"x")
            before = held(room)
            lab.shell(room, f'"$PBOOK" {command} {" ".join(words)} {closed_first}')
            after = held(room)
            good = after == before if command != "withdraw" else set(after) == set(before)
            lab.count(f"{command} of a bad book {closed_first}", good, after)
    if os.getuid() == 0:
        closed_folders(lab)
    for command, words in CHANGES:
        room = lab.room()
        (room / "b.rec").write_bytes(BOOK)
        told(lab, f"{command}: files of 20 bytes", "", "b.rec.lock: File too large\n", room, command, *words, prepare=small_files)


def closed_folders(lab):
    """As nobody: a folder that may not be written, a book that may not be read, another's book in a sticky folder."""
    for command, words in CHANGES:
        room = lab.room()
        (room / "b.rec").write_bytes(BOOK)
        room.chmod(0o555)
        told(lab, f"{command} in a folder that may not be written", "", "b.rec.lock: Permission denied\n", room, command, *words, prepare=nobody)
        told(lab, "new in such a folder", "", "n.rec: Permission denied\n", room, "new", "n.rec", prepare=nobody)
        lab.page("check in such a folder", ref.check(BOOK), room, "check", "b.rec", prepare=nobody)
        room.chmod(0o777)
        (room / "b.rec").chmod(0)
        told(lab, f"{command} of a book that may not be read", "", "b.rec: Permission denied\n", room, command, *words, prepare=nobody)
        (room / "b.rec").chmod(0o644)
        room.chmod(0o1777)
        told(lab, f"{command} in a sticky folder", "", "b.rec: Operation not permitted\n", room, command, *words, prepare=nobody)
        room.chmod(0o755)


def at_once(lab, count):
    """Three at a time add records of their own, and try again where they find the lock: each record stands once, and each count is told once."""
    room = lab.room()
    lab.run(room, "new", "b.rec")
    pages, odd = [[], [], []], []

    def worker(who):
        for i in range(count):
            while True:
                out, err, rc = lab.run(room, "add", "b.rec", "MEETS", who + 1, i + 10)
                if out:
                    pages[who].append(out)
                    break
                if rc != 0 or err != b"b.rec.lock: File exists\nremove b.rec.lock where no other pbook runs\n":
                    odd.append((out, err, rc))
                    if len(odd) > 20:
                        return

    threads = [threading.Thread(target=worker, args=(who,)) for who in range(3)]
    for thread in threads:
        thread.start()
    for thread in threads:
        thread.join()
    records = ref.unpacked((room / "b.rec").read_bytes())
    numbers = sorted(int(page.split()[1]) for own in pages for page in own)
    lab.count("additions at once: none lost, none twice", sorted(records) == [(MEETS, 0, who, i) for who in (1, 2, 3) for i in range(10, 10 + count)], len(records))
    lab.count("additions at once: each count once", numbers == list(range(1, 3 * count + 1)), numbers[:20])
    lab.count("additions at once: nothing else told", not odd, odd[:3])
    lab.count("additions at once: no lock left", [p.name for p in room.iterdir()] == ["b.rec"])


def tracer(lab):
    program = lab.folder / "tracer"
    subprocess.run([os.environ.get("CC", "cc"), "-O1", "-o", program, HERE / "tracer.c"], check=True)
    return str(program)


def killed(lab, trace):
    """Ended before each of its system calls in turn: the book is the old or the new one, whole; a lock that stays is told, and once it is removed the change can be made."""
    for command, words in CHANGES[:2]:
        old, new, locks, call = 0, 0, 0, 0
        while True:
            call += 1
            room = lab.room()
            (room / "b.rec").write_bytes(BOOK)
            out, err, status = lab.run(room, "kill", call, lab.binary, command, *words, command=trace)
            if status == 99:
                break
            after = held(room)
            book, lock = after.pop("b.rec"), after.pop("b.rec.lock", None)
            whole = book in ((oct(0o100644), BOOK), (oct(0o100644), NEXT[command]))
            lab.count(f"{command} ended at call {call}", status == 137 and whole and not after and (not out or book[1] == NEXT[command]), (out, err, status, book, after))
            old, new, locks = old + (book[1] == BOOK), new + (book[1] == NEXT[command]), locks + (lock is not None)
            if lock is not None:
                told(lab, f"the lock of call {call}", "", "b.rec.lock: File exists\nremove b.rec.lock where no other pbook runs\n", room, command, *words)
                (room / "b.rec.lock").unlink()
            (room / "b.rec").write_bytes(BOOK)
            out, _, _ = lab.run(room, command, *words)
            lab.count(f"{command} again after call {call}", out.startswith(b"RECORDS") and held(room) == {"b.rec": (oct(0o100644), NEXT[command])}, out)
        lab.count(f"{command}: ended before the change, behind it, and with the lock made", old > 5 and new > 1 and locks > 4, (old, new, locks))


def failing(lab, trace):
    """Each system call in turn fails: what matters is told, the book is the old one then, and no lock is left."""
    names = {0: "read", 1: "write", 2: "open", 3: "close", 4: "stat", 74: "fsync", 82: "rename", 87: "unlink", 89: "readlink", 91: "fchmod", 257: "openat", 262: "newfstatat", 332: "statx"}
    for command, words in (*CHANGES, ("new", ["n.rec"])):
        room = lab.room()
        (room / "b.rec").write_bytes(BOOK)
        run = subprocess.run(["sh", "-c", 'exec "$@" 3> calls', "sh", trace, "list", lab.binary, command, *words], cwd=room, capture_output=True, check=False)
        calls = [int(line) for line in (room / "calls").read_text().split()]
        # from the first file that the program itself opens: behind the calls of the loader and of std's start, the last of which (13, rt_sigaction) has the system tell a closed pipe
        first = next(i for i in range(len(calls) - 1, -1, -1) if calls[i] in (9, 11, 12, 13, 158, 218, 273, 302, 318, 334)) + 1
        mine = [names.get(call, str(call)) for call in calls[first:]]
        wanted = ["openat", "fsync", "close", "write"] if command == "new" else ["openat", "read", "write", "fchmod", "fsync", "rename"]
        lab.count(f"{command}: its calls are seen", run.returncode == 0 and all(name in mine for name in wanted), (run, mine))
        for call in range(first + 1, len(calls) + 1):
            for error, said in ((5, "Input/output error"), (28, "No space left on device")):
                room = lab.room()
                (room / "b.rec").write_bytes(BOOK)
                before = held(room)
                out, err, status = lab.run(room, "fail", call, error, lab.binary, command, *words, command=trace)
                after = held(room)
                name = names.get(calls[call - 1], str(calls[call - 1]))
                done = {"b.rec": (oct(0o100644), NEXT.get(command, BOOK))} | ({"n.rec": (oct(0o100644), b"")} if command == "new" else {})
                page = b"RECORDS" in out
                if name in ("close", "231"):
                    good = after == done and page and err == b""
                elif name == "write" and after == done and command != "pack" and command != "convert" and after != before:
                    good = not out and err.decode() == f"standard output: {said}\n"
                else:
                    good = not page and after in (before, done) and said in err.decode()
                    if command in ("add", "withdraw", "new"):
                        good = good and after == before
                lab.count(f"{command}: {name}, call {call}, fails by {error}", good and status in (0, 139), (out, err, status, after))


def all_files(lab):
    plain(lab)
    modes(lab)
    outputs(lab)
    lab.group("files, modes, outputs")
    at_once(lab, 120)
    lab.group("additions at once")
    trace = tracer(lab)
    killed(lab, trace)
    failing(lab, trace)
    lab.group("ended and failing at every call")
