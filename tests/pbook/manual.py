"""The manual: its list of commands is the one that the program prints, and each example is what the program does. Then `bin/pbook`, as the manual has it."""
import re
import shutil

import reference as ref
from pages import BAD, SESSION, TEXTS
from reference import ROOT, packed, shown

WRAPPER = str(ROOT / "bin" / "pbook")


def commands(lab):
    room = lab.room()
    text = ref.MANUAL.read_text()
    listed = text.split("```\npbook check BOOK")[1].split("```")[0]
    lines = "pbook check BOOK" + listed
    (room / "b.rec").write_bytes(packed(SESSION))
    for words in ([], ["help"], ["help", "x", "y"], ["x"], ["CHECK", "b.rec"], ["check"], ["check", "b.rec", "b.rec"], ["checks", "b.rec"], ["chec", "b.rec"], ["verify", "b.rec"], ["verify", "b.rec", "a", "b"], ["inside", "b.rec"], ["add", "b.rec"],
                  ["withdraw", "b.rec"], ["compare", "b.rec"], ["pack", "b.rec"], ["convert", "b.rec"], ["new"], ["new", "a", "b"], ["show", "b.rec", "1"], ["grid", "b.rec", "1"], ["replicates", "b.rec", "1"], ["pack", "b.rec", "a", "b"], [""], ["a" * 5000], ["check\n", "b.rec"]):
        lab.page(f"the list of commands for {words}", lines, room, *words)
    lab.count("no file was made", [p.name for p in room.iterdir()] == ["b.rec"])


def examples(lab):
    """`$ cat FILE` gives a file what stands below it; any other line is run, and prints what stands below it."""
    room = lab.room()
    path = lab.folder / "bin"
    path.mkdir()
    (path / "pbook").write_text(f'#!/bin/sh\nexec "{WRAPPER}" "$@"\n')
    (path / "pbook").chmod(0o755)
    seen = set()
    for block in re.findall(r"```console\n(.*?)```", ref.MANUAL.read_text(), re.DOTALL):
        for example in re.split(r"^\$ ", block, flags=re.MULTILINE)[1:]:
            line, expected = example.split("\n", 1)
            name = line.removeprefix("cat ")
            if line.startswith("cat ") and not (room / name).exists():
                (room / name).write_text(expected)
                continue
            out, err, status = lab.shell(room, f'PATH="{path}:$PATH"; {line}')
            lab.count(f"example: {line}", (out + err).decode() == expected, (out, err, status))
            seen.update(re.findall(r"pbook (\w+)", line))
    wanted = set(re.findall(r"^pbook (\w+)", ref.MANUAL.read_text(), re.MULTILINE)) - {"help"}
    lab.count("each command has an example", wanted and wanted <= seen, wanted - seen)


def wrapper(lab):
    room = lab.room()
    for name, data in (("good", packed(SESSION)), ("refused", BAD["14"]), ("unread", TEXTS["reason 1"]), ("empty", b""), ("text", shown(SESSION).encode())):
        (room / name).write_bytes(data)
    (room / "a b").write_bytes(packed(SESSION))
    cases = [(["check", "good"], 0), (["check", "refused"], 1), (["check", "unread"], 1), (["check", "none"], 2), (["show", "empty"], 0), (["help"], 0), ([], 0), (["x"], 0), (["compare", "good", "refused"], 1), (["compare", "good", "unread"], 1),
             (["ask", "good", "parts", "1", "2"], 1), (["ask", "good", "part", "5", "2"], 0), (["verify", "good", "empty"], 1), (["add", "text", "part", "1", "0"], 1), (["check", "a b"], 0), (["why", "refused"], 1), (["new", "good"], 2), (["grid", "good"], 0), (["inside", "good", "9"], 1)]
    for words, status in cases:
        out, err, rc = lab.run(room, *words, command=WRAPPER)
        plain_out, plain_err, _ = lab.run(room, *words)
        lab.count(f"bin/pbook {words}", rc == status and (out, err) == (plain_out, plain_err), (out, err, rc, plain_out))
    for given, page, status in ((b"PART 1 x\n", b"CLAIMS UNREAD", 1), (b"PART 1 2\n", b"PIECES 6", 0)):
        out, err, rc = lab.run(room, "ask", "good", given=given, command=WRAPPER)
        lab.count(f"bin/pbook ask with {given}", rc == status and out.startswith(page) and err == b"", (out, err, rc))
    for given, page, status in ((b"1\nx\n", b"LOG UNREAD", 1), (b"1\n", b"0 1 0 YES\n", 0)):
        out, err, rc = lab.run(room, "replicates", "good", given=given, command=WRAPPER)
        lab.count(f"bin/pbook replicates with {given}", rc == status and out.startswith(page) and err == b"", (out, err, rc))
    out, err, rc = lab.shell(room, f'"{WRAPPER}" check good > /dev/full')
    lab.count("bin/pbook to a full device", rc == 2 and err != b"", (err, rc))
    out, err, rc = lab.shell(room, f'"{WRAPPER}" check good >&-')
    lab.count("bin/pbook to a closed output", rc == 2, (err, rc))
    elsewhere = lab.room()
    shutil.copy(room / "good", elsewhere / "good")
    link = elsewhere / "pbook"
    link.symlink_to(WRAPPER)
    out, _, rc = lab.run(elsewhere, "check", "good", command=str(link))
    lab.count("bin/pbook by a link", rc == 0 and out.startswith(b"PIECES 6"), (out, rc))


def all_manual(lab):
    commands(lab)
    examples(lab)
    wrapper(lab)
    lab.group("the manual and bin/pbook")
