#!/usr/bin/env python3
"""Runs `pbook` as its users do, and holds every byte that it prints and writes against a reference written from documents 01 to 03.

    run.py [BINARY]     crates/pbook/out/pbook where none is given; the last line is 'N passed, M failed'

It wants a C compiler for the tracer, which ends the program, or has a system call fail, at each call in turn; as root it tries what nobody may do, too.
"""
import os
import pathlib
import sys

sys.dont_write_bytecode = True
HERE = pathlib.Path(__file__).resolve().parent
sys.path.insert(0, str(HERE))
from deep import all_deep  # noqa: E402
from files import all_files  # noqa: E402
from lab import Lab  # noqa: E402
from manual import all_manual  # noqa: E402
from pages import all_pages  # noqa: E402
from reference import table  # noqa: E402


def every_line(lab):
    """Each refusal and each reason of the manual was printed, each prefix with some."""
    for number, sentence in table("| number |").items():
        lab.count(f"number {number} was printed", f"REFUSED {number} {sentence}" in lab.lines)
    for reason, sentence in table("| reason |").items():
        lab.count(f"reason {reason} was printed", any(line.endswith(f"UNREAD {sentence}") for line in lab.lines))
    for prefix in ("REFUSED ", "UNREAD ", "SECOND REFUSED ", "SECOND UNREAD ", "CLAIMS UNREAD ", "LOG UNREAD ", "WORDS UNREAD "):
        lab.count(f"{prefix}was printed", any(line.startswith(prefix) for line in lab.lines))


def main():
    os.umask(0o022)
    binary = sys.argv[1] if len(sys.argv) > 1 else HERE.parent.parent / "crates" / "pbook" / "out" / "pbook"
    os.environ["PBOOK"] = str(pathlib.Path(binary).resolve())
    lab = Lab(os.environ["PBOOK"])
    try:
        for part in (all_manual, all_pages, all_files, all_deep):
            part(lab)
        every_line(lab)
    finally:
        lab.close()
    print(f"{lab.passed} passed, {lab.failed} failed")
    return 0 if lab.failed == 0 else 1


if __name__ == "__main__":
    sys.exit(main())
