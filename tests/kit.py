"""The crates of this repository, and the words by which rattle checks and builds one over the libraries that `rt` left in crates/*/out/."""
import os
import pathlib
import shutil
import sys

ROOT = pathlib.Path(__file__).resolve().parent.parent
CRATES = ROOT / "crates"


def kit():
    """The folder of the toolchain."""
    rt = shutil.which("rt")
    return pathlib.Path(os.path.realpath(rt)).parent.parent if rt else sys.exit("missing tool: rt")


def listed():
    """For each crate of crates.txt: whether it is a static library, and the libraries that it names."""
    found = {}
    for line in (ROOT / "crates.txt").read_text().splitlines():
        head, colon, libraries = line.partition("#")[0].partition(":")
        if colon:
            name, *marks = head.split()
            found[name] = "staticlib" in marks, libraries.split()
    return found


def below(name, crates):
    """The repository's libraries below a crate."""
    found = {}
    for library in crates[name][1]:
        if library in crates:
            found.update(dict.fromkeys([*below(library, crates), library]))
    return list(found)


def words(name):
    """The words after `rattle check` or `rattle build`, where the current folder has the crate's src/, specs/ and proofs/."""
    crates = listed()
    static, libraries = crates[name]
    at = {library: CRATES / library / "out" / "rlib" / f"{library}.rlib" for library in below(name, crates)}
    for library, rlib in at.items():
        if not (rlib / "format").is_file():
            sys.exit(f"crates/{library}/out/ has no library for {name}: run rt ci, or rt check in crates/{name}")
    found = ["--crate-name", name, "src/main.rt" if (CRATES / name / "src" / "main.rt").is_file() else "src/lib.rt"]
    for library in dict.fromkeys(["std", *libraries]):
        found += ["--extern", f"{library}={at.get(library, kit() / 'rlibs' / f'{library}.rlib')}"]
    for folder in [kit() / "rlibs", *(rlib.parent for rlib in at.values())]:
        found += ["-L", f"dependency={folder}"]
    found += ["--antt-project", f"{kit()}/rattle/logic/antt-project.json", "--logic-built", f"{kit()}/logic_built", "--links", f"{name}="]
    return found + ["--crate-type", "staticlib"] * static
