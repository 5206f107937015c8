#!/usr/bin/env python3
"""The files of definitions that a reader must believe, as docs/DESIGN.md lists them, against those that the public contracts and theorems rest on.

Read are the contracts of the functions that include/*.h declares and of those that a program calls; the theorems, every `abbrev pub NAME : Type 0` of a
`specs/` folder; and what docs/PROMISES.md cites as `CRATE` `FILE.NAME`. From each file of `specs/` that one of them names, the `use` lines lead to others;
modules that the toolchain declares are no files. A file that is reached and not listed is missing, one that is listed and not reached is listed in vain.
The last line is 'N passed, M failed'.
"""
import pathlib
import re
import sys

ROOT = pathlib.Path(__file__).resolve().parent.parent
CRATES = ROOT / "crates"
SECTION = "## What a reader must believe"
# `use Rattle.CRATE.specs.FILE.{a, b}`, `.. as name`, which may go on over lines; a file is named so in its own crate too
USE = re.compile(r"^\s*(?:ghost )?(?:(?:pub|unfoldable) )*use Rattle\.(\w+)\.specs\.([^\s{;]+?)(?:\.\{([^}]*)\}|\s+as\s+(\S+?))?;?\s*$", re.M)


def uses(text):
    """For each `use` line: the file of definitions that it names, and the names that it brings; None for a module that is declared."""
    for crate, path, items, alias in USE.findall(text):
        parts = path.split(".")
        if "declared" in parts or not (CRATES / crate).is_dir():
            continue
        names = [i.split(" as ")[-1].strip() for i in items.split(",")] if items else [alias or parts[-1]]
        yield pathlib.Path(crate, "specs", *parts[:-1], parts[-1] + ".antt"), names


def contract(text, function):
    """What stands between the head of a function and its body, which begins by a `{` alone, or at the end of a line that begins no clause."""
    head = re.search(rf"^pub (?:extern \"C\" )?fn {function}[(<]", text, re.M)
    rest = text[head.start() :] if head else ""
    body = re.search(r"^\{|^(?! *(?:requires|ensures|ghost)\b).*\{$", rest, re.M)
    return rest[: body.start() if body and body[0] == "{" else body.end()] if body else ""


def public():
    """The source files and functions that include/*.h declares or a program calls."""
    declared = set()
    for header in (ROOT / "include").glob("*.h"):
        declared |= set(re.findall(r"\b(\w+)\(", header.read_text()))
    for source in sorted(CRATES.glob("*/src/**/*.rt")):
        text = source.read_text()
        for name in re.findall(r"^pub extern \"C\" fn (\w+)\(", text, re.M):
            # the exported function may have a longer name than the call that the header makes of it
            if any(name == d or name.startswith(d + "_") for d in declared):
                yield source, text, name
    for program in sorted(CRATES.glob("*/src/main.rt")):
        own = program.parent.parent.name
        calls = {c for f in program.parent.glob("**/*.rt") for c in re.findall(r"\b(\w+)::(?:\w+::)?(\w+)\(", f.read_text())}
        for crate, name in sorted(calls):
            # a crate passes on what its modules have
            for source in sorted((CRATES / crate / "src").glob("**/*.rt")) if crate != own else ():
                if contract(source.read_text(), name):
                    yield source, source.read_text(), name


def roots():
    for source, text, name in public():
        words = set(re.findall(r"[^\s(){}.,⌜⌝]+", contract(text, name)))
        for path, names in uses(text):
            if words & set(names):
                yield path
    for spec in sorted(CRATES.glob("*/specs/**/*.antt")):
        if re.search(r"^abbrev pub [^\s(]+ : Type 0$", spec.read_text(), re.M):
            yield spec.relative_to(CRATES)
    for crate, name in re.findall(r"`(\w+)` `(\w+)\.", (ROOT / "docs" / "PROMISES.md").read_text()):
        if (CRATES / crate / "specs" / f"{name}.antt").is_file():
            yield pathlib.Path(crate, "specs", f"{name}.antt")


def reached():
    found = set()
    waiting = sorted(set(roots()))
    while waiting:
        path = waiting.pop()
        if path in found:
            continue
        found.add(path)
        if (CRATES / path).is_file():
            waiting += [p for p, _ in uses((CRATES / path).read_text())]
    return found


def listed():
    """The files of the table's first column; one without a folder stands in that of the file before it."""
    text = (ROOT / "docs" / "DESIGN.md").read_text()
    section = text[text.index(SECTION) + len(SECTION):].split("\n## ")[0]
    files = {}
    for row in re.findall(r"^\|([^|]*)\|", section, re.M):
        folder = None
        for token in re.findall(r"`([^`]*\.antt)`", row):
            path = pathlib.Path(token)
            folder = path.parent if "specs" in path.parts else folder
            path = (folder or pathlib.Path()) / path.name
            if path.name == "*.antt":
                files.update({p.relative_to(CRATES): True for p in (CRATES / folder).glob("*.antt")})
            else:
                files[path] = False
    return files


def main():
    must, table = reached(), listed()
    missing = sorted(p for p in must if p not in table)
    nowhere = sorted(p for p in must | set(table) if not (CRATES / p).is_file())
    vain = sorted(p for p, whole in table.items() if p not in must and not whole and p not in nowhere)
    for what, paths in ("missing in the table", missing), ("no such file", nowhere), ("listed in vain", vain):
        for path in paths:
            print(f"{what}: {path}")
    failed = len(missing) + len(nowhere) + len(vain)
    print(f"{len(must & set(table))} passed, {failed} failed")
    return failed > 0 or not must


if __name__ == "__main__":
    sys.exit(main())
