#!/usr/bin/env python3
"""Every wrong program of a must-fail edit is refused on its own.

A file crates/NAME/must-fail/*.edit holds wrong programs, one to a paragraph: a comment, then its `file:`, `old:` and `new:` lines.
rt applies the whole file and asks only that the crate is refused. Here the file is applied to a copy of the crate, and rattle checks the functions that its wrong
programs change: of each one the proof must be refused at a fact of its own, and not because something below it is not proved. What does not show so in the whole file is
tried alone. A goal has its name from a condition: where a wrong program changes that, the answers of the copy follow the name. Where the change
is outside a function, as in a table, a line `in: FUNCTION` names the function whose proof must be refused. Two wrong programs of
one function stand in one edit only if they break different facts: a line `at: FACT` of each names its own, a goal of the changed function by its name in the
prover's word; a goal that is proved clause by clause may be named without its clause. What docs/PROMISES.md names as a wrong program must stand in an edit.

    tests/edits.py [CRATE..]           over the libraries that rt ci left in crates/*/out/, or that rt check built there
    tests/edits.py --facts [CRATE..]   prints for each edit the functions and facts that are refused, and below them each wrong program with its functions and its fact
    tests/edits.py --stand             says whether each text stands where it is to be replaced; nothing is proved
    tests/edits.py --missing           names the public functions that other crates call and that have fewer than two wrong programs
"""

import concurrent.futures
import os
import pathlib
import re
import shutil
import subprocess
import sys
import tempfile

sys.dont_write_bytecode = True
from kit import CRATES, ROOT, kit, listed, words  # noqa: E402

# what antt says of a declaration that only rests on a refused one
RESTING = "was not admitted"
# and where a changed program asks for other facts than its proof has: its shape is not kept, and nothing is said of its meaning
MISFIT = re.compile(r"needs a function \(or path\) type to bind|has no `|has no field|is not in scope|can be named from here")
# KiB of memory that a check takes
MEMORY = 2_500_000


def functions(source):
    """The name, start and end of each function of a source text; a method has the name of its impl before it, as rattle has it."""
    found = []
    impls = [
        ("".join(re.findall(r"\w+", (match[2] or "") + (match[1] or ""))), match.end(), match.end() + re.search(r"^}\n", source[match.end() :], re.M).end())
        for match in re.finditer(r"^impl(?:<[^{]*?>)? (?:([\w<>, ]+) for )?(\w+)[^{]*{\n", source, re.M)
    ]
    for match in re.finditer(r"^( *)(?:pub )?(?:const )?(?:extern \"C\" )?fn (\w+)", source, re.M):
        end = re.search(rf"^{match[1]}}}\n", source[match.start() :], re.M)
        owner = next((name for name, start, stop in impls if start <= match.start() < stop), None)
        if owner or not match[1]:
            found.append((f"{owner}::{match[2]}" if owner else match[2], match.start(), match.start() + end.end()))
    return found


def module(file):
    """The modules of a source file: none for the root."""
    parts = list(pathlib.PurePath(file).with_suffix("").parts[1:])
    return [] if parts in (["lib"], ["main"]) else parts


class Program:
    """A wrong program: its title, the functions that must be refused, as paths of modules and a name, and the fact, if one is named."""

    def __init__(self, crate, paragraph):
        lines = paragraph.split("\n")
        self.title = next((line[1:].strip() for line in lines if line.startswith("#")), "")
        self.fact = next((line[4:].strip() for line in lines if line.startswith("at: ")), "")
        self.targets = []
        self.definitions = False
        named = [line[4:].strip() for line in lines if line.startswith("in: ")]
        if named:
            self.targets = [tuple(name.split("::")) for name in named]
            return
        file = None
        for line in lines:
            if line.startswith("file: "):
                file = line[6:]
            elif line.startswith("old: "):
                self.locate(crate, file, line[5:])

    def locate(self, crate, file, old):
        if file.startswith("specs/"):
            self.definitions = True
            return
        source = (CRATES / crate / file).read_text()
        at = source.find(old)
        hit = [name for name, start, end in functions(source) if start <= at < end]
        self.targets += [tuple(module(file) + name.split("::")) for name in hit]


def applied(crate, edit):
    """The texts that the lines of an edit make, by their files, and the texts that do not stand once where they are to be replaced."""
    texts, lost, file, old = {}, [], None, ""
    for line in edit.split("\n"):
        if line.startswith("file: "):
            file = line[6:].strip()
        elif line.startswith("old: "):
            old = line[5:]
        elif line.startswith("new:"):
            text = texts.get(file) or (CRATES / crate / file).read_text()
            if text.count(old) != 1:
                lost.append(old)
            texts[file] = text.replace(old, line[4:].removeprefix(" "))
    return texts, lost


def cycle(crate, name):
    """The functions that are proved together under a name; a function alone has its own."""
    found = []
    for source in (CRATES / crate / "src").glob("**/*.rt"):
        found += re.findall(rf"#\[cycle\({name}\)\](?:\s|#\[[^\]]*\])*(?:pub )?fn (\w+)", source.read_text())
    return found or [name]


def own_errors(crate, log):
    """The functions, as paths, whose own proofs are refused, and at which facts."""
    found = {}

    def refuse(folder, fact=None):
        *path, name = folder.split("/")
        for one in cycle(crate, name[1:]) if name.startswith("+") else [name]:
            found.setdefault(tuple(path + [one]), set()).update([fact] if fact else [])

    # an error goes on over lines that name no file
    for text in re.split(r"\n(?=\S+\.antt:\d+|fn |note: |help: |\w+ \w+::|logic|only)", log):
        error = re.match(r"(?:\./)?proofs/(\S+)/(?:Answers|Invariants|Proof)\.antt:\d+:\d+: error: (?:`(\S+?)`: )?(.*)", text, re.S)
        if error and RESTING not in error[3] and not MISFIT.search(error[3]):
            refuse(error[1], error[2])
        # where the function's files have no answer, and what rattle tries for one finds none
        left = re.match(r"note: `(\S+?)` of (?:\./)?proofs/(\S+)/(?:Answers|Invariants)\.antt must prove", text)
        if left:
            refuse(left[2], left[1])
        none = re.match(r"fn \w+::(\S+): no proof: (?:.* in (?:\./)?proofs/(\S+)/\w+\.antt; )?.*?`search` did not prove ((?:`[^`]+`(?:, | and )?)+)", text)
        if none:
            for fact in re.findall(r"`([^`]+)`", none[3]):
                refuse(none[2] or none[1].replace("::", "/"), fact)
    return found


def checked(crate, texts, targets, kept, more=()):
    """What rattle says of the functions, or of the whole crate where none is named, with these texts in the place of the crate's: the status and the log."""
    only = [word for target in sorted(targets) for word in ("--only", "::".join(target))]
    with tempfile.TemporaryDirectory(prefix="edit-") as name:
        room = pathlib.Path(name)
        for part in ("src", "specs", "proofs"):
            if (CRATES / crate / part).is_dir():
                shutil.copytree(CRATES / crate / part, room / part)
        for file, text in texts.items():
            (room / file).parent.mkdir(parents=True, exist_ok=True)
            (room / file).write_text(text)
        check = [f"{kit()}/bin/rattle", "check", *words(crate), "--incremental", kept, *only, *more]
        ran = subprocess.run(check, cwd=room, stdin=subprocess.DEVNULL, stdout=subprocess.PIPE, stderr=subprocess.STDOUT, errors="replace", check=False)
    return ran.returncode, ran.stdout


def answers(crate, target):
    """The files of a function's answers and invariants."""
    folder = CRATES / crate / "proofs" / pathlib.Path(*target)
    return [path for path in (folder / "Answers.antt", folder / "Invariants.antt") if path.is_file()]


def asked(crate, texts, targets, kept):
    """For each function its goals with these texts, in their order."""
    with tempfile.TemporaryDirectory(prefix="goals-") as name:
        checked(crate, texts, [], kept, ["--generated", name, *(word for target in targets for word in ("--start", "::".join(target)))])
        files = {target: pathlib.Path(name, f"Rattle-{crate}-proofs", *target, "AnswersOffered.antt") for target in targets}
        return {target: re.findall(r"^pub (\S+) :", file.read_text(), re.M) if file.is_file() else [] for target, file in files.items()}


def fitted(crate, texts, targets, kept, calls=False):
    """The texts of the functions' answers in which each goal that is named by a changed condition has its new name, by their files; a function whose goals are others has none.

    With `calls` what is called in the condition's branches has its new name too.
    """
    targets = [target for target in targets if answers(crate, target)]
    was, now = (asked(crate, these, targets, kept) if targets else {} for these in ({}, texts))
    found = {}
    for target in targets:
        ends = {}
        names = {old: new for old, new in zip(was[target], now[target]) if old != new and len(was[target]) == len(now[target])}
        for old, new in list(names.items()):
            branches = [re.search(r"-(?:then|else)-(.*)", name) for name in (old, new)]
            if all(branches):
                names["if-" + branches[0][1]] = "if-" + branches[1][1]
                ends[branches[0][1]] = branches[1][1]
        word = re.compile(r"(?<![\w-])(?:" + "|".join(map(re.escape, sorted(names, key=len, reverse=True))) + r")(?![\w-])")
        for path in answers(crate, target) if names else ():
            text = word.sub(lambda name: names[name[0]], path.read_text())
            for end, new in ends.items() if calls else ():
                text = re.sub(rf"-(then|else)-{re.escape(end)}(?![\w-])", lambda branch, new=new: f"-{branch[1]}-{new}", text)
            found[path.relative_to(CRATES / crate).as_posix()] = text
    return found


def is_at(fact, facts):
    """Whether a fact, or one clause of it, is among these."""
    return any(other == fact or other.startswith(f"{fact}-clause-") for other in facts)


def reason_of(program, refused):
    """Why a wrong program does not count as refused; nothing where it does."""
    names = " or ".join("::".join(target) for target in program.targets)
    if not any(target in refused for target in program.targets):
        return f"no fact of {names} is refused"
    facts = {fact for target in program.targets for fact in refused.get(target, ())}
    if program.fact and not is_at(program.fact, facts):
        return f"{program.fact} is not refused, but {', '.join(sorted(facts))}"
    return ""


def judged(crate, edit, kept):
    """What each wrong program of an edit comes to: pairs of its title and a reason, which is empty where it is refused; and the refused functions and facts."""
    whole = edit.read_text()
    texts, lost = applied(crate, whole)
    if lost:
        return [(old, "the text to be replaced does not stand there once") for old in lost], {}
    paragraphs = whole.strip().split("\n\n")
    programs = [Program(crate, text) for text in paragraphs]
    definitions = any(program.definitions for program in programs)
    status, log = checked(crate, texts, [] if definitions else {target for program in programs for target in program.targets}, kept)
    # the last line of a check that came to its end
    last = log.strip().rsplit("\n", 1)[-1]
    if status != 1 or not last.startswith(("only=", "logic=not-proved")):
        return [(program.title, f"the check has status {status} and ends in {last[:200]!r}") for program in programs], {}
    refused = own_errors(crate, log)
    fit = {}

    def again(these, targets):
        """Checks the functions once more, their answers under the new names of their goals."""
        new = own_errors(crate, checked(crate, {**these, **fit}, targets, kept)[1])
        refused.update({target: refused.get(target, set()) | new[target] for target in targets if target in new})

    for calls in (False, True):
        left = sorted({target for program in programs for target in program.targets if reason_of(program, refused)})
        fit = fitted(crate, texts, left, kept, calls) if left else {}
        if fit:
            again(texts, left)
    results = []
    for text, program in zip(paragraphs, programs):
        if not program.title:
            reason = "it has no title"
        elif program.definitions:
            reason = "" if len(programs) == 1 and last.startswith("logic=not-proved") else "a changed definition stands alone, and is refused"
        elif not program.targets:
            reason = "it changes no function, and names none"
        else:
            if reason_of(program, refused) and len(programs) > 1:
                # in the whole edit what it calls is refused, and search then waits
                again(applied(crate, text)[0], program.targets)
            reason = reason_of(program, refused)
        results.append((program.title, reason))
    for target in {target for program in programs for target in program.targets}:
        facts = [program.fact for program in programs if target in program.targets]
        if len(facts) > 1 and ("" in facts or len(set(facts)) < len(facts)):
            results.append(("::".join(target), "two wrong programs of it in one edit name no facts of their own"))
    return results, refused


def cited():
    """What docs/PROMISES.md names as a wrong program or an edit: pairs of the name and a reason, which is empty where there is one."""
    promises = (ROOT / "docs" / "PROMISES.md").read_text()
    edits = sorted(CRATES.glob("*/must-fail/*.edit"))
    titles = {line[1:].strip() for edit in edits for line in edit.read_text().split("\n") if line.startswith("#")}
    for names in re.findall(r'wrong programs? ((?:"[^"]+"(?:, | and )?)+)', promises):
        for title in re.findall(r'"([^"]+)"', names):
            yield title, "" if title in titles else "docs/PROMISES.md names it, and no edit has it"
    for name in re.findall(r"must-fail edit `(\w+)`", promises):
        yield name, "" if name in {edit.stem for edit in edits} else "docs/PROMISES.md names it, and there is no such edit"


def missing():
    """Public functions that other crates call, with fewer than two wrong programs."""
    texts = {path: path.read_text() for path in CRATES.glob("*/src/**/*.rt")}
    for crate in sorted(path.name for path in CRATES.iterdir()):
        edited = []
        for edit in (CRATES / crate / "must-fail").glob("*.edit"):
            for text in edit.read_text().strip().split("\n\n"):
                edited += set(Program(crate, text).targets)
        for path, source in sorted(texts.items()):
            if path.parts[len(CRATES.parts)] != crate:
                continue
            names = module(path.relative_to(CRATES / crate).as_posix())
            for match in re.finditer(r"^pub (extern \"C\" )?fn (\w+)", source, re.M):
                called = re.compile(r"\b" + crate + r"::(\w+::)*" + match[2] + r"\b")
                outside = match[1] or any(called.search(text) for other, text in texts.items() if other.parts[len(CRATES.parts)] != crate)
                count = edited.count(tuple(names + [match[2]]))
                if outside and count < 2:
                    print(f"{crate}::{'::'.join(names + [match[2]])}: {count}")


def stand(edits):
    """Whether each text that an edit replaces stands once."""
    passed = failed = 0
    for crate, edit in edits:
        lost = applied(crate, edit.read_text())[1]
        for old in lost:
            print(f"{crate}/{edit.stem}: {old}")
        passed, failed = passed + edit.read_text().count("\nold: ") - len(lost), failed + len(lost)
    print(f"{passed} passed, {failed} failed")
    return 1 if failed or not passed else 0


def facts(crate, edit, refused):
    """Prints the refused functions and facts of an edit, and its wrong programs."""
    print(f"== {crate}/{edit.stem}")
    for target, names in sorted(refused.items()):
        print(f"{'::'.join(target)}: {' '.join(sorted(names))}")
    for text in edit.read_text().strip().split("\n\n"):
        program = Program(crate, text)
        print(f"   {program.title}: {' '.join('::'.join(target) for target in program.targets) or 'a definition'}" + (f" at {program.fact}" if program.fact else ""))


def tried(crate, edits):
    """What a crate's edits come to, one after the other: what the check of one proves serves the next."""
    with tempfile.TemporaryDirectory(prefix="edits-") as kept:
        return [(edit, *judged(crate, edit, kept)) for edit in edits]


def main():
    flags = [word for word in sys.argv[1:] if word.startswith("-")]
    names = [word for word in sys.argv[1:] if not word.startswith("-")]
    if set(flags) - {"--facts", "--stand", "--missing"} or set(names) - set(listed()):
        sys.exit(__doc__)
    if "--missing" in flags:
        missing()
        return 0
    edits = [(edit.parts[len(CRATES.parts)], edit) for edit in sorted(CRATES.glob("*/must-fail/*.edit"))]
    if "--stand" in flags:
        return stand(edits)
    crates = {crate: [edit for other, edit in edits if other == crate] for crate in sorted({crate for crate, _ in edits}) if not names or crate in names}
    for crate in crates:
        words(crate)
    # the longest first
    size = {crate: len(crates[crate]) * sum(path.stat().st_size for path in (CRATES / crate).glob("proofs/**/*.antt")) for crate in crates}
    room = int(re.search(r"MemAvailable: *(\d+)", pathlib.Path("/proc/meminfo").read_text())[1]) // MEMORY
    passed = failed = 0
    with concurrent.futures.ThreadPoolExecutor(max(min(len(os.sched_getaffinity(0)), room), 1)) as pool:
        runs = {pool.submit(tried, crate, crates[crate]): crate for crate in sorted(crates, key=lambda crate: -size[crate])}
        for run in concurrent.futures.as_completed(runs):
            crate = runs[run]
            for edit, results, refused in run.result():
                if "--facts" in flags:
                    facts(crate, edit, refused)
                for title, reason in results:
                    if reason:
                        print(f"{crate}/{edit.stem}: {title}: {reason}", flush=True)
                    passed, failed = passed + (not reason), failed + bool(reason)
    for name, reason in [] if names else cited():
        if reason:
            print(f"{name}: {reason}")
        passed, failed = passed + (not reason), failed + bool(reason)
    print(f"{passed} passed, {failed} failed")
    return 1 if failed or not passed else 0


if __name__ == "__main__":
    sys.exit(main())
