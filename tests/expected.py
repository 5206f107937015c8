#!/usr/bin/env python3
"""What the gate's programs must print, worked out from the documents and not from the programs.

    expected.py CRATE     print what the program CRATE must write
    expected.py --check   compare each stored crates/CRATE/stdout with what tests/runs/CRATE.py says;
                          the last line is 'N passed, M failed'
"""
import importlib.util
import pathlib
import sys

TESTS = pathlib.Path(__file__).resolve().parent
RUNS = TESTS / "runs"
CRATES = TESTS.parent / "crates"


def text(crate):
    sys.dont_write_bytecode = True
    sys.path.insert(0, str(RUNS))
    spec = importlib.util.spec_from_file_location(crate, RUNS / f"{crate}.py")
    module = importlib.util.module_from_spec(spec)
    spec.loader.exec_module(module)
    return "".join(line + "\n" for line in module.lines())


def check():
    passed = failed = 0
    for stored in sorted(CRATES.glob("*/stdout")):
        crate = stored.parent.name
        script = RUNS / f"{crate}.py"
        good = script.exists() and stored.read_text() == text(crate)
        print(f"{'ok  ' if good else 'FAIL'} {crate}: stored output is the script's" + ("" if script.exists() else " (no script)"))
        passed, failed = passed + good, failed + (not good)
    print(f"{passed} passed, {failed} failed")
    return 0 if failed == 0 else 1


if __name__ == "__main__":
    if len(sys.argv) != 2:
        sys.exit(__doc__)
    if sys.argv[1] == "--check":
        sys.exit(check())
    sys.stdout.write(text(sys.argv[1]))
