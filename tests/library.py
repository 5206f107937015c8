#!/usr/bin/env python3
"""Makes the static library crates/NAME/out/libNAME.a of what `rt ci` has just proved in this checkout.

    library.py NAME..     the crates, as crates.txt names them; says nothing where all is well

`rt ci` builds no static library, and `rt lib` does not take the libraries that it left in crates/*/out/: it would prove each of them anew. Here rattle proves the one
crate once more over those, and builds it.
"""
import subprocess
import sys

sys.dont_write_bytecode = True
from kit import CRATES, kit, words  # noqa: E402


def main():
    for name in sys.argv[1:]:
        archive = CRATES / name / "out" / f"lib{name}.a"
        archive.parent.mkdir(exist_ok=True)
        archive.unlink(missing_ok=True)
        build = [f"{kit()}/bin/rattle", "build", *words(name), "--jobs", "2", "--toolchain", f"{kit()}/toolchain", "--backend", "llvm", "-o", archive]
        made = subprocess.run(build, cwd=CRATES / name, stdin=subprocess.DEVNULL, stdout=subprocess.PIPE, stderr=subprocess.STDOUT, errors="replace", check=False)
        if made.returncode or "\nlogic=proved " not in made.stdout or not archive.is_file():
            print(made.stdout, end="")
            print(f"{name}: no static library was made")
            return 1
    return 0 if sys.argv[1:] else sys.exit(__doc__)


if __name__ == "__main__":
    sys.exit(main())
