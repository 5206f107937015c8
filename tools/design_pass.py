#!/usr/bin/env python3
"""Counts in crates/*/src, and the answers in crates/*/proofs, what docs/DESIGN-PASS.md speaks of: a line for each point, and with --places every place.

    tools/design_pass.py [ROOT] [--places]
"""

import pathlib
import re
import sys

POINTS = {
    "1 own enums": r"^(?:pub )?enum \w+",
    "1 a flag beside a value": r"^    pub (?:found|failed|changed|some): bool",
    "1 a number for a kind, a rule, a reason or an answer": r"^\s*(?:pub )?(?:kind|rule|reason|whom|answer|agreement|k): (?:u8|usize),?$|[(,]\s*(?:kind|rule|reason|whom|answer|agreement|k): (?:u8|usize)\b",
    "1 a refusal and its place side by side": r"(?:Refused|refuse|put_refused\w*)\([^)]*refusal, place|refusal: Refusal,\n\s*place: usize|refusal: Refusal, place: usize",
    "3 loops by while or loop": r"^\s*(?:'\w+: )?(?:while\b.*|loop) \{$",
    "3 an index counted up or down by hand": r"^\s+\w+ [+-]= 1;$",
    "4 casts": r"(?<!use )\b\w+[\])]? as (?:usize|u64|u32|u16|u8|i8)\b",
    "4 conversions by hand": r"(?:numbers::(?:wide|low|smaller_of|larger_of|clear)|shorts::(?:wide|narrow|fill)|byte_of|refusal_number|reason_number)\(",
    "4 tests as returns of a bool": r"^\s+return (?:true|false);$",
    "5 IsMatrix asked for": r"^\s+requires.*IsMatrix",
    "5 the length of the marks asked for": r"^\s+requires.*length voids\.(?:now|old) ≡ ROW-WORDS",
    "5 steps, order and leaders as three parameters": r"e: &\[u64\],?\s+order: &\[u16\],?\s+lead: &\[u16\]",
    "6 a page and a position in it": r"page: &mut \[u8\],\s*at: usize",
    "6 the four parts of an index": r"parens: &(?:mut )?\[u8\],\s*marks: &(?:mut )?\[u8\]",
    "7 a match on which step to run": r"^\s+match which \{$",
}


def main():
    words = [word for word in sys.argv[1:] if not word.startswith("-")]
    root = pathlib.Path(words[0]) if words else pathlib.Path(__file__).resolve().parent.parent
    sources = sorted(root.glob("crates/*/src/**/*.rt"))
    for point, pattern in POINTS.items():
        places = []
        for source in sources:
            # what stands in a comment is no place; lines keep their numbers
            text = re.sub(r"^(\s*)//.*$", r"\1", source.read_text(), flags=re.M)
            places += [(source.relative_to(root), text.count("\n", 0, hit.start()) + 1) for hit in re.finditer(pattern, text, re.M)]
        print(f"{point}: {len(places)}")
        if "--places" in sys.argv:
            for path, line in places:
                print(f"    {path}:{line}")
    proofs = sorted(root.glob("crates/*/proofs/**/*.antt"))
    answers = [hit for path in proofs for hit in re.findall(r"^pub \S+ : goal\.\S+$", path.read_text(), re.M)]
    print(f"8 answers: {len(answers)}, in {sum(path.name == 'Answers.antt' for path in proofs)} files")
    print(f"8 lines of proof: {sum(path.read_text().count(chr(10)) for path in proofs)}")
    print(f"lines of code: {sum(path.read_text().count(chr(10)) for path in sources)}")


if __name__ == "__main__":
    main()
