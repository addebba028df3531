"""Counts the places in crates/*/src that docs/DESIGN-PASS.md speaks of, point by point.

    python3 tools/design.py [FOLDER] [--list]

FOLDER is a checkout (here: the one this file stands in). A place is a line that matches; --list prints each. Points 2 and 7 have no pattern that
finds them: their places were found by reading and stand in the page.
"""
import pathlib
import re
import sys

SIGNS = [
    ("1 enums declared", r"^\s*(pub )?enum "),
    ("1 refusals as numbers", r"\b(Refused|Stop)\((\d+|[a-z])\)|\bRefused\(u8\)|\bStop\(u8\)|-> u8\b.*cause|^pub fn cause"),
    ("1 numbers that stand for none", r"(return|=|=>|<) ?\b(8192|FAIL|17)\b|\b(8192|FAIL|PLACES)$|== 8192|return 4096"),
    ("1 a flag with a value beside it", r"\b(failed|apply): bool"),
    ("1 arms on bare numbers", r"^\s*\d+( \| \d+)* =>"),
    ("3 loops by hand", r"^\s*(while|loop)\b"),
    ("4 an if that is an and", r"^\s*return (true|false);$"),
    ("4 conversions by hand", r"^(pub )?fn (wide|size|few|number|low_half|high_half)\("),
    ("4 comparing and copying by hand", r"^(pub )?fn (same\w*|still|gathered|copy_bytes|copy_words?|copy|clear|store|put|put_words|zeros|all_zero|move_up|move_down|swap)\("),
    ("5 a position beside what is written", r"\bout: &mut [^,]*, o: usize|^\s*o: usize,$"),
    ("5 a text with its dictionary", r"\blow: &\[u64\], high|^\s*low: &\[u64[\];]"),
    ("5 an actor, its words and the kinds", r"kinds: &\[u8; STATE_SLOTS\]"),
    ("6 a length beside a buffer", r"\bmet: &(mut )?\[u32\], k: usize|\bs: &\[u64; 4096\], words: usize|^\s*met: &(mut )?\[u32\],$|^\s*s: &\[u64; 4096\],$"),
    ("6 parallel arrays", r"\blow: &(mut )?\[u64; 2048\]|\blow = \[0u64; 2048\]|^\s*low: &(mut )?\[u64\]"),
    ("7 function pointers, dyn, tables of functions", r"\bfn\(|\bdyn\b"),
]


def places(root):
    for path in sorted(pathlib.Path(root).glob("crates/*/src/**/*.rt")):
        for n, line in enumerate(path.read_text().split("\n"), 1):
            if not line.lstrip().startswith(("//", "requires", "ensures")):
                yield path.relative_to(root), n, line


def main(arguments):
    named = [a for a in arguments if not a.startswith("--")]
    root = pathlib.Path(named[0]) if named else pathlib.Path(__file__).parent.parent
    found = list(places(root))
    for name, sign in SIGNS:
        hits = [p for p in found if re.search(sign, p[2])]
        print(f"{len(hits):5}  {name}")
        if "--list" in arguments:
            for path, n, line in hits:
                print(f"         {path}:{n}: {line.strip()}")
    files = sorted(pathlib.Path(root).glob("crates/*/proofs/**/*.antt"))
    print(f"{sum(f.name == 'Proof.antt' for f in files):5}  8 proofs that walk the code (Proof.antt)")
    answers = [f for f in files if f.name == "Answers.antt"]
    print(f"{len(answers):5}  8 files of answers, with {sum(len(re.findall('^pub ', f.read_text(), re.M)) for f in answers)} answers")


if __name__ == "__main__":
    main(sys.argv[1:])
