#!/usr/bin/env python3
"""Does the program answer the same without its proofs?

usage: unproved.py        once ./prove has built the program; takes some four minutes, with the Rattle kit on the path

Runs the program as `rt try` compiles it, without its proofs, on the examples and on words of every status, and compares its
status and its standard output, byte for byte, with those of the proved program. Then a copy of the repository that has no
proved program answers by ./sil, from another folder, with one line on standard error. Ends with 1 where something differs.
Standard library only.
"""
import re
import shutil
import subprocess
import sys
import tempfile
from pathlib import Path

TOP = Path(__file__).resolve().parent.parent
PROGRAM = TOP / "crates/sil/out/sil"
EXAMPLES = sorted(it.relative_to(TOP).as_posix() for it in (TOP / "examples").glob("*.toml"))
LOOP = "examples/three-subsystems.toml"
WORDS = [
    *(["check", "--series", "--peak", "--occupancy", it] for it in EXAMPLES),
    *(["size", it] for it in EXAMPLES),
    ["check", "--need", "3", LOOP],
    ["check", "--need=3", "--mode", "both", "--", LOOP],
    ["bench", "7", "--need", "1", "--mode", "high"],
    ["gen", "7"],
    ["check", "README.md"],
    ["check", "no-such-file.toml"],
    ["check"],
    [],
]
FROM_A_FOLDER = ["check", "--need", "3", "--mode", "both", f"../{LOOP}"]
LINE = re.compile(r"sil: not proved on this machine yet: \./prove does that, in about \d+ minutes on \d+ processors\n")


def proved(words, folder=TOP):
    ran = subprocess.run([PROGRAM, *words], cwd=folder, stdin=subprocess.DEVNULL, stdout=subprocess.PIPE, text=True)
    return ran.returncode, ran.stdout


def tried():
    """The status and the output of each of the words by one build of `rt try`."""
    with tempfile.TemporaryDirectory() as folder:
        for at, words in enumerate(WORDS):
            Path(folder, f"{at:03}").touch()
            Path(folder, f"{at:03}.args").write_text("".join(f"{word}\n" for word in words))
        data = [flag for it in (*EXAMPLES, "README.md") for flag in ("--data", f"{it}={TOP / it}")]
        ran = subprocess.run(["rt", "try", "--seconds", "600", *data, "--cases", folder], cwd=TOP / "crates/sil",
                             stdin=subprocess.DEVNULL, capture_output=True, text=True)
    ended = dict(re.findall(r"^case=(\d{3}) run=ended status=(\d+)", ran.stderr, re.M))
    printed = re.split(r"^== (\d{3})\n", ran.stdout, flags=re.M)[1:]
    texts = dict(zip(printed[::2], printed[1::2]))
    if len(ended) < len(WORDS):
        sys.exit(ran.stdout[-4000:] + ran.stderr[-4000:])
    return [(int(ended[f"{at:03}"]), texts.get(f"{at:03}", "")) for at in range(len(WORDS))]


def main():
    if len(sys.argv) > 1:
        sys.exit(__doc__)
    if not PROGRAM.exists():
        sys.exit("unproved.py: there is no proved program: ./prove builds it")
    wrong = 0
    for words, seen in zip(WORDS, tried()):
        wanted = proved(words)
        if seen != wanted:
            wrong += 1
            print(f"sil {' '.join(words)}: without its proofs {seen}, and proved {wanted}")
    with tempfile.TemporaryDirectory() as folder:
        clone = Path(folder, "clone")
        shutil.copytree(TOP, clone, ignore=shutil.ignore_patterns(".git", "out", "__pycache__"))
        ran = subprocess.run(["../sil", *FROM_A_FOLDER], cwd=clone / "docs", stdin=subprocess.DEVNULL, capture_output=True, text=True)
        seen, wanted = (ran.returncode, ran.stdout), proved(FROM_A_FOLDER, TOP / "docs")
        if seen != wanted or not LINE.fullmatch(ran.stderr):
            wrong += 1
            print(f"./sil without a proved program: {seen} and {ran.stderr!r}, and proved {wanted}")
    print(f"{len(WORDS) + 1} runs, {wrong} of them other than proved")
    return 1 if wrong else 0


if __name__ == "__main__":
    sys.exit(main())
