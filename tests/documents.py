#!/usr/bin/env python3
"""Are the blocks of the documents what the program writes?

usage: documents.py [PROGRAM]        for example: python3 tests/documents.py crates/sil/out/sil

Runs each block of README.md and docs/ whose first line begins with `$ ./sil`: each line behind a `$ ` is a command, and what
follows up to the next one is all that it writes. The commands run in a copy of the repository's files without its crates,
where ./sil is PROGRAM (crates/sil/out/sil where none is named), so nothing that they write stays. Prints what differs, and
nothing where all is well; ends with 1 where something differs. Standard library only.
"""
import difflib
import os
import re
import shutil
import subprocess
import sys
import tempfile
from pathlib import Path

TOP = Path(__file__).resolve().parent.parent
BLOCK = re.compile(r"^```[^\n]*\n(\$ \./sil.*?)^```$", re.M | re.S)
SECONDS = 120


def commands_of(text):
    """The commands of the blocks in a document, each with its line and what it is to write."""
    for block in BLOCK.finditer(text):
        line = text.count("\n", 0, block.start(1)) + 1
        for part in re.split(r"^(?=\$ )", block[1], flags=re.M)[1:]:
            command, _, wanted = part.partition("\n")
            yield line, command[2:], wanted
            line += part.count("\n")


def differs(name, line, command, wanted, folder):
    """Runs a command in the folder, and tells how what it writes differs from what is wanted."""
    how = {"stdin": subprocess.DEVNULL, "stdout": subprocess.PIPE, "stderr": subprocess.STDOUT, "timeout": SECONDS}
    try:
        written = subprocess.run(["sh", "-c", command], cwd=folder, **how).stdout.decode(errors="replace")
    except subprocess.TimeoutExpired:
        return [f"{name}:{line}: not ended after {SECONDS} seconds: {command}"]
    if written == wanted:
        return []
    rows = difflib.unified_diff(wanted.splitlines(), written.splitlines(), "documented", "written", n=0, lineterm="")
    return [f"{name}:{line}: $ {command}", *rows]


def main():
    if len(sys.argv) > 2:
        sys.exit(__doc__)
    program = Path(sys.argv[1] if len(sys.argv) > 1 else TOP / "crates/sil/out/sil").absolute()
    if not os.access(program, os.X_OK):
        sys.exit(f"documents.py: there is no program {program}: ./prove builds it")
    wrong, number = [], 0
    with tempfile.TemporaryDirectory(prefix="sil-documents-") as folder:
        copy = Path(folder) / "sil"
        shutil.copytree(TOP, copy, ignore=shutil.ignore_patterns(".git", "crates", "out", "__pycache__"))
        (copy / "sil").unlink()
        (copy / "sil").symlink_to(program)
        for file in [TOP / "README.md", *sorted((TOP / "docs").glob("*.md"))]:
            for line, command, wanted in commands_of(file.read_text(encoding="utf-8")):
                number += 1
                wrong += differs(file.relative_to(TOP), line, command, wanted, copy)
    print(*wrong, sep="\n", end="\n" if wrong else "")
    if not number:
        sys.exit("documents.py: no document has a block that begins with `$ ./sil`")
    return 1 if wrong else 0


if __name__ == "__main__":
    sys.exit(main())
