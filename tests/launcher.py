#!/usr/bin/env python3
"""Does ./sil run the proved program, and no other?

usage: launcher.py        takes under a minute on four processors, with the Rattle kit on the path

Copies sil, prove and tools/ beside two small crates, a library `low` and a program `sil` above it, and tries there what may
go wrong: no proof yet, a proof that is broken off, a proof that breaks in the program or below it, a source that is changed,
added, removed or put back, clocks that went back, a program that was replaced, another kit. Where only the choice of ./sil
is looked at, a small script stands in the place of rt and tells what it was asked. Ends with 1 where something is wrong.
Standard library only.
"""
import os
import re
import shutil
import signal
import subprocess
import sys
import tempfile
import time
from concurrent.futures import ThreadPoolExecutor
from pathlib import Path

TOP = Path(__file__).resolve().parent.parent
LINE = re.compile(r"sil: not proved on this machine yet: \./prove does that, in about \d+ minutes on \d+ processors\n")
LOW = """// A number, and the next one. MARK
#![tactic(auto)]

ghost use Rattle.std.specs.Prelude.{◌≡◌, ◌+◌, ◌<◌};

mod more;
#[cfg(test)]
mod tests;

pub use more::same;

pub fn next(x: u8) -> u8
    requires { x < 100 }
    ensures { result ≡ x + 1 }
{
    x + 1
}
"""
MORE = """ghost use Rattle.std.specs.Prelude.{◌≡◌};

pub fn same(x: u8) -> u8
    ensures { result ≡ x }
{
    x
}
"""
TESTS = """use crate::next;

#[test]
fn one_is_followed_by_two(rt: HostRuntime) {
    assert_eq!(rt; next(1), 2);
}
"""
MAIN = """// Writes the files that its words name, and ends with 3, or with 4 where one cannot be read. MARK
#![tactic(auto)]

ghost use Rattle.std.specs.Prelude.{◌≡◌};

use low::{next, same};
use std::fs;
use std::process::ExitCode;

fn three() -> u8
    ensures { result ≡ 3 }
{
    same(next(2))
}

fn main(rt: HostRuntime) -> ExitCode {
    let mut status = three();
    let Ok(all) = std::env::args(&rt) else {
        return ExitCode::from(2);
    };
    for word in all.skip(1) {
        match fs::read_to_string(&rt, word.as_str()) {
            Ok(text) => {
                if println!(rt; "{text}").is_err() {
                    status = 5;
                }
            }
            Err(_) => status = 4,
        }
    }
    ExitCode::from(status)
}
"""
# In the place of rt: writes the words that it got, one a line, and a last line as rt try does.
STUB = """#!/bin/sh
for word do printf '%s\\n' "$word"; done
echo "run=ended status=0 runners=1 races=unchecked proved=no" >&2
"""
# A path without rt, unless the kit is installed there.
BARE = "/usr/bin:/bin"
# A program that answers as that of the small crates does.
OLD = """#!/bin/sh
cat "$1"
echo
exit 3
"""
failures = []


def want(holds, what, *seen):
    if not holds:
        failures.append(what)
        print(f"launcher.py: WRONG: {what}", *("    " + str(it).replace("\n", "\n    ") for it in seen), sep="\n", flush=True)


class Toy:
    def __init__(self, room, mark):
        self.top, self.here = room / "toy", room / "here"
        low = {"lib.rt": LOW.replace("MARK", mark), "more.rt": MORE, "tests.rt": TESTS}
        for crate, files in (("low", low), ("sil", {"main.rt": MAIN.replace("MARK", mark)})):
            (self.top / "crates" / crate / "src").mkdir(parents=True)
            for name, text in files.items():
                (self.top / "crates" / crate / "src" / name).write_text(text)
        (self.top / "crates/sil/args").write_text("one.txt\n")
        (self.top / "crates/sil/status").write_text("3\n")
        (self.top / "crates/sil/stdout").write_text("of the crate\n")
        (self.top / "crates/sil/data").mkdir()
        (self.top / "crates/sil/data/one.txt").write_text("of the crate")
        (self.top / "crates.txt").write_text("# two crates\nsil: low\nlow:\n")
        (self.top / "HANDLES").write_text("Handles allowed: none.\n")
        for name in ("sil", "prove"):
            shutil.copy2(TOP / name, self.top / name)
        shutil.copytree(TOP / "tools", self.top / "tools", ignore=shutil.ignore_patterns("__pycache__"))
        (self.here / "sub").mkdir(parents=True)
        (self.here / "one.txt").write_text("of the caller")
        (self.here / "sub/with a blank.txt").write_text("below")
        (room / "above.txt").write_text("above")
        stub = room / "kit/bin/rt"
        stub.parent.mkdir(parents=True)
        stub.write_text(STUB)
        stub.chmod(0o755)
        kit = subprocess.run(["rt", "version"], capture_output=True, text=True, check=True).stdout
        (room / "kit/KIT-ID").write_text(kit)
        self.kit, self.program = room / "kit", self.top / "crates/sil/out/sil"
        self.stubbed = {**os.environ, "PATH": f"{stub.parent}:{os.environ['PATH']}"}

    def sil(self, *words, env=None):
        """The status of ./sil in the caller's folder, what it writes, and what it says."""
        how = {"cwd": self.here, "stdin": subprocess.DEVNULL, "capture_output": True, "text": True}
        ran = subprocess.run([self.top / "sil", *words], env=env, **how)
        return ran.returncode, ran.stdout, ran.stderr

    def prove(self):
        how = {"cwd": self.here, "stdin": subprocess.DEVNULL, "stdout": subprocess.PIPE, "stderr": subprocess.STDOUT, "text": True}
        ran = subprocess.run([self.top / "prove"], **how)
        return ran.returncode, ran.stdout

    def set_old(self):
        """Sets a program of before in the place of the proved one, and notes it as proved of these sources."""
        self.program.parent.mkdir()
        self.program.write_text(OLD)
        self.program.chmod(0o755)
        script = '. tools/sources.sh && note_proved . "$(sources_sum .)"'
        subprocess.run(["sh", "-c", script], cwd=self.top, env=self.stubbed, check=True)

    def is_taken_as_proved(self, what):
        """./sil runs the program that was proved, and says nothing."""
        seen = self.sil("one.txt", env=self.stubbed)
        want(seen == (3, "of the caller\n", ""), f"{what}: the proved program runs and nothing is said", seen)

    def is_not_run(self, what):
        """./sil asks rt try in the place of any program that stands there, and says so."""
        status, written, said = self.sil("one.txt", env=self.stubbed)
        is_asked = written.startswith("try\n") and written.endswith("--\none.txt\n") and status == 0
        want(is_asked and LINE.fullmatch(said), f"{what}: no program that is not proved of these sources runs", status, written, said)


def kit_keeps():
    """Whether the kit can keep what it proves: in a folder of the same user beside its own, on a disk with some 5 GB left."""
    kept = Path(shutil.which("rt")).resolve().parents[2] / "rattle-kept"
    return kept.is_dir() and kept.stat().st_uid == os.geteuid() and shutil.disk_usage(kept).free > 6e9


def unproved(toy):
    """Before any proof: names are those of the caller's folder, and statuses and output the program's own."""
    known = ["one.txt", "sub/with a blank.txt", "../above.txt", str(toy.here / "one.txt")]
    # Files of the crate's folder, and of the folder in which rt try runs a program, but not of the caller's.
    unknown = ["args", "src/main.rt", "data", "stdout"]
    status, written, said = toy.sil(*known, *unknown)
    want(written == "of the caller\nbelow\nabove\nof the caller\n", "without a proof: the files of the caller's folder, and no others", written)
    want(status == 4, "without a proof: the program's own status", status)
    want(LINE.fullmatch(said), "without a proof: one line says so", said)


def words_of_try(toy):
    """What rt try is asked, word by word."""
    (toy.here / "2").write_text("a name that is a value too")
    _, written, _ = toy.sil("check", "--need=2", "--need", "2", "x=y", "--", "--mode", "program", env=toy.stubbed)
    (toy.here / "2").unlink()
    data, _, words = written.partition("--\n")
    want(words == "check\n--need=2\n--need\n2\nfile-5\n--\nfile-7\nfile-8\n", "words of the program stay as they are", written)
    want(re.fullmatch(r"try\n--seconds\n\d+\n--data\n2=\S+/4\n", data), "a word that names a file has its copy", written)
    if not shutil.which("rt", path=BARE):
        status, written, said = toy.sil("one.txt", env={**toy.stubbed, "PATH": BARE})
        want(status == 125 and not written and "not on the path" in said, "without a kit and a proof: 125", status, written, said)


def broken_off(toy):
    """A proof that is broken off leaves no program, and the next one goes on."""
    run = subprocess.Popen([toy.top / "prove"], stdout=subprocess.PIPE, text=True)
    for line in run.stdout:
        if line.startswith("sil: 1 of 2 crates are proved"):
            run.send_signal(signal.SIGTERM)
            break
    run.stdout.read()
    want(run.wait() == 130 and not toy.program.exists(), "broken off: 130 and no program", run.returncode)
    toy.is_not_run("after a proof that was broken off")
    status, said = toy.prove()
    last = said.splitlines()[-1] if said else ""
    is_well = re.match(r"sil: proved in \d+ minutes by .+: the program and the 1 crates that it stands on", last)
    want(status == 0 and is_well, "taken up again: proved", said)
    want("(1 of them by earlier runs)" in last or not kit_keeps(), "taken up again: the first crate by the earlier run", said)
    toy.is_taken_as_proved("after ./prove")
    status, said = toy.prove()
    want((status, said) == (0, "sil: proved already, and nothing has changed since\n"), "nothing is proved twice", said)


def changed_sources(toy):
    """Sources that are changed, added, removed or put back, with any time; and what else the program rests on."""
    files = {it: toy.top / it for it in ("crates/low/src/lib.rt", "crates/low/src/more.rt", "crates/low/src/tests.rt", "crates.txt", "HANDLES")}
    for name, file in files.items():
        text, clock = file.read_bytes(), file.stat()
        file.write_bytes(text + b"\n")
        toy.is_not_run(f"{name} newer than the program")
        os.utime(file, (0, 0))
        toy.is_not_run(f"{name} changed, with a clock that went back")
        os.utime(file, ns=(clock.st_atime_ns, clock.st_mtime_ns))
        toy.is_not_run(f"{name} changed, with the time of before")
        file.unlink()
        toy.is_not_run(f"{name} removed")
        file.write_bytes(text)
        os.utime(file, (2e9, 2e9))
        toy.is_taken_as_proved(f"{name} put back")
    for name in ("crates/low/specs/New.antt", "crates/low/proofs/New.antt", "crates/sil/src/out/new.rt"):
        file = toy.top / name
        file.parent.mkdir()
        file.touch()
        toy.is_not_run(f"{name} added")
        shutil.rmtree(file.parent)
    toy.is_taken_as_proved("all put back")
    program = toy.program.read_bytes()
    for other in (program + b"\n", b"#!/bin/sh\necho another\n", b""):
        toy.program.write_bytes(other)
        toy.is_not_run("another file in the program's place")
    toy.program.unlink()
    toy.is_not_run("the program removed")
    toy.program.write_bytes(program)
    toy.program.chmod(0o755)
    toy.is_taken_as_proved("the program put back")
    line = (toy.kit / "KIT-ID").read_text()
    (toy.kit / "KIT-ID").write_text("another kit\n")
    toy.is_not_run("another kit")
    (toy.kit / "KIT-ID").write_text(line)
    seen = toy.sil("one.txt", env={**toy.stubbed, "PATH": BARE})
    want(seen == (3, "of the caller\n", ""), "no kit on the path: the proved program runs", seen)


def broken_proof(toy, crate, file, old, new):
    """A proof that breaks: ./prove names the crate, and no program is left that could answer."""
    toy.set_old()
    toy.is_taken_as_proved("before a proof breaks")
    path = toy.top / "crates" / crate / "src" / file
    text = path.read_text()
    want(text.count(old) == 1, f"{old} stands once in {file}")
    path.write_text(text.replace(old, new))
    toy.is_not_run(f"{crate} with a wrong contract, before ./prove")
    status, said = toy.prove()
    last = said.splitlines()[-1] if said else ""
    want(status == 1 and last.startswith(f"sil: {crate} is not proved"), f"{crate} with a wrong contract: ./prove refuses it", said)
    want("not proved" in said.replace(last, ""), f"{crate} with a wrong contract: the end of its log is shown", said)
    want(not toy.program.exists(), f"{crate} with a wrong contract: no program is left")
    toy.is_not_run(f"{crate} with a wrong contract, after ./prove")


def main():
    if len(sys.argv) > 1:
        sys.exit(__doc__)
    with tempfile.TemporaryDirectory(prefix="sil-launcher-") as room:
        # Sources that no run before has proved: of both crates, since a library is the same whatever its comments say.
        mark = f"{os.getpid()} {time.time()}"
        toys = [Toy(Path(room) / str(number), mark) for number in range(4)]
        with ThreadPoolExecutor(len(toys)) as pool:
            runs = [
                pool.submit(broken_off, toys[0]),
                pool.submit(unproved, toys[1]),
                pool.submit(broken_proof, toys[2], "sil", "main.rt", "result ≡ 3", "result ≡ 4"),
                pool.submit(broken_proof, toys[3], "low", "lib.rt", "result ≡ x + 1", "result ≡ x + 2"),
            ]
            for it in runs:
                it.result()
        words_of_try(toys[1])
        changed_sources(toys[0])
    return 1 if failures else 0


if __name__ == "__main__":
    sys.exit(main())
