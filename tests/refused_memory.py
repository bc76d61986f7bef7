#!/usr/bin/env python3
"""Each growth of a run refused in turn.

usage: refused_memory.py PROGRAM
       refused_memory.py --memory
       refused_memory.py --try [--few]
       refused_memory.py --try FIRST [LAST]

A growth is a call for memory. PROGRAM is run over real files, with a library put before the C library (made by `cc`, in
a folder of its own) that refuses the Nth call, for each N until 50 numbers in a row are more than the run needs. That
takes seconds. With `--memory` the same is done over a shelf and a sink in memory that are made before the run: a copy of
the crates gets one more crate, whose `main` makes one run, and `rt run` proves and builds it.

With `--try` this crate is run by `rt try --fail-alloc N` for each N, until 50 numbers in a row are more than the run
needs. `rt try` compiles N into the program, and all the crates anew, in two minutes. So it builds one program for 256
numbers, with the greatest of them, TOP, and takes each number N and each command as a case of it (`--cases`): the program
first makes TOP - N growths and gives them back, so that the one that `rt try` refuses, its TOPth, is the one that `rt
try --fail-alloc N` refuses in the program which makes none before. One more `rt try`, which refuses nothing, tells what
each run writes. That takes some minutes. `--few` takes each 29th number alone, for a trial. With FIRST, a program that
makes none before is built by `rt try --fail-alloc N` for each N from FIRST on, with the commands as its cases, until 3
numbers in a row are more than each run needs, or to LAST: this is for some numbers, or for a night.

A run whose growth was refused has to end with status 6 and nothing written; over real files with 4 too, since a file may
not be opened for want of memory. The last lines say how many growths were refused. The status is 1 where a run ended
otherwise. Standard library only.
"""
import os
import re
import shutil
import subprocess
import sys
import tempfile
from collections import Counter
from pathlib import Path

TOP = Path(__file__).resolve().parent.parent
LOOP = TOP / "examples" / "one-channel.toml"
COMMANDS = (("check", "loop.toml", "--series", "--peak", "--occupancy"), ("check", "loop.toml"), ("size", "loop.toml"), ("gen", "7"))
MEMORY, SHELF = 6, 4
NOT_MADE = 100
# How many numbers one program that `rt try` builds is for.
BLOCK = 256

MAIN = '''//! One run over a shelf and a sink in memory, on the words given.
#![tactic(auto)]

use sil_io::{MemShelf, MemSink};
use sil_top::run;
use sil_watch::{Series, Watcher};
use std::alloc::{AllocError, Global};
use std::process::ExitCode;

const FILE: &[u8] = b"FILE-TEXT";

/// The exit status where memory is wanting before the run.
const NOT_MADE: u8 = 100;

/// The status of a run, and how many bytes the sink holds.
fn one_run(alloc: Global, words: &[String]) -> Result<(u8, usize), AllocError> {
    let mut shelf = MemShelf::new(alloc);
    shelf.put("loop.toml", FILE)?;
    let mut sink = MemSink::new(alloc, 65536)?;
    let mut watchers: Vec<Box<dyn Watcher>> = Vec::new(alloc);
    watchers.push(Box::new(alloc, Series::new(alloc))?)?;
    let status = run(alloc, words, &mut shelf, &mut sink, watchers) as u8;
    Ok((status, sink.bytes().len()))
}

fn main(rt: HostRuntime) -> ExitCode {
    let Ok(all) = std::env::args(&rt) else {
        return ExitCode::from(NOT_MADE);
    };
    let mut words: Vec<String> = Vec::new(rt.alloc());
    for word in all.skip(1) {
        if words.push(word).is_err() {
            return ExitCode::from(NOT_MADE);
        }
    }
EARLIER    let Ok((status, written)) = one_run(rt.alloc(), &words) else {
        return ExitCode::from(NOT_MADE);
    };
    if println!(rt; "status {status}, {written} bytes").is_err() {
        return ExitCode::from(NOT_MADE);
    }
    ExitCode::from(status)
}
'''

# The last word is how many growths come before the run.
EARLIER = '''    let Some(number) = words.pop() else {
        return ExitCode::from(NOT_MADE);
    };
    let Ok(earlier) = number.parse::<usize>() else {
        return ExitCode::from(NOT_MADE);
    };
    for _ in 0..earlier {
        if Box::new(rt.alloc(), 0u8).is_err() {
            return ExitCode::from(NOT_MADE);
        }
    }
'''

REFUSING = '''
#define _GNU_SOURCE
#include <dlfcn.h>
#include <errno.h>
#include <stddef.h>
#include <stdlib.h>
static long calls;
static int is_refused(void) {
    static long refused = -1;
    if (refused < 0) { const char *number = getenv("REFUSED"); refused = number ? atol(number) : 0; }
    return ++calls == refused;
}
void *malloc(size_t size) {
    static void *(*next)(size_t);
    if (!next) next = dlsym(RTLD_NEXT, "malloc");
    return is_refused() ? NULL : next(size);
}
void *realloc(void *old, size_t size) {
    static void *(*next)(void *, size_t);
    if (!next) next = dlsym(RTLD_NEXT, "realloc");
    return is_refused() ? NULL : next(old, size);
}
int posix_memalign(void **out, size_t align, size_t size) {
    static int (*next)(void **, size_t, size_t);
    if (!next) next = dlsym(RTLD_NEXT, "posix_memalign");
    return is_refused() ? ENOMEM : next(out, align, size);
}
void *aligned_alloc(size_t align, size_t size) {
    static void *(*next)(size_t, size_t);
    if (!next) next = dlsym(RTLD_NEXT, "aligned_alloc");
    return is_refused() ? NULL : next(align, size);
}
'''


def judged(name, runs, most_unneeded, allowed):
    """Goes through (number, status, bytes written, whole) of a command's runs, and says what came of them."""
    refused, others, unneeded, wrong = Counter(), 0, 0, []
    for number, status, written, whole in runs:
        if status == NOT_MADE:
            others += 1
        elif status == 0 and written == whole:
            unneeded += 1
            if unneeded == most_unneeded:
                break
            continue
        elif status in allowed and written == 0:
            refused[status] += 1
        else:
            wrong.append(f"  growth {number}: status {status}, {written} bytes")
        unneeded = 0
    counts = " and ".join(f"{number} with status {status}" for status, number in sorted(refused.items(), reverse=True))
    print(f"{name}: {refused.total()} growths refused ({counts}), with nothing written"
          + (f"; {others} before the run" if others else ""), flush=True)
    print("\n".join(wrong), end="\n" if wrong else "")
    return not wrong


def subject(folder, earlier):
    """The folder of the crate that makes one run in memory, in a copy of the crates; `earlier` is what comes before."""
    copy = Path(folder, "copy")
    shutil.copytree(TOP / "crates", copy / "crates", ignore=shutil.ignore_patterns("out"))
    for name in ("crates.txt", "HANDLES"):
        shutil.copy(TOP / name, copy / name)
    with open(copy / "crates.txt", "a") as lines:
        lines.write("refused_memory: sil_io sil_watch sil_top\n")
    source = copy / "crates" / "refused_memory" / "src" / "main.rt"
    source.parent.mkdir(parents=True)
    text = LOOP.read_text().replace("\\", "\\\\").replace('"', '\\"').replace("\n", "\\n")
    source.write_text(MAIN.replace("EARLIER", earlier).replace("FILE-TEXT", text))
    return source.parent.parent


def told(output):
    """How many bytes the sink took, as the subject tells it."""
    line = re.search(r"^status [0-9]+, ([0-9]+) bytes$", output, re.M)
    return int(line[1]) if line else 0


def earlier_word(number):
    """The last word of the subject, of one length, so that reading the words takes as many growths in each case."""
    return f"{number:06}"


def tried(crate, refused, cases):
    """What `rt try` says of each case, a pair of words and a number of growths before the run: its status and bytes.

    One program is built, whose growth `refused` fails; none where it is 0.
    """
    with tempfile.TemporaryDirectory() as folder:
        for at, (words, earlier) in enumerate(cases):
            Path(folder, f"{at:05}").touch()
            Path(folder, f"{at:05}.args").write_text("".join(word + "\n" for word in (*words, earlier_word(earlier))))
        refusing = ["--fail-alloc", str(refused)] if refused else []
        done = subprocess.run(["rt", "try", "--seconds", "60", *refusing, "--cases", folder], cwd=crate,
                              stdin=subprocess.DEVNULL, capture_output=True, text=True)
    ended = dict(re.findall(r"^case=([0-9]{5}) run=ended status=([0-9]+)", done.stderr, re.M))
    printed = re.split(r"^== ([0-9]{5})\n", done.stdout, flags=re.M)[1:]
    texts = dict(zip(printed[::2], printed[1::2]))
    names = [f"{at:05}" for at in range(len(cases))]
    if any(name not in ended for name in names):
        sys.exit(done.stdout[-4000:] + done.stderr[-4000:])
    print(f"rt try{f' --fail-alloc {refused}' if refused else ', nothing refused'}: {len(cases)} cases", flush=True)
    return [(int(ended[name]), told(texts.get(name, ""))) for name in names]


def by_trying(folder, numbers, block, most_unneeded):
    """Judges the numbers by `rt try`, which builds one program for each block of so many numbers."""
    crate = subject(folder, EARLIER)
    outcomes = {}

    def take(refused, cases):
        keys = [(words, number) for words in COMMANDS for number in cases]
        ended = tried(crate, refused, [(words, refused - number if number else 0) for words, number in keys])
        outcomes.update(zip(keys, ended))

    def run(words, number):
        if (words, number) not in outcomes:
            top = -(-number // block) * block
            take(top, [it for it in range(top - block + 1, top + 1) if it in numbers] if number else [0])
        return outcomes[words, number]

    return swept(run, numbers, most_unneeded, (MEMORY,))


def by_library(folder, program, in_memory):
    library = str(Path(folder, "refusing.so"))
    source = Path(folder, "refusing.c")
    source.write_text(REFUSING)
    subprocess.run(["cc", "-O1", "-fno-builtin", "-shared", "-fPIC", "-o", library, str(source), "-ldl"], check=True)
    shutil.copy(LOOP, Path(folder, "loop.toml"))

    def run(words, number):
        done = subprocess.run([program, *words], cwd=folder, stdin=subprocess.DEVNULL, capture_output=True,
                              env={**os.environ, "LD_PRELOAD": library, "REFUSED": str(number)})
        return done.returncode, told(done.stdout.decode()) if in_memory else len(done.stdout)

    return swept(run, range(1, 100000), 50, (MEMORY,) if in_memory else (MEMORY, SHELF))


def swept(run, numbers, most_unneeded, allowed):
    well = True
    for words in COMMANDS:
        status, whole = run(words, 0)
        if status != 0:
            print(f"{' '.join(words)}: no such command, status {status}")
            continue
        runs = ((number, *run(words, number), whole) for number in numbers)
        well &= judged(" ".join(words), runs, most_unneeded, allowed)
    return well


def in_memory(folder):
    crate = subject(folder, "")
    built = subprocess.run(["rt", "run"], cwd=crate, stdin=subprocess.DEVNULL, capture_output=True, text=True)
    program = crate / "out" / "refused_memory"
    if not program.exists():
        sys.exit(built.stdout + built.stderr)
    return by_library(folder, str(program), True)


def main():
    words = sys.argv[1:]
    numbers = [int(word) for word in words[1:] if word.isdigit()]
    few = words[:1] == ["--try"] and words[1:] == ["--few"]
    known = len(numbers) == len(words) - 1 if words[:1] == ["--try"] else len(words) == 1
    if not (known or few) or len(numbers) > 2:
        sys.exit(__doc__)
    with tempfile.TemporaryDirectory() as folder:
        if words[0] == "--try" and numbers:
            first, last = (numbers + [100000])[:2]
            well = by_trying(folder, range(first, last + 1), 1, 3)
        elif words[0] == "--try":
            well = by_trying(folder, range(1, 100000, 29 if few else 1), BLOCK, 2 if few else 50)
        elif words[0] == "--memory":
            well = in_memory(folder)
        else:
            well = by_library(folder, str(Path(words[0]).resolve()), False)
    sys.exit(0 if well else 1)


if __name__ == "__main__":
    main()
