#!/usr/bin/env python3
"""Damaged loop files, and what the program makes of them.

usage: damage.py PROGRAM [COUNT [SEED]]

COUNT files (3000) are made from those of ../examples: bytes cut, doubled, exchanged and changed; lines dropped,
doubled, exchanged and taken from another file; numbers and texts at and beyond the ends of their ranges; deep nesting;
65,536 and 65,537 bytes. `PROGRAM size FILE` has to end with status 0 and the six lines of the sizes, or with status 3
and one line that says why the file is refused, with nothing on the standard error and no signal, within ten seconds. A
refusal has to take no more than 50 milliseconds of processor time, the start of the program included, in one of four runs.

The line is compared with that of `loop_reader.py`, which was written apart. The two read TOML by different libraries,
so files that only one of them takes for TOML are counted by themselves, and so are limits, which the reader leaves out.

The last lines give the seed and the counts. The status is 1 where a file was answered otherwise. Standard library only.
"""
import random
import re
import resource
import subprocess
import sys
import tempfile
from collections import Counter
from pathlib import Path

import loop_reader

HERE = Path(__file__).resolve().parent
MOST_BYTES = 65536
MOST_SECONDS = 0.05
LONGEST_RUN = 10
SIZES = ("mission", "phases", "states", "beats", "order", "work")
LIMIT = re.compile(r"refused: (work [0-9]+|[0-9]+ (channel tests|states|beats)), limit [0-9]+")

WHOLE = ("-1", "0", "1", "2", "15", "16", "40", "41", "1000", "1001", "8760", "8761", "350400", "350401", "4294967296",
         "9223372036854775807", "9223372036854775808", "-9223372036854775809", "1" + "0" * 40, "+5", "1_000", "0x1F",
         "1.5", "1e400", "inf", "nan", "true", "1979-05-27", '"8760"', "[]", "{}", "[1]")
TEXTS = ("", "a", "a" * 32, "a" * 33, "\u00e9", "\\u0000", "\\n", "0", "1", "1.0", "-1", "1e-3", "1E-12", "1E-13",
         "0.0010000000000001", "1000.0000000000001", "1e999", "1e1000", "1E-999", "9" * 24, "9" * 25, "1.", ".5",
         "0x1", "1oo1", "1oo8", "8oo8", "0oo1", "2oo1", "1oo9", "oo", "1oo1 ", "lost", "tripped", "off", "plant")


def place(draw, data):
    """Where some bytes of the file begin and end."""
    start = draw.randrange(len(data))
    return start, min(len(data), start + draw.choice((1, 1, 1, 2, 4, 16, 64)))


def cut(draw, data, others):
    start, end = place(draw, data)
    return data[:start] + data[end:]


def cut_short(draw, data, others):
    return data[:draw.randrange(len(data))]


def doubled(draw, data, others):
    start, end = place(draw, data)
    return data[:end] + data[start:end] + data[end:]


def swapped(draw, data, others):
    bytes_of = bytearray(data)
    first, second = draw.randrange(len(data)), draw.randrange(len(data))
    bytes_of[first], bytes_of[second] = bytes_of[second], bytes_of[first]
    return bytes(bytes_of)


def changed(draw, data, others):
    start, end = place(draw, data)
    return data[:start] + draw.randbytes(end - start) + data[end:]


def odd_bytes(draw, data, others):
    odd = (b"\0", b"\r", b"\xef\xbb\xbf", b"\xff", b"\xc3", b"\xed\xa0\x80", b"\x7f", b"\x1b[2J", b"\xe2\x80\xae", b"\"", b"'''")
    start = draw.choice((0, len(data), draw.randrange(len(data))))
    return data[:start] + draw.choice(odd) + data[start:]


def line_dropped(draw, data, others):
    lines = data.splitlines(True)
    del lines[draw.randrange(len(lines))]
    return b"".join(lines)


def line_doubled(draw, data, others):
    lines = data.splitlines(True)
    lines.insert(draw.randrange(len(lines)), draw.choice(lines))
    return b"".join(lines)


def lines_exchanged(draw, data, others):
    lines = data.splitlines(True)
    first, second = draw.randrange(len(lines)), draw.randrange(len(lines))
    lines[first], lines[second] = lines[second], lines[first]
    return b"".join(lines)


def line_of_another(draw, data, others):
    lines = data.splitlines(True)
    lines.insert(draw.randrange(len(lines) + 1), draw.choice(draw.choice(others).splitlines(True)))
    return b"".join(lines)


def replaced(draw, data, pattern, values):
    found = list(re.finditer(pattern, data))
    if not found:
        return data
    one = draw.choice(found)
    return data[:one.start()] + draw.choice(values).encode() + data[one.end():]


def number(draw, data, others):
    return replaced(draw, data, rb"(?<== )[0-9]+", WHOLE)


def text(draw, data, others):
    return replaced(draw, data, rb'(?<=")[^"\n]*(?=")', TEXTS)


def key(draw, data, others):
    known = [line.split(b" = ")[0].decode() for other in others for line in other.splitlines() if b" = " in line]
    return replaced(draw, data, rb"(?m)^[a-z_]+(?= = )", known + ["zz", "name.first", '""', '"\u00e9"', "zz.a"])


def nested(draw, data, others):
    deep = draw.choice((2, 10, 79, 80, 81, 200, 1000, 30000))
    opening, closing = draw.choice(((b"[", b"]"), (b"{ a = ", b" }"), (b"[", b""), (b"{ a = ", b"")))
    value = draw.choice((b"deep", b"mission", b"subsystem")) + b" = " + opening * deep + b"1" + closing * deep + b"\n"
    return draw.choice((value + data, data + value, value))[:MOST_BYTES]


def many(draw, data, others):
    """More entries than there may be."""
    return data + draw.choice((b"[[subsystem]]\n", b"[[type]]\n", data, b"zz = 1\n")) * draw.choice((1, 6, 7, 32, 33))


def one_character(draw, data, others):
    size = draw.choice((MOST_BYTES, MOST_BYTES + 1))
    one = draw.choice((bytes((draw.randrange(256),)), b"[", b"\"", b"'", b"{", b"\n", b"#", b"a", b"=", b".", b"\\"))
    if draw.random() < 0.5:
        return one * size
    return (data + b"#" + one * size)[:size]


def noise(draw, data, others):
    return draw.randbytes(draw.randrange(2000))


DAMAGES = (cut, cut_short, doubled, swapped, changed, odd_bytes, line_dropped, line_doubled, lines_exchanged,
           line_of_another, number, number, number, text, text, text, key, nested, many, one_character, noise)


def damaged(draw, originals):
    """How a file is damaged, mostly once, and its bytes."""
    data, names = draw.choice(originals), []
    for _ in range(draw.choice((1, 1, 1, 2, 3))):
        damage = draw.choice(DAMAGES)
        names.append(damage.__name__)
        data = damage(draw, data or b"\n", originals)
    return "+".join(names), data


def processor_time():
    """Of all runs that have ended."""
    usage = resource.getrusage(resource.RUSAGE_CHILDREN)
    return usage.ru_utime + usage.ru_stime


def run(program, path):
    """Status, output and processor time of one run; a run that does not end has no status."""
    start = processor_time()
    try:
        done = subprocess.run([program, "size", path], stdin=subprocess.DEVNULL, capture_output=True, timeout=LONGEST_RUN)
    except subprocess.TimeoutExpired:
        return None, b"", b"", processor_time() - start
    return done.returncode, done.stdout, done.stderr, processor_time() - start


def wrong(status, output, errors):
    """What is wrong with an answer, or None."""
    if errors:
        return "something on the standard error"
    if not re.fullmatch(rb"([ -~]+\n)*", output):
        return "the output is not lines of printable ASCII"
    lines = output.decode().splitlines()
    if status == 0:
        return None if tuple(line.split(" ")[0] for line in lines) == SIZES else "not the lines of the sizes"
    if status == 3:
        return None if len(lines) == 1 and lines[0].startswith("refused: ") else "not one line that refuses"
    return f"status {status}"


def expected(data):
    """The line of the independent reader, or the empty text where it takes the file."""
    try:
        loop_reader.loop_of(data)
    except loop_reader.Refused as refused:
        return str(refused)
    except RecursionError:
        return "refused: not TOML"
    return ""


def compared(status, line, other):
    """How the program's answer stands to the independent reader's."""
    mine = "" if status == 0 or LIMIT.fullmatch(line) else line
    if mine == other:
        return "limit" if mine != line and status == 3 else "same"
    if "refused: not TOML" not in (mine, other):
        return "other"
    return "TOML for the reader alone" if mine == "refused: not TOML" else "TOML for the program alone"


def main():
    if not 2 <= len(sys.argv) <= 4:
        sys.exit(__doc__)
    program = str(Path(sys.argv[1]).resolve())
    count = int(sys.argv[2]) if len(sys.argv) > 2 else 3000
    seed = int(sys.argv[3]) if len(sys.argv) > 3 else 1
    draw = random.Random(seed)
    originals = [path.read_bytes() for path in sorted((HERE.parent / "examples").glob("*.toml"))]
    statuses, answers, agreement, failures, slowest = Counter(), Counter(), Counter(), [], 0.0
    with tempfile.TemporaryDirectory() as folder:
        path = str(Path(folder, "damaged.toml"))
        for index in range(count):
            names, data = damaged(draw, originals)
            Path(path).write_bytes(data)
            status, output, errors, seconds = run(program, path)
            fault = wrong(status, output, errors)
            if status == 3 and seconds > MOST_SECONDS:
                # Other work of the machine can take the time.
                seconds = min(run(program, path)[3] for _ in range(3))
            if fault is None and status == 3 and seconds > MOST_SECONDS:
                fault = f"a refusal that took {1000 * seconds:.0f} ms"
            line = output.decode(errors="replace").splitlines()[0] if output else ""
            how = compared(status, line, expected(data)) if fault is None else "not compared"
            if how == "other":
                fault = f"the other reader says {expected(data)!r}"
            if fault is not None:
                failures.append((index, names, fault, output[:200], data))
            slowest = max(slowest, seconds if status == 3 else 0.0)
            statuses[status] += 1
            agreement[how] += 1
            answers[re.sub(r"[0-9]+", "N", " ".join(line.split()[:3])) if status == 3 else "sizes"] += 1
    report(seed, count, len(originals), statuses, answers, agreement, slowest)
    for index, names, fault, output, data in failures[:20]:
        print(f"WRONG: file {index} ({names}): {fault}: {output!r}")
        print(f"  {data[:300]!r}")
    if failures:
        print(f"{len(failures)} of {count} files were answered otherwise than they have to be")
        sys.exit(1)


def report(seed, count, originals, statuses, answers, agreement, slowest):
    print(f"seed {seed}: {count} files from {originals} examples")
    for status, number in sorted(statuses.items(), key=str):
        print(f"status {status}: {number}")
    for answer, number in answers.most_common(25):
        print(f"  {number:6} {answer}")
    for how, number in agreement.most_common():
        print(f"beside the independent reader, {how}: {number}")
    print(f"slowest refusal: {1000 * slowest:.1f} ms of processor time, with the start of the program")


if __name__ == "__main__":
    main()
