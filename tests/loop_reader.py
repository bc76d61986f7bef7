"""Reads a loop file for the scripts beside the program, and refuses what the format refuses, with the same line.

Written apart from the program, from docs/LOOP-FILES.md and docs/MODEL.md. Standard library only.
"""
import re
import tomllib
from dataclasses import dataclass
from fractions import Fraction

FIGURES = ("du", "dd", "beta", "beta_d", "coverage", "restart_fault", "repair", "in_repair")
STEPS = {"du": 10**12, "dd": 10**12, "beta": 1000, "beta_d": 1000, "coverage": 1000, "restart_fault": 10**6}
GREATEST = {"du": Fraction(1, 1000), "dd": Fraction(1, 1000), "beta": 1, "beta_d": 1, "coverage": 1, "restart_fault": 1}
DEFAULTS = {"dd": Fraction(0), "beta": Fraction(0), "beta_d": Fraction(0), "coverage": Fraction(1),
            "restart_fault": Fraction(0), "in_repair": "lost"}
HOURS = (1, 350400)
DECIMAL = re.compile(r"([0-9]+)(?:\.([0-9]+))?(?:[eE]([+-]?[0-9]{1,3}))?")


class Refused(Exception):
    """The file is no loop file; the text is the line that the program would write."""


@dataclass(frozen=True)
class TestPlan:
    first: int
    every: int
    stagger: int
    full_each: int


@dataclass(frozen=True)
class Subsystem:
    """Rates are exact fractions per hour, shares and chances exact fractions, times whole hours."""
    name: str
    needed: int
    channels: int
    du: Fraction
    dd: Fraction
    beta: Fraction
    beta_d: Fraction
    coverage: Fraction
    restart_fault: Fraction
    repair: int
    tripped: bool
    test: TestPlan | None

    def test_of(self, channel, hour):
        """None where the channel is not tested at the hour, else whether that test is full."""
        if self.test is None:
            return None
        since = hour - (self.test.first + channel * self.test.stagger)
        if since < 0 or since % self.test.every:
            return None
        return (since // self.test.every + 1) % self.test.full_each == 0

    def test_hours(self, mission):
        """The hours at which some channel is tested."""
        hours = set()
        if self.test is not None:
            for channel in range(self.channels):
                hours.update(range(self.test.first + channel * self.test.stagger, mission, self.test.every))
        return hours


@dataclass(frozen=True)
class Loop:
    mission: int
    order: int
    subsystems: tuple

    def test_hours(self):
        return sorted(set().union(*(s.test_hours(self.mission) for s in self.subsystems)))


def _refuse(text):
    raise Refused("refused: " + text)


def _shown(key):
    return "".join(chr(byte) if 0x20 <= byte <= 0x7E else "?" for byte in key.encode())


def _unknown(table, known, path):
    for key in sorted((key for key in table if key not in known), key=str.encode):
        _refuse(f"unknown key {path}{_shown(key)}")


def _integer(table, key, path, low, high, default=None):
    if key not in table:
        return _refuse(f"missing {path}{key}") if default is None else default
    value = table[key]
    if type(value) is not int:
        _refuse(f"wrong kind {path}{key}")
    if not low <= value <= high:
        _refuse(f"out of range {path}{key}")
    return value


def _text(table, key, path):
    if key not in table:
        _refuse(f"missing {path}{key}")
    if type(table[key]) is not str:
        _refuse(f"wrong kind {path}{key}")
    return table[key]


def _name(table, path, taken):
    name = _text(table, "name", path)
    if not re.fullmatch(r"[\x20-\x7e]{1,32}", name):
        _refuse(f"text {path}name not a name")
    if name in taken:
        _refuse(f"same name {path}name")
    return name


def _decimal(text, key, path):
    parts = DECIMAL.fullmatch(text)
    if not parts or len(parts[1]) + len(parts[2] or "") > 24:
        _refuse(f"text {path}{key} not a decimal")
    places = parts[2] or ""
    value = Fraction(int(parts[1] + places)) * Fraction(10) ** (int(parts[3] or 0) - len(places))
    if (value * STEPS[key]).denominator != 1:
        _refuse(f"text {path}{key} too fine")
    if value > GREATEST[key]:
        _refuse(f"text {path}{key} too large")
    return value


def _figures(table, path):
    """The figures that the table has itself."""
    found = {}
    for key in FIGURES:
        if key not in table:
            continue
        if key == "repair":
            found[key] = _integer(table, key, path, 1, 8760)
        elif key == "in_repair":
            found[key] = _text(table, key, path)
            if found[key] not in ("lost", "tripped"):
                _refuse(f"text {path}{key} not a choice")
        else:
            found[key] = _decimal(_text(table, key, path), key, path)
    return found


def _test(table, path):
    if "test" not in table:
        return None
    plan = table["test"]
    if type(plan) is not dict:
        _refuse(f"wrong kind {path}test")
    path += "test."
    _unknown(plan, ("every", "first", "stagger", "full_each"), path)
    every = _integer(plan, "every", path, *HOURS)
    first = _integer(plan, "first", path, *HOURS, default=every)
    stagger = _integer(plan, "stagger", path, 0, 350400, default=0)
    return TestPlan(first, every, stagger, _integer(plan, "full_each", path, 1, 1000, default=1))


def _subsystem(table, path, taken, types):
    _unknown(table, ("name", "vote", "type", "test") + FIGURES, path)
    name = _name(table, path, taken)
    vote = re.fullmatch(r"([1-8])oo([1-8])", _text(table, "vote", path))
    if not vote or vote[1] > vote[2]:
        _refuse(f"vote {path}vote")
    shared = {}
    if "type" in table:
        if _text(table, "type", path) not in types:
            _refuse(f"unknown type {path}type")
        shared = types[table["type"]]
    figures = {}
    for key in FIGURES:
        figures.update(_figures({key: table[key]} if key in table else {}, path))
        if key in ("du", "repair") and key not in figures and key not in shared:
            _refuse(f"missing {path}{key}")
    figures = DEFAULTS | shared | figures
    figures["tripped"] = figures.pop("in_repair") == "tripped"
    return Subsystem(name=name, needed=int(vote[1]), channels=int(vote[2]), test=_test(table, path), **figures)


def _entries(top, key, least, most):
    entries = top.get(key, [])
    if key not in top and least:
        _refuse(f"missing {key}")
    if type(entries) is not list:
        _refuse(f"wrong kind {key}")
    if not least <= len(entries) <= most:
        _refuse(f"out of range {key}")
    for number, entry in enumerate(entries):
        if type(entry) is not dict:
            _refuse(f"wrong kind {key}[{number}]")
    return entries


def loop_of(data):
    """The loop that the bytes mean."""
    if len(data) > 65536:
        _refuse("file longer than 65536 bytes")
    try:
        top = tomllib.loads(data.decode())
    except (UnicodeDecodeError, tomllib.TOMLDecodeError):
        _refuse("not TOML")
    version = _integer(top, "version", "", -2**63, 2**63 - 1)
    if version != 1:
        _refuse(f"version {version}")
    _unknown(top, ("version", "mission", "order", "type", "subsystem"), "")
    mission = _integer(top, "mission", "", *HOURS)
    order = _integer(top, "order", "", 16, 40, default=28)
    type_tables = _entries(top, "type", 0, 32)
    subsystem_tables = _entries(top, "subsystem", 1, 6)
    types = {}
    for number, table in enumerate(type_tables):
        path = f"type[{number}]."
        _unknown(table, ("name",) + FIGURES, path)
        name = _name(table, path, types)
        types[name] = _figures(table, path)
    subsystems = {}
    for number, table in enumerate(subsystem_tables):
        subsystem = _subsystem(table, f"subsystem[{number}].", subsystems, types)
        subsystems[subsystem.name] = subsystem
    return Loop(mission, order, tuple(subsystems.values()))


def read_loop(path):
    with open(path, "rb") as file:
        return loop_of(file.read())
