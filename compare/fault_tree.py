"""PFDavg and PFH of a loop by the fault-tree program SCRAM, as a fault tree of its channels.

A channel is failed where a basic event of its own has happened: an undetected failure that every test finds, one that
only a full test finds, a detected failure. Common cause failures are basic events of the subsystem. The loop is down
where in some subsystem too many channels are failed, or a common cause has happened. What a fault tree of these basic
events cannot say (a test that leaves a fault; a common cause whose channels are tested at different hours) is left out,
and the names of what was left out are told.
"""
import re
import shutil
import subprocess
import tempfile
from pathlib import Path
from xml.sax.saxutils import quoteattr


def number(x):
    return f'<float value="{float(x)!r}"/>'


def tested(rate, s, first, every, mission):
    """A basic event's formula for failures that stay until the test after them."""
    if first is None or first >= mission:
        return f"<exponential>{number(rate)}<system-mission-time/></exponential>"
    repair = "" if s.tripped else number(1 / s.repair)
    return f"<periodic-test>{number(rate)}{repair}{number(every)}{number(first)}<system-mission-time/></periodic-test>"


def failures(s, du, dd, channel, mission):
    """The formulas of the basic events of a channel, or of the common cause of all where the channel is 0."""
    first = every = None
    if s.test is not None:
        first, every = s.test.first + channel * s.test.stagger, s.test.every
    formulas = []
    if du * s.coverage:
        formulas.append(tested(du * s.coverage, s, first, every, mission))
    if du * (1 - s.coverage):
        later = None if first is None else first + (s.test.full_each - 1) * every
        formulas.append(tested(du * (1 - s.coverage), s, later, every and every * s.test.full_each, mission))
    if dd and not s.tripped:
        formulas.append(f"<GLM>{number(0)}{number(dd)}{number(1 / s.repair)}<system-mission-time/></GLM>")
    return formulas


def gate(name, kind, members):
    return f"<define-gate name={quoteattr(name)}><{kind}>{''.join(members)}</{kind.split()[0]}></define-gate>"


class Tree:
    def __init__(self, loop):
        self.loop = loop
        self.gates, self.events, self.left_out = [], [], []
        tops = [self.subsystem(k, s) for k, s in enumerate(loop.subsystems)]
        self.gates.append(self.either("top", tops))

    def basic(self, name, formula):
        self.events.append(f"<define-basic-event name={quoteattr(name)}>{formula}</define-basic-event>")
        return f"<basic-event name={quoteattr(name)}/>"

    def either(self, name, members):
        """A gate that is true where one member is; the tool wants two at least, so events of chance 0 help."""
        if len(members) < 2:
            members = members + [self.basic(f"{name}-never-{len(members)}", number(0))]
        if len(members) < 2:
            members = members + [self.basic(f"{name}-never", number(0))]
        return gate(name, "or", members)

    def subsystem(self, k, s):
        mission, channels = self.loop.mission, []
        for i in range(s.channels):
            name = f"s{k}-channel{i}"
            formulas = failures(s, (1 - s.beta) * s.du, (1 - s.beta_d) * s.dd, i, mission)
            self.gates.append(self.either(name, [self.basic(f"{name}-{n}", f) for n, f in enumerate(formulas)]))
            channels.append(f"<gate name={quoteattr(name)}/>")
        too_many = s.channels - s.needed + 1
        own = f"s{k}-own"
        if too_many == 1:
            self.gates.append(self.either(own, channels))
        elif too_many == s.channels:
            self.gates.append(gate(own, "and", channels))
        else:
            self.gates.append(gate(own, f'atleast min="{too_many}"', channels))
        members = [f"<gate name={quoteattr(own)}/>"]
        for n, formula in enumerate(failures(s, s.beta * s.du, s.beta_d * s.dd, 0, mission)):
            members.append(self.basic(f"s{k}-common{n}", formula))
        self.gates.append(self.either(f"s{k}", members))
        if s.restart_fault and s.test is not None:
            self.left_out.append("restart faults")
        if s.beta and s.test is not None and s.test.stagger:
            self.left_out.append("the stagger of common cause")
        return f'<gate name="s{k}"/>'

    def text(self):
        return ('<?xml version="1.0"?>\n<opsa-mef><define-fault-tree name="loop">' + "\n".join(self.gates + self.events)
                + "</define-fault-tree></opsa-mef>\n")


def program():
    return shutil.which("scram")


def version():
    return subprocess.run([program(), "--version"], capture_output=True, text=True).stdout.split()[1]


def figures_of(loop, step=1):
    """PFDavg and PFH as the tool prints them, what was left out, and the mean of p(t)/t from its own curve."""
    tree = Tree(loop)
    with tempfile.TemporaryDirectory() as folder:
        source, report = Path(folder) / "loop.xml", Path(folder) / "report.xml"
        source.write_text(tree.text())
        subprocess.run([program(), "--probability", "1", "--sil", "1", "--mission-time", str(loop.mission),
                        "--time-step", str(step), "-o", str(report), str(source)], check=True, capture_output=True)
        text = report.read_text()
    line = re.search(r'PFD-avg="([^"]+)" PFH-avg="([^"]+)"', text)
    curve = [(float(x), float(y)) for x, y in re.findall(r'<point X="([^"]+)" Y="([^"]+)"', text)]
    rates = [(x, y / x if x else 0.0) for x, y in curve]
    mean = sum((b[0] - a[0]) * (a[1] + b[1]) / 2 for a, b in zip(rates, rates[1:])) / loop.mission
    return float(line[1]), float(line[2]), tree.left_out, mean
