"""Counts what was checked, and prints what failed and what it cost, beside what it cost when it was last recorded."""

import time
import traceback
from pathlib import Path

RECORD = "docs/gate.txt"
OLDER = "# These figures are of an older kit"
SHOWN = 10


class Report:
    def __init__(self, mode):
        self.mode = mode    # ci, fast or quick: seconds of one are not compared with those of another
        self.part = ""
        self.passed = self.failed = self.skipped = 0
        self.failures = []  # the lines that begin with FAIL
        self.costs = {"part": {}, "step": {}, "crate": {}, "edit": {}}  # seconds by name
        self.kept = None    # what rt all check said in this run
        self.checks = {}    # how many each part made

    def run(self, name, part, root):
        """Runs one part. A part that dies is a failure like any other, and the next part still runs."""
        self.part = name
        passed, failed, began = self.passed, self.failed, time.monotonic()
        print(f"== {name}")
        try:
            part(root, self)
        except Exception as error:
            place = traceback.extract_tb(error.__traceback__)[-1]
            self.fail(f"{Path(place.filename).name}:{place.lineno}", f"this part died: {type(error).__name__}: {error}")
        took = time.monotonic() - began
        self.costs["part"][name] = round(took, 1)
        self.checks[name] = self.passed - passed + self.failed - failed
        print(f"== {name}: {self.passed - passed} passed, {self.failed - failed} failed, {took:.1f} s")

    def fail(self, where, what, count=1):
        self.failed += count
        self.failures.append(f"FAIL {self.part}: {where}: {what}")
        print(self.failures[-1])

    def check(self, problems):
        """One thing was checked. It passed if nothing, as (where, what), is wrong with it."""
        for where, what in problems:
            self.fail(where, what)
        self.passed += not problems

    def expect(self, held, where, what):
        self.check([] if held else [(where, what)])

    def end(self, root):
        """Prints the sum of it all, and gives the exit status."""
        print("== seconds  checks  part")
        for name, took in self.costs["part"].items():
            print(f"{took:10.1f}{self.checks[name]:8}  {name}")
        for kind in ("step", "crate", "edit"):
            dearest = sorted(self.costs[kind].items(), key=lambda cost: -cost[1])[:SHOWN]
            if dearest:
                print(f"== the dearest {kind}s, of {len(self.costs[kind])} in {sum(self.costs[kind].values()):.0f} s")
                print("\n".join(f"{took:10.1f}  {name}" for name, took in dearest))
        if self.mode != "quick":
            print("\n".join([f"== {RECORD} has figures of an older kit, with which nothing is compared"] if is_older(root) else compared(recorded(root), self)))
        if self.failures:
            print("== what failed")
            print("\n".join(self.failures))
        if self.mode != "ci":
            print(f"This was ./test --{self.mode}. It is no verdict of the kit: that is ./test, which runs rt ci.")
        print(f"{self.passed} passed, {self.failed} failed" + (f", {self.skipped} skipped" if self.skipped else ""))
        return 1 if self.failed else 0


# ---- the record: a line `MODE KIND NAME SECONDS` for each cost, and `MODE part NAME SECONDS CHECKS`

def is_older(root):
    """A record of an older kit is compared with nothing, and the first new one takes its place."""
    path = root / RECORD
    return path.is_file() and any(line.startswith(OLDER) for line in path.read_text(encoding="utf-8").split("\n"))


def recorded(root):
    """{(mode, kind, name): [seconds, checks if it is a part]}"""
    path = root / RECORD
    lines = path.read_text(encoding="utf-8").split("\n") if path.is_file() else []
    return {tuple(words[:3]): list(map(float, words[3:])) for words in map(str.split, lines) if len(words) > 3 and words[0] != "#"}


def record(root, report):
    """Writes what this run cost, and keeps what other modes cost."""
    old = {} if is_older(root) else recorded(root)
    kept = [" ".join([*key, *(f"{number:g}" for number in numbers)]) for key, numbers in old.items() if key[0] != report.mode]
    own = [f"{report.mode} {kind} {name} {took:g}" + (f" {report.checks[name]}" if kind == "part" else "")
           for kind, costs in report.costs.items() for name, took in costs.items()]
    head = "# What the gate cost when ./test --record last ran: mode, kind, name, seconds, and of a part its checks. docs/GATE.md says more."
    (root / RECORD).write_text("\n".join([head, *sorted(kept + own)]) + "\n", encoding="utf-8")


def compared(before, report):
    """What became dearer or cheaper, by part; crates and edits that became dearer by over 20 % and 3 s; what is new, and what is gone."""
    mode = report.mode
    known = {key[1:]: numbers for key, numbers in before.items() if key[0] == mode}
    if not known:
        return [f"== {RECORD} has no record of this mode"]
    lines = [f"== beside {RECORD}"]
    for name, took in report.costs["part"].items():
        seconds, checks = known.get(("part", name), (0, 0))
        lines.append(f"{took - seconds:+10.1f}{report.checks[name] - checks:+8.0f}  {name}")
    for kind in ("crate", "edit"):
        costs, old = report.costs[kind], {name: numbers[0] for (sort, name), numbers in known.items() if sort == kind}
        if not costs:
            continue
        lines += [f"dearer: {kind} {name}, {old[name]:.0f} s to {took:.0f} s" for name, took in costs.items()
                  if name in old and took > old[name] * 1.2 and took > old[name] + 3]
        lines += [f"new: {kind} {name}, {took:.0f} s" for name, took in costs.items() if name not in old]
        lines += [f"gone: {kind} {name}, {took:.0f} s" for name, took in old.items() if name not in costs]
    return lines
