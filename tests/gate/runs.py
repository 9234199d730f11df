"""The parts of the gate that run something: proves, in three ways, harmless, parts, sabotage."""

import os
import re
import shutil
import subprocess
import tempfile
import time
from collections import Counter
from concurrent.futures import ThreadPoolExecutor
from pathlib import Path

from . import edits, prover, sources
from .checks import NO_RT, file_of

# Every test of tests/parts/. One that is not listed there, or is listed and cannot be run, fails.
LISTED = "tests/gate/parts.txt"


def live(command, root):
    """Runs a command and shows what it writes as it comes: (status, lines)."""
    lines = []
    with subprocess.Popen(command, cwd=root, stdout=subprocess.PIPE, stderr=subprocess.STDOUT, encoding="utf-8", errors="replace") as run:
        for line in run.stdout:
            print(line, end="")
            lines.append(line.rstrip("\n"))
    return run.returncode, lines


def count_of(lines):
    """[passed, failed, skipped] of a last line 'N passed, M failed' or 'N passed, M failed, K skipped'; None if that is not the last line."""
    count = re.fullmatch(r"(\d+) passed, (\d+) failed(?:, (\d+) skipped)?", lines[-1] if lines else "")
    return count and [int(number or 0) for number in count.groups()]


# ---- proves

def proves(root, report):
    """rt ci, the kit's gate: every crate proved, every must-fail edit refused, every program run. Then what rt ci does not compare, over kept work."""
    if not shutil.which("rt"):
        return report.fail(*NO_RT)
    status, lines = timed(report, "rt-ci", lambda: live(["rt", "ci"], root))
    judge(root, report, status, lines)
    over_kept(root, report)


def proves_fast(root, report):
    """The same over what earlier checks kept, and each edit tried there alone."""
    if not shutil.which("rt"):
        return report.fail(*NO_RT)
    _, failed = kept(root, report)
    report.passed += sum(crate not in failed and not prover.is_program(root, crate) for crate in prover.crates(root))
    over_kept(root, report, verdict=True)
    for crate in prover.crates(root):
        if prover.is_program(root, crate) and crate not in failed:
            report.check([(f"crates/{crate}", what) for what in run_problems(root, crate)])


def timed(report, name, call):
    began = time.monotonic()
    found = call()
    report.costs["step"][name] = round(time.monotonic() - began, 1)
    return found


# ---- what rt ci says

def judge(root, report, status, lines):
    """What rt ci passed, and what failed by its lines; and that it left out no edit and no program."""
    text = "\n".join(lines)
    passed, count, _ = count_of(lines) or (0, 0, 0)
    report.passed += passed
    names = [(name, what) for line in lines if line.startswith("rt: FAILED: ") for name, what in re.findall(r"(\S+)(?: \((run|tests)\))?", line[12:])]
    for name, what in names:
        report.fail(*reason(root, name, what, lines))
    said = next((line for line in lines if line.startswith("rt: ok; ")), "")
    if bool(status) != bool(names) or count != len(names) or bool(said) == bool(names):
        last = next((line for line in reversed(lines) if line.startswith("rt: ")), lines[-1] if lines else "")
        report.fail("rt ci", f"it ended with status {status}, and says `{last}`")
        return
    bad = re.findall(r"^rt: (?:must-fail )?(\S+?): BAD EDIT: (.*)", text, re.M)
    for name, why in bad:
        report.fail(file_of(name.removesuffix(".edit")) if name.count("/") == 1 else name, f"BAD EDIT: {why}")
    stated = re.search(r"must-fail edits: [^;]*, (\d+) bad", said)
    if stated and int(stated[1]) != len(bad):
        report.fail("rt ci", f"it counts {stated[1]} bad edits, and tells of {len(bad)}")
    failed = {name for name, _ in names}
    for crate in (crate for crate in prover.crates(root) if crate not in failed):
        tried = set(re.findall(rf"^rt: must-fail {crate}/(\S+)\.edit: ", text, re.M))
        for edit in edits.edits(root, crate):
            if edit.label not in tried:
                report.fail(file_of(edit.name), "rt ci did not try it")
        if prover.is_program(root, crate) and not re.search(rf"^rt: {crate} ran, and wrote what its file stdout has$", text, re.M):
            report.fail(f"crates/{crate}", "rt ci did not run it")


ERROR = re.compile(r"(?:note: )?(?:\./)?((?:src|specs|proofs)/\S+?:\d+):\d+: (?:error: )?(.*)")


def reason(root, name, what, lines):
    """Where and why rt ci says that a crate, a program, its tests or an edit (crate/label.edit) failed."""
    if "/" in name:
        place = file_of(name.removesuffix(".edit"))
        said = (re.match(rf"rt: must-fail {re.escape(name)}: (.*)", line) for line in lines)
    elif what:
        place = f"crates/{name}"
        said = (re.match(rf"rt: {name}(?: \([^)]*\))?: (.*)", line) for line in lines)
    else:
        place = f"crates/{name}"
        error = next(filter(None, map(ERROR.match, of_crate(lines, name))), None)
        if error:
            return f"{place}/{error[1]}", error[2]
        said = (re.match(rf"rt: (?:{name} )?((?:NOT PROVED|{place}|{name}/|run rt fmt).*)", line) for line in [*of_crate(lines, name), *lines])
    return place, next((found[1] for found in said if found), "rt ci lists it as failed")


def of_crate(lines, crate):
    """What a command of rt wrote of one crate: the lines under its heading."""
    if f"== {crate}" not in lines:
        return []
    start = lines.index(f"== {crate}") + 1
    return lines[start:next((at for at in range(start, len(lines)) if re.match(r"== |rt: \w+ (?:NOT PROVED|proved)", lines[at])), len(lines))]


# ---- over what was kept

def kept(root, report, counted=None):
    """rt all check, once in a run of the gate: every crate over what earlier checks here kept. Gives its lines, and the crates that failed, of which
    those that are counted are told."""
    if report.kept is None:
        status, lines = timed(report, "rt-all-check", lambda: live(["rt", "all", "check", "--jobs", str(prover.jobs())], root))
        failed = re.findall(r"^(\w+): (?:failed \(|not run, since)", "\n".join(lines[lines.index("== summary"):] if "== summary" in lines else []), re.M)
        for crate in (crate for crate in failed if counted is None or crate in counted):
            error = next(filter(None, map(ERROR.match, of_crate(lines, crate))), None)
            told = next(line for line in reversed(lines) if line.startswith(f"{crate}: ")).partition(": ")[2]
            report.fail(f"crates/{crate}" + (f"/{error[1]}" if error else ""), error[2] if error else f"rt all check: {told}")
        if bool(status) != bool(failed):
            report.fail("rt all check", f"it ended with status {status}, and its last line is `{lines[-1] if lines else ''}`")
            failed = list(prover.crates(root))
        report.kept = lines, failed
    return report.kept


def over_kept(root, report, verdict=False):
    """Of each proved crate: gate and prover read the same functions. Of each edit: the prover's first error stands where it says; asked for a verdict,
    also that it is refused at all, which rt ci else says."""
    _, failed = kept(root, report)
    proved = [crate for crate in prover.crates(root) if crate not in failed]
    with ThreadPoolExecutor(prover.jobs()) as pool:
        for crate, (problem, told, took, text) in zip(proved, pool.map(lambda crate: over(root, crate), proved)):
            print(f"{crate}: {told}")
            report.costs["crate"][crate] = round(took, 1)
            report.check(problem or reading_problems(root, crate, text))
    for trial in trials(root, proved):
        report.costs["edit"][trial.edit.name] = round(trial.seconds, 1)
        if verdict:
            report.check([(file_of(trial.edit.name), what) for what in trial.unlike])
        if not verdict or not trial.unlike:
            report.check([(file_of(trial.edit.name), what) for what in trial.unlike + trial.problems])


def over(root, crate):
    """A crate over what its own check kept: (problems, told, seconds, what the prover said)."""
    began = time.monotonic()
    status, text, loaded, checked = prover.check_over(root, crate, root / "crates" / crate)
    took = time.monotonic() - began
    first = edits.first_refusal(text, root / "crates" / crate)
    problem = [] if prover.proved(status, text) else [(f"crates/{crate}", f"not proved (exit {status}), first at {first}")]
    return problem, f"{'not ' if problem else ''}proved, modules taken over {loaded}, checked {checked} ({took:.0f} s)", took, text


def reading_problems(root, crate, text):
    """The functions that the gate reads of a crate are the ones that the prover names, by their last names. Closures, which it names below `fn`, are none."""
    read = Counter(function.name.split("::")[-1] for function in sources.functions(root, crate)) + Counter(sources.derived(root, crate))
    proved = Counter(name.split("::")[-1] for name in re.findall(rf"^fn {crate}::([\w:]*\w): ", text, re.M) if "fn" not in name.split("::"))
    return [(f"crates/{crate}/src", f"the gate reads {read[name]} functions `{name}`, the prover {proved[name]}")
            for name in sorted({*read, *proved}) if read[name] != proved[name]]


def trials(root, crates, harmless=False):
    """Every edit of some crates, or its harmless neighbour, each told as it ends; the edits of large crates first."""
    listed = [edit for crate in crates for edit in edits.edits(root, crate)]
    weight = {crate: sum(file.stat().st_size for file in (root / "crates" / crate / "proofs").rglob("*.antt")) for crate in crates}
    listed.sort(key=lambda edit: -weight[edit.crate])
    with tempfile.TemporaryDirectory(prefix="gate-") as work, ThreadPoolExecutor(prover.jobs()) as pool:
        for trial in pool.map(lambda edit: edits.tried(root, edit, Path(work), harmless), listed):
            print(trial.told)
            yield trial


def harmless(root, report, crates=()):
    """The harmless neighbour of each edit is accepted: what refuses the edit is what it changes, and not that the line changed."""
    if not shutil.which("rt"):
        return report.fail(*NO_RT)
    _, failed = kept(root, report)
    for trial in trials(root, [crate for crate in crates or prover.crates(root) if crate not in failed], harmless=True):
        report.check([(file_of(trial.edit.name), what) for what in trial.unlike])


def run_problems(root, crate):
    """A program, as rt run builds it, writes what its file stdout has, and ends as its file status says."""
    home = root / "crates" / crate
    given, wanted, status, words = ((home / name).read_bytes() if (home / name).is_file() else b"" for name in ("stdin", "stdout", "status", "args"))
    words = words.decode().split("\n")[:-1]
    run = subprocess.run(["rt", "run", *(["--", *words] if words else [])], cwd=home, input=given, capture_output=True)
    print(f"{crate}: ran, status {run.returncode}, {len(run.stdout)} bytes")
    found = [] if run.stdout == wanted else ["what the program wrote is not what its file stdout has"]
    return found + ([] if run.returncode == int(status or 0) else [f"the program ended with status {run.returncode}"])


def quick(root, report, crate):
    """One crate whole, and every other over what its last check left. Of these the ones that rest on it count."""
    if not shutil.which("rt"):
        return report.fail(*NO_RT)
    status, lines = timed(report, "rt-check", lambda: live(["rt", "check"], root / "crates" / crate))
    text = "\n".join(lines)
    if not prover.proved(status, text):
        first = edits.first_refusal(text, root / "crates" / crate)
        return report.fail(f"crates/{crate}", f"not proved (exit {status}), first at {first}")
    report.check(reading_problems(root, crate, text))
    above = prover.above(root, crate)
    _, failed = kept(root, report, above)
    report.passed += sum(name not in failed for name in above)


# ---- parts, sabotage

def parts(root, report):
    listed = sources.read(root / LISTED).split()
    there = {path.name for path in (root / "tests/parts").glob("*") if path.name != "__pycache__"}
    for name in sorted({*listed, *there}):
        path = root / "tests/parts" / name
        if name not in listed:
            report.fail(f"tests/parts/{name}", f"{LISTED} does not list it")
        elif not (path.is_file() and os.access(path, os.X_OK)):
            report.fail(f"tests/parts/{name}", "it is listed, and cannot be run")
        else:
            run_counted(path, root, report)


def sabotage(root, report):
    run_counted(root / "tests/sabotage", root, report)


def run_counted(path, root, report):
    """Runs a test whose last line is a count, and adds that to the report. What it skips it says, each with a reason."""
    name = path.relative_to(root).as_posix()
    print(f"-- {name}")
    status, lines = live([str(path)], root)
    passed, failed, skipped = count_of(lines) or (0, 0, 0)
    reasons = [line for line in lines if re.match(r"skipped: \S", line)]
    report.passed += passed
    report.skipped += skipped
    if failed:
        report.fail(name, f"{failed} failed", failed)
    elif status or not count_of(lines):
        report.fail(name, f"it ended with status {status}, and its last line is `{lines[-1] if lines else ''}`")
    elif len(reasons) != skipped:
        report.fail(name, f"it counts {skipped} skipped, and gives {len(reasons)} reasons")
    elif not passed and not skipped:
        report.fail(name, "it made no check")
