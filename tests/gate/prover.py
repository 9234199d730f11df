"""Asks the kit's prover about one crate, over what a check of it kept.

`rt all check` leaves the library of each crate in crates/NAME/out/rlib, and what it checked in crates/NAME/out/incremental. Over a copy of that,
each module that is still current is taken over, and only what a change reaches is checked again. rt itself tries must-fail edits so, but tells of each
only the beginning of what the prover said first, and tries no harmless neighbour. So rattle is called here as rt calls it. Nothing that is asked
here is a verdict.
"""

import os
import re
import shutil
import signal
import subprocess
import tempfile
from functools import cache
from pathlib import Path


def jobs():
    """How many crates and edits are checked side by side."""
    return int(os.environ.get("RT_JOBS") or min(len(os.sched_getaffinity(0)), 4))


def kit():
    """The kit's folder."""
    return kit_of(shutil.which("rt"))


@cache
def kit_of(rt):
    said = subprocess.run([rt, "doc"], capture_output=True, encoding="utf-8", check=True).stdout
    return Path(said.strip()).parent


# ---- crates.txt

LINE = re.compile(r"(\w+)((?:\s+[^\s:]+)*)\s*:(.*)")


def crates(root):
    """{crate: what crates.txt lists below it}, in the order of the file."""
    return {line[1]: line[3].split() for line in lines(root)}


def lines(root):
    text = (root / "crates.txt").read_text(encoding="utf-8")
    return [found for found in (LINE.fullmatch(line.split("#")[0].strip()) for line in text.split("\n")) if found]


def above(root, crate):
    """The crates that rest on a crate, at whatever distance."""
    found, listed = [], crates(root)
    for _ in listed:  # a line may stand above the lines of what it lists
        found += [other for other, below in listed.items() if other not in found and {crate, *found} & {*below}]
    return found


def below(root, crate):
    """The repository's crates on which a crate rests, at whatever distance."""
    listed, found = crates(root), []
    for name in (name for name in listed[crate] if name in listed):
        found += [other for other in [*below(root, name), name] if other not in found]
    return found


def is_program(root, crate):
    return (root / "crates" / crate / "src/main.rt").is_file()


def is_static(root, crate):
    return any(line[1] == crate and "staticlib" in line[2].split() for line in lines(root))


# ---- a check

def library(root, crate):
    return root / f"crates/{crate}/out/rlib/{crate}.rlib"


def check(root, crate, place, *more):
    """What `rattle check` says of a crate that lies at a place: (exit status, text)."""
    home, listed = kit(), crates(root)
    words = ["--crate-name", crate, "src/main.rt" if is_program(root, crate) else "src/lib.rt", "--extern", f"std={home}/rlibs/std.rlib"]
    for name in listed[crate]:
        words += ["--extern", f"{name}={library(root, name) if name in listed else home / f'rlibs/{name}.rlib'}"]
    words += ["-L", f"dependency={home}/rlibs"]
    for name in below(root, crate):
        words += ["-L", f"dependency={library(root, name).parent}"]
    words += ["--antt-project", home / "rattle/logic/antt-project.json", "--logic-built", home / "logic_built", "--jobs", "1", "--links", f"{crate}="]
    words += ["--crate-type", "staticlib"] if is_static(root, crate) else []
    for _ in range(2):
        run = subprocess.run([home / "bin/rattle", "check", *words, *more], cwd=place, stdin=subprocess.DEVNULL, stdout=subprocess.PIPE,
                             stderr=subprocess.STDOUT, encoding="utf-8", errors="replace")
        if run.returncode != -signal.SIGKILL:  # most likely for memory: once more
            break
    return run.returncode, run.stdout


def check_over(root, crate, place):
    """The same over what the crate's own check kept: (exit status, text, how many modules were taken over, how many checked again)."""
    kept = root / f"crates/{crate}/out/incremental"
    with tempfile.TemporaryDirectory(prefix="gate-") as folder:
        if kept.is_dir():
            shutil.copytree(kept, f"{folder}/kept", copy_function=link_or_copy)
        status, text = check(root, crate, place, "--incremental", f"{folder}/kept")
    counts = re.search(r"^crate \w+: modules loaded=(\d+) checked=(\d+)", text, re.M)
    return status, text, *(map(int, counts.groups()) if counts else (0, 0))


def link_or_copy(one, other):
    """A checked module gets a second name, since a check replaces such a file and changes none; any other file is copied."""
    if one.endswith(".oantt"):
        try:
            return os.link(one, other)
        except OSError:
            pass
    return shutil.copy2(one, other)


def proved(status, text):
    return status == 0 and bool(re.search(r"^logic=proved ", text, re.M))


def refused(status, text):
    return status == 1 and bool(re.search(r"^logic=not-proved", text, re.M))
