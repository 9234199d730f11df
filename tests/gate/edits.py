"""Must-fail edits: what one says, where the prover's first error must stand, and the trial of one over what its crate's own check kept.

    # refused at: proofs/push/Answers.antt returns     the file, and the declaration that the first error stands in; or
    # refused at: fn FieldVec::new returns             a function, and the goal of it that has no answer and that the search left open
    # harmless: a text in place of the first `new:`    with which the crate is still proved (a second line for the second `new:`, and so on)
"""

import re
import shutil
import time
from dataclasses import dataclass

from . import prover, sources
from .sources import NAME, read

# What the prover says when the code no longer has the shape that the proof was written for. Such an edit shows nothing of the promise.
SHAPE = re.compile(r"error: .*(?:has no field|has no `[^`]*` that can be named|can be named from here|not in scope|"
                   r"expected type `(?:tie|goal)\.[^`]+`, but this has type `(?:tie|goal)\.|"
                   r"where one has `\S*\.Lts\.(?:Start|Else\S*|Then-\S+|In[-_]\S+|After-\S+)`)")

# Goals that only keep the machine safe: what an operation, a cast, an index or a range asks.
SAFETY = re.compile(r"(?:overflow_(?:add|sub|mul|shl|shr|cast|step)|nonzero_(?:div|rem)|bounds|slice_bounds|offset_bounds)(?:-.*)?")

# What a call asks: the name of the called function first. Where that is none of ours, it is the library's, which asks no more than safety.
ASKED = re.compile(r"(\w+)-(?:.*-)?requires(?:-.*)?")


@dataclass
class Edit:
    crate: str
    label: str
    refused_at: list  # what stands after `# refused at:`
    harmless: list    # what stands after `# harmless:`
    changes: list     # (file, old, new)

    @property
    def name(self):
        return f"{self.crate}/{self.label}"


def edit_of(path):
    comments, changes = {"refused at": [], "harmless": []}, []
    file = old = ""
    for line in read(path).split("\n"):
        comment = re.match(r"# (refused at|harmless):[ ]?(.*)", line)
        word, _, text = line.partition(":")
        if comment:
            comments[comment[1]].append(comment[2])
        elif word == "file":
            file = text.strip()
        elif word == "old":
            old = text.removeprefix(" ")
        elif word == "new":
            changes.append((file, old, text.removeprefix(" ")))
    return Edit(path.parts[-3], path.stem, *comments.values(), changes)


def edits(root, crate):
    return [edit_of(path) for path in sorted((root / "crates" / crate / "must-fail").glob("*.edit"))]


# ---- where it is refused

@dataclass
class Refusal:
    file: str     # `fn` for a function that has no proof file
    name: str     # the declaration, or the function as crate::module::name
    goal: str     # the goal that it answers, if it does

    def __str__(self):
        return f"fn {self.name.partition('::')[2]} {self.goal}" if self.file == "fn" else f"{self.file} {self.name}"


def first_refusal(text, place):
    """What the prover's first error is about. `place` is where the edited crate lies."""
    lines = text.split("\n")
    for at, line in enumerate(lines):
        error = re.match(rf"(?:\./)?(\S+?):(\d+):\d+: (?:error(?:\[[\w-]+\])?: (?:`({NAME})`: )?|`({NAME})` is not admitted)", line)
        if error:
            name = error[3] or error[4] or declaration_at(place / error[1], int(error[2]))
            return Refusal(error[1], name, goal_of(place / error[1], name))
        left = re.match(r"note: (?:\./)?src/\S+?:\d+:\d+: it is not proved that .*?\(`([^`]+)`\)", line)
        unproved = re.match(r"fn (\S+): (?:not proved|no proof)(?:.*did not prove `([^`]+)`)?", line)
        if left:  # the line of its function follows
            functions = (re.match(r"fn (\S+): (?:not proved|no proof)", later) for later in lines[at:])
            return Refusal("fn", next((found[1] for found in functions if found), ""), left[1])
        if unproved:
            return Refusal("fn", unproved[1], unproved[2] or "")
    return None


def declaration_at(path, line):
    """The last name that stands at a line's start up to this line."""
    above = read(path).split("\n")[:line] if path.is_file() else []
    heads = [re.match(rf"(?:(?:unfoldable|abbrev|pub|record)\s+)*({NAME})", text) for text in above]
    return next((head[1] for head in reversed(heads) if head and not head[1].startswith("--")), "")


def goal_of(path, name):
    """The goal that a declaration answers: `returns` where its signature has `goal.returns`, or `tie.Need-returns`; none for any other declaration."""
    found = re.search(rf"^(?:pub\s+)?{re.escape(name)}\s+:\s.*?\b(?:goal\.|Need-)([^\s(){{}}.;,]+)", read(path), re.M) if path.is_file() else None
    return found[1] if found else ""


def function_names(root):
    return {function.name.split("::")[-1] for crate in prover.crates(root) for function in sources.functions(root, crate)}


def is_safety(root, goal):
    """A goal keeps only the machine safe: by its name, or since it is what a function of the library asks."""
    asked = ASKED.fullmatch(goal)
    return bool(asked and asked[1] not in function_names(root)) or not asked and bool(SAFETY.fullmatch(goal))


def refusal_problems(root, edit, text, place):
    """The prover's first error stands where the edit says, and for the fact that was changed."""
    refusal = first_refusal(text, place)
    if not refusal:
        return ["the prover's first error was not found"]
    found = []
    if not any(same_place(stated.split(), refusal) for stated in edit.refused_at):
        found.append(f"it is first refused at `{refusal}`, and says `{', '.join(edit.refused_at) or 'nothing'}`")
    shape = SHAPE.search(text)
    if shape:
        found.append(f"it is refused for its shape: {shape[0].removeprefix('error: ')}")
    if is_safety(root, refusal.goal):
        found.append(f"it is refused for safety, at {refusal.goal}, and not for what it changes")
    return found


def same_place(stated, refusal):
    if refusal.file == "fn":
        return len(stated) == 3 and stated[0] == "fn" and ends_in(refusal.name, stated[1]) and stated[2] == refusal.goal
    return stated == [refusal.file, refusal.name]


def ends_in(function, name):
    """`decode::scan::part` is meant by `part`, `scan::part` and by itself."""
    return f"::{function}".endswith(f"::{name}")


# ---- tried over what was kept

@dataclass
class Trial:
    edit: Edit
    seconds: float
    unlike: list    # the prover said something else than it must: a refusal, or of a harmless neighbour an acceptance
    problems: list  # it said that, and not where or why it must
    told: str


def tried(root, edit, work, harmless=False):
    """An edit, or its harmless neighbour, in a copy of the crate and over what the crate's own check kept."""
    place = work / edit.name / ("harmless" if harmless else "edit")
    for part in sources.PARTS:
        if (root / "crates" / edit.crate / part).is_dir():
            shutil.copytree(root / "crates" / edit.crate / part, place / part)
    changes = [(file, old, new) for (file, old, _), new in zip(edit.changes, edit.harmless)] if harmless else edit.changes
    unlike, problems, counts = changed(place, changes), [], ""
    began = time.monotonic()
    if not unlike:
        status, text, loaded, checked = prover.check_over(root, edit.crate, place)
        counts = f", modules taken over {loaded}, checked {checked}"
        if not (prover.proved if harmless else prover.refused)(status, text):
            unlike = [f"NOT {'ACCEPTED' if harmless else 'REFUSED'} (exit {status})"]
        elif not harmless:
            problems = refusal_problems(root, edit, text, place)
    took = time.monotonic() - began
    shutil.rmtree(place)
    told = "; ".join(unlike + problems) or ("accepted" if harmless else "refused") + ", as it must be"
    return Trial(edit, took, unlike, problems, f"{'harmless' if harmless else 'must-fail'} {edit.name}: {told} ({took:.0f} s{counts})")


def changed(place, changes):
    """Makes the changes in a crate's copy; what is wrong with them."""
    if not changes:
        return ["BAD EDIT: it has no 'old:' and 'new:' pair, or no `# harmless:`"]
    for file, old, new in changes:
        text = read(place / file) if (place / file).is_file() else ""
        if not old or text.count(old) != 1:
            return [f"BAD EDIT: `{old}` stands in {file} {text.count(old) if old else 0} times"]
        (place / file).write_text(text.replace(old, new), encoding="utf-8")
    return []
