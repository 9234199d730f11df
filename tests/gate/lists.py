"""Reads what a person lists by hand: crates.txt, and the tables of docs/PROMISES.md and docs/EXCEPTIONS.md.

Each reader gives what it read and, beside it, a list of problems as (file:line, what).
"""

import re

from .sources import NAME, read

CRATE = r"[a-z_][a-z0-9_]*"
FUNCTION = rf"{CRATE}(?:::\w+)+"
THEOREM = rf"(?:{NAME}\.)*{NAME}"
WRONG = rf"(?:edit:[\w-]+|theorem:{THEOREM})"

# A table is known by its header row; every cell below has the shape that stands here. Other tables are text.
CRATES = {"crate": CRATE, "holds": ".+"}
PROMISES = {"function": FUNCTION, "promise": NAME, "one answer": f"open: .+|{THEOREM}",
            "wrong answers ruled out": f"(?:{WRONG}(?:, *{WRONG})*)?"}
EXPORTS = {"exported": FUNCTION, "promises what is promised by": FUNCTION}
EDITS = {"edit": rf"{CRATE}/[\w-]+", "refused by": rf"{THEOREM}|fn \w+(?:::\w+)* {NAME}"}
EXCEPTIONS = {"function": FUNCTION, "what is open": ".+", "why": ".+"}


def crates_listed(root):
    """crates.txt, a line `NAME: DEP DEP ..` for each crate, of a static library `NAME staticlib: DEP ..`: {name: place}."""
    found, problems = {}, []
    for place, line in lines_of(root, "crates.txt", problems):
        line = line.split("#")[0].strip()
        entry = re.fullmatch(rf"({CRATE})(?:\s+staticlib)?\s*:(?:\s*{CRATE})*", line)
        if line and not entry:
            problems.append((place, f"expected `NAME: DEP DEP ..`, found `{line}`"))
        elif line and entry[1] in found:
            problems.append((place, f"{entry[1]} is listed a second time"))
        elif line:
            found[entry[1]] = place
    return found, problems


def table(root, file, shape):
    """All tables of a file with this header: {first cell: (place, the other cells)}. An empty line ends a table."""
    found, problems = {}, []
    below = 0  # how many lines of a table stand above this one; 0 outside of every table
    for place, line in lines_of(root, file, problems):
        line = line.strip()
        cells = [cell.strip().replace("`", "") for cell in line.removeprefix("|").removesuffix("|").split("|")]
        if cells == list(shape):
            below = 1
        elif not line or not below:
            below = 0
        else:
            below += 1
            problem = misfit(line, cells, shape, found) if below > 2 else no_dashes(cells)
            if problem:
                problems.append((place, problem))
            elif below > 2:
                found[cells[0]] = (place, cells[1:])
    return found, problems


def no_dashes(cells):
    """What is wrong with the second line of a table, if anything is."""
    return None if all(re.fullmatch(":?-+:?", cell) for cell in cells) else "expected dashes under a table's header"


def misfit(line, cells, shape, found):
    """What is wrong with a row, if anything is."""
    if not line.startswith("|") or len(cells) != len(shape):
        return f"expected a row `| {' | '.join(shape)} |`, found `{line}`"
    for cell, (column, form) in zip(cells, shape.items()):
        if not re.fullmatch(form, cell):
            return f"`{cell}` does not have the form of the column `{column}`"
    return f"{cells[0]} has a row already" if cells[0] in found else None


def lines_of(root, file, problems):
    """(file:line, line) for each line of a file. That it is not there is a problem; exceptions there may be none."""
    if not (root / file).is_file():
        if file != "docs/EXCEPTIONS.md":
            problems.append((file, "there is no such file"))
        return []
    return [(f"{file}:{number}", line) for number, line in enumerate(read(root / file).split("\n"), 1)]
