"""The parts of the gate that read and do not run: formats, knows, promises."""

import re
import shutil
import subprocess

from . import edits, lists, prover, sources, statements

NO_RT = ("rt", "it is not on PATH: install the Rattle kit, or add its bin folder to PATH")

# The files that rt reads of a crate. One of another kind would be taken for checked, and is not.
FILES = re.compile(r"src/.+\.rt|(?:specs|proofs)/.+\.antt|must-fail/[\w-]+\.edit|stdin|stdout|args|status|data/.+")


class Repository:
    """All that knows and promises need, read once."""

    def __init__(self, root):
        tables = [("docs/PROMISES.md", lists.CRATES), ("docs/PROMISES.md", lists.PROMISES),
                  ("docs/PROMISES.md", lists.EXPORTS), ("docs/PROMISES.md", lists.EDITS), ("docs/EXCEPTIONS.md", lists.EXCEPTIONS)]
        read = [lists.crates_listed(root)] + [lists.table(root, file, shape) for file, shape in tables]
        self.listed, self.crates, self.rows, self.exports, self.edits, self.open = (found for found, _ in read)
        self.problems = list(dict.fromkeys(problem for _, problems in read for problem in problems))

        folder = root / "crates"
        self.files = [path.relative_to(folder).as_posix() for path in sorted(sources.files(root))]
        self.folders = sorted(path.name for path in folder.glob("*") if path.is_dir())
        self.functions = [f for crate in self.folders for f in sources.functions(root, crate) if f.public]
        self.declared = {crate: sources.declarations(root, crate) for crate in self.folders}
        self.promises = {crate: {} for crate in self.folders}  # of each promise, how many arguments it takes
        for function in self.functions:
            said = statements.ensured(function)
            if said and function.name in self.rows:
                self.promises[function.name.split("::")[0]][said.promise] = len(said.arguments)
        self.edit_files = {f"{crate}/{label}" for crate, label in
                           re.findall(r"^(\w+)/must-fail/([\w-]+)\.edit$", "\n".join(self.files), re.M)}

    def theorems(self, crate, word):
        """The declarations of a crate that `name` or `File.name` can mean."""
        module, _, name = word.rpartition(".")
        return [d for d in self.declared[crate] if d.name == name and module in ("", d.module)]


# ---- formats

def formats(root, report):
    """Every file is in the layout of rt fmt. The prover's own command is asked, since rt fmt changes what it finds."""
    if not shutil.which("rt"):
        return report.fail(*NO_RT)
    files = [path.relative_to(root).as_posix() for path in sorted(sources.files(root)) if path.suffix in (".rt", ".antt")]
    run = subprocess.run([prover.kit() / "bin/rattle", "fmt", "--check", *files], cwd=root, stdout=subprocess.DEVNULL, stderr=subprocess.PIPE,
                         encoding="utf-8", errors="replace")
    wrong = [line for line in run.stderr.split("\n") if line.strip()] if run.returncode else []
    for line in wrong:
        place = next((file for file in files if line.startswith((f"{file} ", f"{file}:"))), None)
        report.fail(*((place, line.removeprefix(place).lstrip(": ")) if place else ("rattle fmt --check", line)))
    if run.returncode and not wrong:
        report.fail("rattle fmt --check", f"it ended with status {run.returncode}")
    report.passed += max(0, len(files) - len(wrong))


# ---- knows

def knows(root, report):
    """What is there is listed, and what is listed is there."""
    repository = Repository(root)
    for place, what in repository.problems:
        report.fail(place, what)
    for crate in sorted({*repository.folders, *repository.listed, *repository.crates}):
        report.check(crate_problems(repository, crate))
    for crate, place in repository.listed.items():
        report.check(edge_problems(root, repository, crate, place))
    for file in repository.files:
        if "/" not in file:
            report.fail(f"crates/{file}", "a file of no crate")

    public = {function.name for function in repository.functions}
    for function in repository.functions:
        known = function.name in repository.rows or function.name in repository.exports
        report.expect(known, place_of(function), f"{function.name} has no row in docs/PROMISES.md")
    for name, (place, _) in [*repository.rows.items(), *repository.exports.items(), *repository.open.items()]:
        report.expect(name in public, place, f"there is no public function {name}")


def crate_problems(repository, crate):
    if crate not in repository.folders:
        place = repository.listed.get(crate) or repository.crates[crate][0]
        return [(place, f"there is no folder crates/{crate}")]
    problems = []
    if crate not in repository.listed:
        problems.append((f"crates/{crate}", "crates.txt does not list it"))
    if crate not in repository.crates:
        problems.append((f"crates/{crate}", "the table of crates in docs/PROMISES.md does not list it"))
    own = [file.removeprefix(f"{crate}/") for file in repository.files if file.startswith(f"{crate}/")]
    unknown = [file for file in own if not FILES.fullmatch(file)]
    return problems + [(f"crates/{crate}/{file}", "a file of a kind that no crate has") for file in unknown]


def edge_problems(root, repository, crate, place):
    """The crates below that nothing of a crate names: `other::` or `use other` in its code, `Rattle.other.` in code or antt."""
    files = [path for path in sources.files(root, crate) if path.suffix in (".rt", ".antt")]
    text = "\n".join(sources.read_without(sources.RATTLE_SILENT if path.suffix == ".rt" else sources.ANTT_SILENT, path) for path in files)
    return [(place, f"{crate} names nothing of {other}") for other in prover.crates(root)[crate]
            if other in repository.folders and not re.search(rf"\b{other}::|\buse {other}\b|Rattle\.{other}\.", text)]


def place_of(function):
    return f"{function.file}:{function.line}"


def file_of(edit):
    """Of crate/label, where that edit stands."""
    return "crates/" + edit.replace("/", "/must-fail/") + ".edit"


# ---- promises

def promises(root, report):
    """Every public function says all that it does, to one answer, and wrong answers were tried."""
    repository = Repository(root)
    for function in repository.functions:
        report.check(contract_problems(function) + row_problems(repository, function) + export_problems(root, repository, function))
    for crate, declared in repository.declared.items():
        wrong = [f"{d.module} gives {d.name} another meaning" for d in declared if d.name in statements.FIXED]
        wrong += [f"enum {name} has no value" for name in sources.empty_enums(root, crate)]
        report.check([(f"crates/{crate}", what) for what in wrong])
    named = {}  # of each edit, the functions whose rows name it
    for name, (_, cells) in repository.rows.items():
        for label in re.findall(r"edit:([\w-]+)", cells[2]):
            named.setdefault(f"{name.split('::')[0]}/{label}", []).append(name)
    for edit in sorted(repository.edit_files):
        known = edit in named or edit in repository.edits
        what = edit_problems(root, repository, edit, named.get(edit, [])) if known else ["no row of docs/PROMISES.md names this edit"]
        report.check([(file_of(edit), each) for each in what])
    for edit, (place, (theorem,)) in repository.edits.items():
        report.check(definition_problems(root, repository, edit, place, theorem))


def contract_problems(function):
    """What is wrong with the function's clauses."""
    return [(place_of(function), f"{function.name} {what}") for what in statements.ensures_problems(function)]


def row_problems(repository, function):
    """What is wrong with the function's row. That it has none is for knows to say."""
    if function.name not in repository.rows:
        return []
    place, (promise, once, wrong_answers) = repository.rows[function.name]
    crate, said = function.name.split("::")[0], statements.ensured(function)
    home = f"Rattle.{crate}.specs.Promises.{promise}"
    if not said or said.promise != promise or function.brought.get(promise) != home:
        return [(place, f"the ensures of {function.name} is not {promise} of specs/Promises")]
    wrong = [f"{promise} {what}" for what in statements.promise_problems(repository.declared[crate], said)]
    wrong += uniqueness_problems(repository, function.name, crate, said, once)
    wrong += wrong_answer_problems(repository, function.name, crate, promise, wrong_answers)
    return [(place, what) for what in wrong]


def export_problems(root, repository, function):
    """What is wrong with the row of a function that a static library hands on to C: it promises, word for word, what a function below promises."""
    if function.name not in repository.exports:
        return []
    place, (name,) = repository.exports[function.name]
    if not prover.is_static(root, function.name.split("::")[0]):
        return [(place, f"{function.name} is of no static library, so it needs a promise of its own")]
    other = next((f for f in repository.functions if f.name == name and name in repository.rows), None)
    if not other:
        return [(place, f"there is no public function {name} that has a row")]

    def said(f):
        ensured = statements.ensured(f)
        return ensured and (f.parameters, f.lent, f.result, ensured, f.brought.get(ensured.promise))

    return [] if said(function) and said(function) == said(other) else [(place, f"{function.name} does not promise what {name} promises")]


def uniqueness_problems(repository, name, crate, said, once):
    """Two outcomes that both meet the promise are equal."""
    is_open = once.startswith("open: ")
    if is_open and name not in repository.open:
        return [f"{name} leaves its answer open, and docs/EXCEPTIONS.md does not list it"]
    if is_open:
        return []
    if name in repository.open:
        return [f"{name} stands in docs/EXCEPTIONS.md, so its one answer reads `open: ..`"]
    theorem = the_theorem(repository, crate, once)
    if not theorem:
        return [f"there is no public theorem {once} in specs/ or proofs/ of {crate}"]
    found = statements.theorem_problems(theorem, crate, said.promise, repository.declared, generic=True) + statements.once_problems(theorem, said)
    return [f"{once} {what}" for what in found]


def wrong_answer_problems(repository, name, crate, promise, wrong_answers):
    answers = set(re.findall(lists.WRONG, wrong_answers))
    found = []
    count = len({answer.split(".")[-1].removeprefix("theorem:") for answer in answers})  # File.name and name are one theorem
    if count < 2:
        found.append(f"{name} names {count} wrong answers, and two are asked for")
    for kind, word in (answer.split(":", 1) for answer in sorted(answers)):
        theorem = the_theorem(repository, crate, word) if kind == "theorem" else None
        if theorem:
            problems = statements.theorem_problems(theorem, crate, promise, repository.declared)
            found += [f"{word} {what}" for what in problems + statements.wrong_problems(theorem, promise, repository.promises[crate])]
        elif kind == "theorem":
            found.append(f"there is no public theorem {word} in specs/ or proofs/ of {crate}")
        elif f"{crate}/{word}" not in repository.edit_files:
            found.append(f"there is no {file_of(f'{crate}/{word}')}")
    return found


def the_theorem(repository, crate, word):
    """The one public declaration that a row can mean."""
    found = [d for d in repository.theorems(crate, word) if d.public and "record" not in d.marks]
    return found[0] if len(found) == 1 else None


# ---- edits

def words_of(text):
    """A text without what is silent, as its words."""
    return sources.without(sources.RATTLE_SILENT, text).split()


def module_named(stated):
    """Of `proofs/a/File.antt name`: `.proofs.a.File.name`, which ends as `File.name` and `name` do."""
    return "." + stated.replace(".antt ", ".").replace("/", ".")


def edit_problems(root, repository, name, functions):
    """What an edit must say, and that what it names is there. That the prover agrees is for proves to say."""
    edit = edits.edit_of(root / file_of(name))
    found = [f"it has no `# {line}:`" for line, there in (("refused at", edit.refused_at), ("harmless", edit.harmless)) if not there]
    if len(edit.refused_at) > 1:
        found.append(f"it names {len(edit.refused_at)} places, and is refused first at one")
    if any(words_of(text) in (words_of(old), words_of(new)) for (_, old, new), text in zip(edit.changes, edit.harmless)):
        found.append("its harmless neighbour is the code itself, or the edit")
    if any(not file.startswith("src/" if functions else ("src/", "specs/")) for file, _, _ in edit.changes):
        found.append(f"it changes {'more than the code' if functions else 'no definition'}")
    for stated in edit.refused_at:
        words, goal = stated.split(), ""
        if words[:1] == ["fn"] and len(words) == 3:
            goal = words[2]
            found += function_problems(root, edit, words, functions)
        elif len(words) == 2 and re.fullmatch(r"(?:specs|proofs)/\S+\.antt", words[0]):
            goal = edits.goal_of(root / "crates" / edit.crate / words[0], words[1])
            found += file_problems(root, repository, edit, words, functions)
        else:
            found.append(f"expected `# refused at: FILE DECLARATION` or `# refused at: fn NAME GOAL`, found `{stated}`")
        if edits.is_safety(root, goal):
            found.append(f"it is refused for safety, at {goal}, and not for what it changes")
    return found


def function_problems(root, edit, words, functions):
    meant = [f.name for f in sources.functions(root, edit.crate) if edits.ends_in(f.name, words[1])]
    if len(meant) != 1:
        return [f"it says `fn {words[1]}`, and {edit.crate} has {len(meant)} functions of that name"]
    return [f"it is named for {name}, and refused in {meant[0]}" for name in functions if name != meant[0]]


def file_problems(root, repository, edit, words, functions):
    file, name = words
    module = file.split("/", 1)[1].removesuffix(".antt").replace("/", ".")
    if not (root / "crates" / edit.crate / file).is_file() or not any(d.name == name and d.module == module for d in repository.declared[edit.crate]):
        return [f"there is no {name} in {file} of {edit.crate}"]
    return [f"it is named for {function}, whose proof does not rest on {file}"
            for function in functions if not rests_on(root, function, file)]


def rests_on(root, function, file):
    """A file is of the function's own proof, or one that this proof takes laws from, directly or not. Another function's proof is neither."""
    crate, *path = function.split("::")
    own = [f"proofs/{'/'.join(path)}/{name}" for name in sources.PROOFS]
    if file in own or file.endswith(tuple(f"/{name}" for name in sources.PROOFS)):
        return file in own
    attributes = next((f.attributes for f in sources.functions(root, crate) if f.name == function), "")
    todo = own + [f"{part}/{module.replace('::', '/')}.antt" for part, module in re.findall(r"\bcrate::(specs|proofs)::((?:\w+::)*\w+)::", attributes)]
    found = set()
    while todo:
        at = todo.pop()
        if at not in found and (root / "crates" / crate / at).is_file():
            found.add(at)
            text = sources.read_without(sources.ANTT_SILENT, root / "crates" / crate / at)
            todo += [f"{part}/{module.replace('.', '/')}.antt" for part, module in re.findall(rf"\buse\s+Rattle\.{crate}\.(specs|proofs)\.([\w.]*\w)", text)]
    return file in found


def definition_problems(root, repository, edit, place, theorem):
    """What is wrong with an edit of a definition or of a function that is not public: it belongs to no row of a promise."""
    problems = []
    goal = theorem.startswith("fn ")  # of a function, whose own edit_problems look for it
    if edit not in repository.edit_files:
        problems.append((place, f"there is no {file_of(edit)}"))
    elif not any(stated == theorem if goal else module_named(stated).endswith(f".{theorem}")
                 for stated in edits.edit_of(root / file_of(edit)).refused_at):
        problems.append((place, f"{edit} does not say that {theorem} refuses it"))
    if not goal and not any(repository.theorems(crate, theorem) for crate in repository.folders):
        problems.append((place, f"there is no theorem {theorem} in specs/ or proofs/ of any crate"))
    return problems
