"""What an ensures, a promise, a uniqueness theorem and a wrong-answer theorem must look like.

Each check gives a list of what is wrong, as texts that go on after the name of the function, promise or theorem.
"""

import re
from dataclasses import dataclass

from .sources import NAME, atoms, bare, parts, tokens

# Words that mean the same in every file. None of our files may give them another meaning: they come from the library, under their own names.
FIXED = {"⊥", "¬◌", "◌≡◌", "◌×◌", "⌜◌⌝", "result"}
LIBRARY = ("Rattle.std.specs.Prelude", "Rattle.std.proofs.Common", "mathlib.Core.Path", "mathlib.Core.Logic")


def other_meaning(brought):
    """The fixed words to which a file's `use` lines give another meaning."""
    return {word for word in FIXED & {*brought} if brought[word] not in {f"{home}.{word}" for home in LIBRARY}}


# ---- ensures

# An argument is a name, or a path that begins with one: `x` by value, `x.now` behind a `&`, `x.old` and `x.new` behind a `&mut`, `result`.
ARGUMENT = re.compile(rf"(?:{NAME})(?:\.(?:{NAME}))*")
AFTER = ("new", "exit")
LENT = ("old", "entry", *AFTER)


@dataclass
class Ensured:
    promise: str
    arguments: list

    def outcomes(self):
        """Which arguments are the result, or lent memory afterwards."""
        return [is_outcome(argument) for argument in self.arguments]


def is_outcome(argument):
    name, *path = argument.split(".")
    return name == "result" or bool(path) and path[0] in AFTER


def ensured(function):
    """What the ensures says, if it is `PROMISE arguments` and nothing else."""
    clauses = function.clauses["ensures"]
    if len(clauses) != 1:
        return None
    said = atoms(tokens(clauses[0]))
    if len(said) < 2 or not re.fullmatch(NAME, said[0]):
        return None
    return Ensured(said[0], said[1:])


def ensures_problems(function):
    found = [f"has a {clause}" for clause in ("requires", "ghost") if function.clauses[clause]]
    found += ["has a clause of another kind"] if function.clauses["other"] else []
    if not function.clauses["ensures"]:
        return found + ["has no ensures"]
    said = ensured(function)
    if not said:
        return found + ["has an ensures that is not one `PROMISE arguments`"]
    own = {*function.parameters, "result"}
    if "result" in function.parameters or said.promise in own or other_meaning(function.brought):
        found.append("has an ensures in which one name has two meanings")
    for argument in said.arguments:
        name, *path = argument.split(".")
        whole = name in function.lent and path[:1] not in [[word] for word in LENT]  # before and after as one
        if not ARGUMENT.fullmatch(argument) or name not in own or whole:
            found.append(f"has an ensures with `{plain(argument)}`, which is no input, exit or result of the function")
    if function.result and not {"result", "result.now"} & {*said.arguments}:
        parts = {argument.removeprefix("result.") for argument in said.arguments if argument.startswith("result.")}
        if not parts or parts != {*function.fields}:  # of a struct, each public field may stand for itself
            found.append("has an ensures that does not speak of the result")
    return found + [f"has an ensures that does not speak of `{lent}.new`" for lent in function.lent if f"{lent}.new" not in said.arguments]


def plain(words):
    return words.replace("( ", "(").replace(" )", ")")


# ---- promises

def promise_problems(declared, said):
    """The definition of a promise ties each outcome, by an equation, to something else."""
    found = []
    for position, outcome in enumerate(said.outcomes()):
        if outcome and not fixes(declared, said.promise, position):
            found.append(f"does not say what `{plain(said.arguments[position])}` is equal to")
    return found


def fixes(declared, name, position, seen=()):
    """A definition or record has an equation between what stands at a position and something that does not name it."""
    definitions = [d for d in declared if d.name == name and name not in seen]
    for clause in (clause for d in definitions for clause in clauses(d)):
        patterns, facts = clause
        if position >= len(patterns):
            return False
        meant = [word for word in patterns[position].split() if word not in "()"]
        if not any(fixed_by(declared, fact, word, (*seen, name)) for fact in facts for word in meant):
            return False
    return bool(definitions)


def clauses(declaration):
    """Of a record (parameters, types of the fields), of a definition that for each of its clauses."""
    if "record" in declaration.marks:
        fields = re.split(rf"\n\s+(?:pub\s+)?{NAME}\s+:\s", declaration.body)
        parameters, _ = binders(tokens(declaration.statement))
        return [(list(parameters), [tokens(field) for field in fields[1:]])]
    texts = re.split(rf"(?m)^(?=\s*{re.escape(declaration.name)}\s)", declaration.body)
    return [(atoms(left)[1:], [right[0]]) for left, *right in (parts(tokens(text), "=") for text in texts if text.strip()) if right]


def fixed_by(declared, fact, name, seen):
    """A fact, or a part of a product, equates the name with something else. What stands before an arrow is a condition."""
    for part in parts(bare(parts(fact, "→")[-1]), "×"):
        part = bare(part)
        sides = [[word.partition(".")[0] for word in side] for side in parts(part, "≡")]
        if len(parts(part, "→")) > 1 or len(parts(part, "×")) > 1:
            if fixed_by(declared, part, name, seen):
                return True
        elif len(sides) == 2:
            if (name in sides[0]) != (name in sides[1]):
                return True
        elif any(name in argument.split() and fixes(declared, part[0], position, seen)
                 for position, argument in enumerate(atoms(part)[1:])):
            return True
    return False


# ---- data

# What may be asked for all values of: types that hold data. A type of another kind could be one that nothing has.
KIT = {"Prim.Native.Nat.ℕ", "mathlib.Core.List.List", "mathlib.Core.Bool.Bool"}
KIT |= {f"{home}.{word}" for home in LIBRARY[:2] for word in ("ℕ", "List", "Bool", "Option", "Result", "⊤")}
KIT |= {"Rattle.std.specs.declared.cmp.Ordering.Ordering", "denote.Ref.Bor"}
OURS = re.compile(rf"Rattle\.(\w+)\.(?:specs|proofs)\.(.+)\.({NAME})")


def is_data(declared, crate, near, word, seen=()):
    """A word of a type means data in the file where a declaration stands: the kit's numbers and lists, a struct or enum of src/, which antt has below
    `declared`, or a name or record that is made of such. `declared` has the declarations of every crate."""
    path = near.brought.get(word, f"Rattle.{crate}.specs.{near.module}.{word}")
    ours = OURS.fullmatch(path)
    if word in ("×", "(", ")") or path in KIT:
        return True
    if not ours or ours[1] not in declared or path in seen:
        return False
    crate, module, name = ours.groups()
    found = [d for d in declared[crate] if (d.module, d.name) == (module, name)]
    return all(made_of(declared, crate, d, (*seen, path)) for d in found) and bool(found or module.startswith("declared."))


def made_of(declared, crate, declaration, seen):
    """`NAME : Type 0` with one clause, or a record without parameters, of data alone."""
    whole = declaration.statement.strip() == ("" if "record" in declaration.marks else "Type 0")
    made = [words for _, types in clauses(declaration) for words in types]
    return whole and bool(made) and all(is_data(declared, crate, declaration, word, seen) for words in made for word in words)


# ---- theorems

@dataclass
class Theorem:
    variables: dict   # each with the words of its type
    hypotheses: list  # each as its words, those that bind a variable left out
    conclusion: list


def theorem(words):
    *left, conclusion = parts(bare(words), "→")
    variables, hypotheses = {}, []
    for part in left:
        bound, rest = binders(part)
        variables |= bound
        hypotheses += [bare(rest)] if rest else []
    conclusion = bare(conclusion)
    if conclusion[:1] == ["¬"]:
        hypotheses, conclusion = hypotheses + [bare(conclusion[1:])], ["⊥"]
    if len(parts(conclusion, "→")) > 1:
        rest = theorem(conclusion)
        return Theorem(variables | rest.variables, hypotheses + rest.hypotheses, rest.conclusion)
    return Theorem(variables, hypotheses, conclusion)


def binders(words):
    """Of `(x y : A) {z : B}`: {name: the words of its type}, and the words that bind nothing."""
    bound, rest = {}, []
    for atom in atoms(words):
        inner = atom.split()[1:-1]
        if atom[0] in "({" and ":" in inner:
            at = inner.index(":")
            bound |= {name: inner[at + 1:] for name in inner[:at]}
        else:
            rest += atom.split()
    return bound, rest


def theorem_problems(declaration, crate, promise, declared, generic=False):
    """What any theorem of a row must be: a public fact at the top of its file, about this crate's promise and for all data. That of a generic function
    may be for all types too."""
    found = []
    if not declaration.top:
        found.append("stands in a section, not at the top of its file")
    if {"abbrev", "unfoldable"} & {*declaration.marks.split()}:
        found.append("is a definition")
    here = f"Rattle.{crate}.specs.Promises.{promise}"
    if declaration.brought.get(promise, here if declaration.module == "Promises" else None) != here:
        found.append(f"does not take {promise} from specs/Promises")
    found += [f"stands in a file that gives {word} another meaning" for word in sorted(other_meaning(declaration.brought))]
    variables = theorem(tokens(declaration.statement)).variables
    types = {name for name, kind in variables.items() if generic and kind == ["Type", "0"]}
    for name, kind in variables.items():
        if name not in types and not all(word in types or is_data(declared, crate, declaration, word) for word in kind):
            found.append(f"asks for `{name} : {plain(' '.join(kind))}`, which is no data")
    return found


def written(words):
    """The arguments of a promise, those in braces left out."""
    return [atom for atom in atoms(words)[1:] if not atom.startswith("{")]


def once_problems(declaration, said):
    """Two outcomes of the same inputs are equal: two promises, nothing else, and an equation for each outcome."""
    read = theorem(tokens(declaration.statement))
    if len(read.hypotheses) != 2 or any(words[0] != said.promise for words in read.hypotheses):
        return [f"does not have {said.promise} twice, and nothing else, as its hypotheses"]
    first, second = (written(words) for words in read.hypotheses)
    if not len(first) == len(second) == len(said.arguments):
        return [f"does not give {said.promise} its {len(said.arguments)} arguments"]
    found, wanted, used = [], set(), []
    for outcome, one, other in zip(said.outcomes(), first, second):
        used += [one, other] if outcome else [one]
        wanted |= {frozenset((one, other))} if outcome else set()
        if outcome == (one == other):
            found.append(f"has `{one}` and `{other}` where {'two outcomes' if outcome else 'one input'} must stand")
    if len({*used}) != len(used) or not {*used} <= {*read.variables}:
        found.append("is not about any inputs and any outcomes: each must be a variable of its own")
    equated = {frozenset(map(" ".join, parts(bare(factor), "≡"))) for factor in parts(read.conclusion, "×")}
    if equated != wanted:
        found.append("does not equate each outcome with its other, and nothing else")
    return found


def wrong_problems(declaration, promise, promises):
    """An answer is excluded: from the promise, and from nothing that could be false without it, nothing follows."""
    read = theorem(tokens(declaration.statement))
    found = []
    if read.conclusion != ["⊥"]:
        found.append("does not end in `→ ⊥`")
    if not any(words[0] == promise for words in read.hypotheses):
        found.append(f"does not have {promise} as a hypothesis")
    for words in read.hypotheses:
        given = written(words)
        if promises.get(words[0]) != len(given) or {"×", "⊎", "→"} & {*given}:
            found.append(f"has a hypothesis that is no promise: `{plain(' '.join(words))}`")
    return found
