"""Reads Rattle and antt as far as the gate needs it: functions with their contracts, and declarations.

It is no parser of either language. The prover refuses what is malformed, and the part 'proves' holds the
functions found here to the ones that the prover names.
"""

import os
import re
from dataclasses import dataclass, replace
from functools import cache
from pathlib import Path

NAME = r'[^\s(){}.;,@"«»]+'  # antt's rule of a name

# What says nothing, in either language: comments and quoted text. In Rattle antt's comments count too,
# since a clause is antt: a promise named only in a comment is not made.
ANTT_SILENT = r'(?<![^\s(){}.;,@"«»])--[^\n]*|\{-.*?-\}|"(?:\\.|[^"\\])*"'
RATTLE_SILENT = ANTT_SILENT + r"|//[^\n]*|/\*.*?\*/|b'(?:\\[^']+|[^\\'])'|'[{}()\"]'"

# The parts of a crate that the prover reads. Beside them stands out/, which rt makes.
PARTS = ("src", "specs", "proofs")

# The files that may hold what is written of a function's proof.
PROOFS = ("Answers.antt", "Invariants.antt", "Proof.antt")


def files(root, crate=""):
    """Every file of a crate, or of all, but what rt makes in a crate's out/."""
    home = root / "crates"
    for place, folders, names in os.walk(home / crate):
        if Path(place).parent == home:
            folders[:] = [name for name in folders if name != "out"]
        yield from (Path(place, name) for name in names)


def read(path):
    try:
        return path.read_text(encoding="utf-8")
    except UnicodeDecodeError:
        raise ValueError(f"{path} is no UTF-8 text") from None


def read_without(silent, path):
    """A file's text with what is silent as blanks, so that every line keeps its number."""
    return without(silent, read(path))


@cache
def without(silent, text):
    return re.sub(silent, lambda found: re.sub(r"[^\n]", " ", found[0]), text, flags=re.S)


def names(text):
    return re.findall(NAME, text)


def tokens(text):
    """antt's words and signs. `a.b` is one word, `a .b` three. An escaped name is one word, without its « »."""
    found = re.findall(rf"«[^»]*»|{NAME}(?:\.{NAME})*|[(){{}}.;,@]", text)
    return [word[1:-1] if word[0] == "«" else word for word in found]


def parts(words, separator):
    """A list of words cut at each separator that stands in no bracket."""
    found, depth = [[]], 0
    for word in words:
        depth += (word in ("(", "{")) - (word in (")", "}"))
        if word == separator and depth == 0:
            found.append([])
        else:
            found[-1].append(word)
    return found


def atoms(words):
    """The words of an application, each bracket with what is in it as one."""
    found, depth = [], 0
    for word in words:
        depth -= word in (")", "}")
        if depth and found:
            found[-1] += " " + word
        elif word in (")", "}") and found:
            found[-1] += " " + word
        else:
            found.append(word)
        depth += word in ("(", "{")
    return found


def bare(words):
    """Words without the brackets around all of them."""
    while words[:1] == ["("] and len(atoms(words)) == 1:
        words = words[1:-1]
    return words


def imported(text):
    """What the `use` and `ghost use` lines bring: {name: the path with the name it has there}."""
    found = {}
    for path, listed in re.findall(r"\buse\s+([^\s;{]+?)\.?\s*\{([^}]*)\}", text):
        for item in listed.split(","):
            there, _, here = item.partition(" as ")
            found[(here or there).strip()] = f"{path}.{there.strip()}"
    return found


# ---- Rattle

@dataclass
class Function:
    name: str       # crate::module::Type::name, as far as it has a module and a type
    file: str       # from the root, as crates/gf32/src/lib.rt
    line: int
    public: bool
    parameters: list
    lent: list      # those that are &mut
    result: bool    # it returns something
    fields: list    # of a result that is a struct of its crate, the fields, if all of them are public
    clauses: dict   # of requires, ensures, ghost and what is none of these: the texts between the braces
    brought: dict   # what the file's `ghost use` lines bring
    attributes: str # what stands in `#[..]` above it


def functions(root, crate):
    """Every function of a crate, public or not."""
    found, structs = [], {}
    for path in sorted((root / "crates" / crate / "src").rglob("*.rt")):
        text = read_without(RATTLE_SILENT, path)
        structs |= structs_of(text)
        found += functions_of(text, module_of(root, path), path.relative_to(root).as_posix())
    return [replace(function, fields=structs.get(function.result[2:], []), result=function.result not in ("", "->()")) for function in found]


def structs_of(text):
    """{struct: its fields, none where one of them is private}. A ghost field is no value."""
    found = {}
    for name, body in re.findall(r"\bstruct\s+(\w+)\s*\{([^}]*)\}", re.sub(r"\bghost\s+\w+\s*:\s*\{[^}]*\}", "", text)):
        fields = re.findall(r"(?:^|,)\s*(pub\s+)?(?:pub\([^)]*\)\s*)?(\w+)\s*:", flat(body))
        found[name] = [field for _, field in fields] if all(public for public, _ in fields) else []
    return found


def module_of(root, path):
    """crates/a/src/lib.rt is the module a, crates/a/src/b.rt and crates/a/src/b/mod.rt are a::b."""
    crate, _, *inner = path.relative_to(root / "crates").with_suffix("").parts
    return "::".join([crate] + [part for part in inner if part not in ("lib", "main", "mod")])


STEP = re.compile(r"""
    (?P<attributes>(?:\#\[[^]]*\]\s*)+)? (?P<pub>\bpub\b\s*(?P<within>\([^)]*\))?\s*)?
    (?:\b(?:const|extern|unsafe)\s+)* \bfn\s+(?P<name>\w+)
  | \b(?:impl|mod)\b (?P<scope>[^{};]*) \{
  | [{}]""", re.X)


@cache
def functions_of(text, module, file):
    found = []
    scopes = [module]  # of each brace that is open: the path of what is declared in it
    brought = imported(text)
    for step in STEP.finditer(text):
        if step["name"]:
            attributes = step["attributes"] or ""
            public = bool("no_mangle" in attributes or step["pub"] and not step["within"])
            line = text.count("\n", 0, step.start("name")) + 1
            parameters, lent, result, clauses, body = contract(text, step.end())
            if not body:  # a trait only declares it
                continue
            found.append(Function(f"{scopes[-1]}::{step['name']}", file, line, public, parameters, lent, result, [], clauses, brought, attributes))
        elif step["scope"]:
            scopes.append(scopes[-1] + "::" + scope_name(step["scope"]))
        elif step[0] == "{":
            scopes.append(scopes[-1])
        elif len(scopes) > 1:
            scopes.pop()
    return found


def scope_name(head):
    """What the prover calls a block: the type of its methods or the module, and `TypeTraitParameter` where a type gets a trait."""
    head = re.sub(r"\s*\bwhere\b.*", "", re.sub(r"^\s*<[^>]*>", "", head), flags=re.S)
    trait, _, kind = head.rpartition(" for ")
    words = re.findall(r"(?<!')\b[a-zA-Z]\w*", re.sub(r"<[^<>]*>", "", kind))[-1:] + re.findall(r"(?<!')\b[a-zA-Z]\w*", trait)
    return "".join(word[0].upper() + word[1:] for word in words) if trait else words[0]


LENT = r"&\s*(?:'\w+\s+)?mut\b"

# What stands before a clause's brace. A clause may have a name, and a ghost clause has one and a type. A star makes an assertion of a clause.
CLAUSE = re.compile(r"\b(?:(ghost)(?:\s+\w+\s*:)?|(requires|ensures)(\*)?(?:\s+[\w-]+)?)\s*$")


def contract(text, at):
    """What stands after a function's name: (parameters, those that are &mut, the text of the result, clauses, whether it has a body)."""
    start = text.find("(", past_angles(text, at))
    at = closing(text, start)
    parameters = re.findall(r"(?:^|,)\s*(?:mut\s+)?(?:&\s*(?:'\w+\s+)?(?:mut\s+)?)?(\w+)\s*(?=[:,]|$)", flat(text[start + 1:at]))
    lent = re.findall(rf"(\w+)\s*:[^,]*?{LENT}|{LENT}\s+(self)\b", flat(text[start + 1:at]))
    result, clauses = None, {"ghost": [], "requires": [], "ensures": [], "other": []}
    while True:
        brace = text.find("{", at)
        head = text[at + 1:brace]
        clause = CLAUSE.search(head)
        if result is None:
            result = re.sub(r"\bwhere\b.*|\s", "", head[:clause.start()] if clause else head, flags=re.S)
        elif not clause and brace >= 0 and head.strip() and head.strip()[0] != ";":  # neither a clause that is known nor the body
            clauses["other"].append(head.strip())
            at = closing(text, brace)
            continue
        if brace < 0 or not clause:  # this brace opens the body
            body = brace >= 0 and ";" not in re.sub(r"\[[^]]*\]", "", head)
            return parameters, [a or b for a, b in lent], result.partition(";")[0] if not body else result, clauses, body
        at = closing(text, brace)
        clauses["other" if clause[3] else clause[1] or clause[2]].append(text[brace + 1:at])


def past_angles(text, at):
    """The place after the type parameters that begin at a place, if any do."""
    depth = 0
    for sign in re.finditer(r"->|\S", text[at:]):
        depth += (sign[0] == "<") - (sign[0] == ">")
        if depth == 0:
            return at + sign.end() if sign[0] == ">" else at
    return at


def flat(text):
    """A list of parameters with no comma but those between two of them."""
    depth, found = 0, ""
    for sign in text:
        depth += (sign in "([<") - (sign in ")]>")
        found += ";" if sign == "," and depth else sign
    return found


def closing(text, start):
    """The place of the bracket that closes the one at start."""
    pair = {"(": ")", "{": "}"}[text[start]]
    depth = 0
    for at in range(start, len(text)):
        depth += (text[at] == text[start]) - (text[at] == pair)
        if depth == 0:
            return at
    return len(text)


# The functions that a derive writes. The clone of a type that is copied is none.
DERIVED = {"PartialEq": "eq", "PartialOrd": "partial_cmp", "Ord": "cmp", "Debug": "fmt", "Default": "default", "Hash": "hash", "Clone": "clone"}


def derived(root, crate):
    """The names of the functions that the derives of a crate write, each as often as it is written."""
    listed = [re.findall(r"\w+", words) for path in sorted((root / "crates" / crate / "src").rglob("*.rt"))
              for words in re.findall(r"#\[derive\(([^)]*)\)\]", read_without(RATTLE_SILENT, path))]
    return [DERIVED[word] for words in listed for word in words if word in DERIVED and not (word == "Clone" and "Copy" in words)]


def empty_enums(root, crate):
    """The enums of a crate that have no value."""
    return [name for path in sorted((root / "crates" / crate / "src").rglob("*.rt"))
            for name in re.findall(r"\benum\s+(\w+)[^{;]*\{\s*\}", read_without(RATTLE_SILENT, path))]


# ---- antt

@dataclass
class Declaration:
    module: str     # File, or folder.File
    name: str
    marks: str      # what stands before the name: pub, abbrev, unfoldable, record
    top: bool       # it stands in no section
    statement: str  # of a record: its parameters, up to the colon; else what stands after the colon, up to the definition
    body: str       # of a record: its fields; else its clauses
    brought: dict   # what the file's `use` lines bring

    @property
    def public(self):
        return "pub" in self.marks


SIGNATURE = re.compile(rf"\s*((?:(?:unfoldable|abbrev|opaque|pub)\s+)*)({NAME})\s*(?:\{{[^{{}}]*\}}\s*)?:\s")
RECORD = re.compile(rf"\s*((?:pub\s+)?record)\s+({NAME})\s")
SECTION = re.compile(r"\s*(?:module\b.*\bwhere|(?:(?:unfoldable|abbrev|opaque)\s+)*mutual)\s*$", re.S)


def declarations(root, crate):
    """Every declaration with a signature and every record in a crate's specs/ and proofs/, helpers left out."""
    found = []
    for folder in (root / "crates" / crate / part for part in ("specs", "proofs")):
        for path in sorted(folder.rglob("*.antt")):
            module = ".".join(path.relative_to(folder).with_suffix("").parts)
            found += declared(module, read_without(ANTT_SILENT, path))
    return found


@cache
def declared(module, text):
    if "-}" in text:  # the end of an outer comment, whose rest would be taken for a declaration
        raise ValueError(f"{module} has a comment within a comment")
    found, brought = [], imported(text)
    for item in items(text):
        record, signature = RECORD.match(item), SIGNATURE.match(item)
        if record:
            head, _, fields = item[record.end():].partition(" where")
            found.append(Declaration(module, record[2], record[1], item[0] != " ", head.rpartition(":")[0], fields, brought))
        elif signature:
            found.append(Declaration(module, signature[2], signature[1], item[0] != " ", item[signature.end():], "", brought))
        elif found and names(item)[:1] == [found[-1].name]:
            found[-1].body += item + "\n"
    return found


def items(text):
    """A file's items. A line that stands further in goes on with the item above, unless that opens a section."""
    found, margin = [], 0
    for line in filter(str.strip, text.split("\n")):
        indent = len(line) - len(line.lstrip())
        if found and indent > margin and not SECTION.match(found[-1]):
            found[-1] += "\n" + line
        else:
            found.append(line)
            margin = indent
    return found
