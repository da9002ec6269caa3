"""Infers from the sources of a library what its callers see: items, comments, signatures, clauses.

It reads files in the layout of `rt fmt` by their indents, and knows no more of the language.
"""
import os
import re
from collections.abc import Iterator
from dataclasses import dataclass, field
from itertools import chain, takewhile
from textwrap import dedent

from repository import files_below, source_files

# In what follows @ is an indent. First comments, and attributes of one line or more.
DOCS = r"^((?:@///.*\n)*)((?:@(?:#\[(?:.*\]|.*\n(?:@ +.*\n)*@\)\])|//(?!/).*)\n)*)"
# A function: its header, which ends before a line {, in a ; or in a { of its own; and its body.
FN = (
    r"@((pub )?(?:pub\(\w+\) )?(?:const |final )*fn (\w+)"
    r"(?:.*(?:;| \{\}?)$|.*\n(?:.*\n)*?(?:(?=@\{)|.*;$|@[)>].* \{\}?$)))"
    r"(?:(?:(?<= \{)|@\{)\n[\s\S]*?^@\}$|@\{.*$)?"
)
# Another item: to the end of its line or of what it has in brackets.
ITEM = (
    r"(pub (struct|enum|trait|type|const) (\w+)"
    r"(?:.*[;}]$|[\s\S]*?^(?:\};?|>;|\).*;|\} .*)$))"
)
ITEMS = re.compile(DOCS.replace("@", "") + ITEM, re.M)
FUNCTIONS = {it: re.compile((DOCS + FN).replace("@", it), re.M) for it in ("", "    ")}
IMPLS = re.compile(r"^impl\b([\s\S]*?) \{(\}|\n[\s\S]*?^\})$", re.M)


@dataclass
class Item:
    """A public type, trait, constant or function; `text` is the whole of it."""

    kind: str
    name: str
    file: str
    docs: list[str]
    marks: str
    text: str
    # Of a type or a trait.
    traits: list[str] = field(default_factory=list)
    calls: list["Item"] = field(default_factory=list)
    # Of a function: of a method also its type, of one of an `impl` the head of that.
    signature: str = ""
    clauses: list[str] = field(default_factory=list)
    owner: str = ""
    head: str = ""

    @property
    def path(self) -> str:
        return f"{self.owner}::{self.name}" if self.owner else self.name


@dataclass
class Library:
    """A crate that is a library, with what it lets others name."""

    name: str
    about: list[str]
    items: list[Item]
    calls: list[Item]
    # Names of other crates, by their crates.
    passed_on: dict[str, list[str]]
    # The public module that a name is named in; empty where it is the root.
    modules: dict[str, str]


def module_of(file: str) -> str:
    return os.path.splitext(os.path.basename(file))[0]


def comment(text: str, sign: str = "///") -> list[str]:
    """The lines of a comment, without the sign that each begins with."""
    lines = (line.strip().removeprefix(sign) for line in text.splitlines())
    return [line.removeprefix(" ") for line in lines]


def depths(text: str) -> Iterator[tuple[str, int]]:
    """Each character, with how many brackets are open behind it. An arrow closes none."""
    depth = 0
    for before, char in zip(" " + text, text):
        is_arrow = char == ">" and before in "-="
        depth += (char in "<([{") - (char in ">)]}" and not is_arrow)
        yield char, depth


def parted(text: str, sign: str = ",") -> list[str]:
    """The parts of a text between the signs that stand in no bracket."""
    marked = ("\0" if char == sign and depth == 0 else char for char, depth in depths(text))
    return [part.strip() for part in "".join(marked).split("\0") if part.strip()]


def parameters(signature: str) -> tuple[dict[str, str], str]:
    """The type of each parameter, by its name, and the type of the result."""
    words = parted(signature, " ")
    head, *rest = words[words.index("fn") + 1 :]
    start = next(at for at, brackets in enumerate(depths(head)) if brackets == ("(", 1))
    pairs = (part.partition(": ") for part in parted(head[start + 1 : -1]))
    result = " ".join(takewhile("where".__ne__, rest)).removeprefix("-> ")
    return {name.removeprefix("mut "): ty for name, _, ty in pairs}, result


def read_calls(text: str, file: str, owner: str = "", head: str = "") -> list[Item]:
    """The public functions of a file, of an `impl` with this head, or, with none, of a trait."""
    found, indent = [], "    " if owner else ""
    clause = re.compile(rf"^(?={indent}    (?:requires|ensures)\b)", re.M)
    for at in FUNCTIONS[indent].finditer(text):
        docs, marks, header, is_public, name = at.groups()
        if is_public or (owner and not head):
            shown, *clauses = clause.split(header, 1)
            joined = re.sub(r"(?<=[(<]) |,? (?=[)>])", "", " ".join(shown.split()))
            signature = re.sub(r"\s*(\{\}?|;)$", "", joined)
            lines = re.sub(r"\} ?;$", "}", dedent("".join(clauses))).splitlines()
            of = ([], [], signature, lines, owner, head)
            found.append(Item("fn", name, file, comment(docs), marks, at[0], *of))
    return found


def read_functions(text: str, file: str) -> list[Item]:
    """Every function of a file, public or not, each with the whole of its text."""
    found = []
    for indent, pattern in FUNCTIONS.items():
        clause = re.compile(rf"^{indent}    (?:requires|ensures)\b.*", re.M)
        for at in pattern.finditer(text):
            docs, marks, header, _, name = at.groups()
            shown = [line.strip() for line in clause.findall(header)]
            said = comment(docs) if docs else []
            whole = dedent(at[0])
            found.append(Item("fn", name, file, said, marks, whole, [], [], "", shown))
    return found


def impl_target(head: str) -> tuple[str, str]:
    """The type of an impl, and the trait if it is of one."""
    words = [word for word in parted(head, " ") if not word.startswith("<")]
    trait, ty = (words[0], words[2]) if "for" in words else ("", words[0])
    return re.match(r"[&\w:]*", ty)[0], trait


def read_file(file: str, text: str) -> tuple[list[Item], list[Item], list[tuple[str, str]]]:
    """The types and the like, the functions, and the impls of traits (type and trait)."""
    items, calls, impls = [], read_calls(text, file), []
    for docs, marks, declared, kind, name in ITEMS.findall(text):
        derives = re.findall(r"^#\[derive(?:_where)?\(([\w, :]*)", marks, re.M)
        words = re.findall(r"(\w+) *(?:,|$)", ",".join(derives))
        traits = [word for word in words if word != "Drop"]
        inside = read_calls(declared, file, name) if kind == "trait" else []
        items.append(Item(kind, name, file, comment(docs), marks, declared, traits, inside))
    for head, body in IMPLS.findall(text):
        name, trait = impl_target(head)
        impls += [(name, trait)] if trait else []
        calls += [] if trait else read_calls(body, file, name, "impl" + head)
    return items, calls, impls


def leaves(path: str) -> list[str]:
    """The paths of a `use`, each written out."""
    head, brace, inner = path.strip().partition("{")
    parts = parted(inner[:-1]) if brace else []
    return [head + leaf for part in parts for leaf in leaves(part)] if brace else [head]


def read_library(name: str) -> Library:
    """What the library lets others name, in the order of its files."""
    files = source_files(name)
    root = files["src/lib.rt"]
    own = {"crate", "super", "self", *re.findall(r"^(?:pub )?mod (\w+);", root, re.M)}
    public = {"": "src/lib.rt"}
    public |= {module: f"src/{module}.rt" for module in re.findall(r"^pub mod (\w+);", root, re.M)}
    modules: dict[str, str] = {}
    passed_on: dict[str, list[str]] = {}
    for module, file in public.items():
        uses = re.findall(r"^pub use ([^;]*);", files.get(file, ""), re.M)
        named = re.findall(r"^pub fn (\w+)", files.get(file, ""), re.M) if module else []
        for path in (leaf.split("::") for use in uses for leaf in leaves(use)):
            if path[0] in own:
                named.append(path[-1])
            else:
                word = f"{module}::{path[-1]}".removeprefix("::")
                passed_on.setdefault(path[0], []).append(word)
        modules = dict.fromkeys(named, module) | modules
    read = zip(*(read_file(file, text) for file, text in files.items()))
    found, calls, impls = (list(chain(*part)) for part in read)
    is_open = public.values()
    items = {it.name: it for it in found if it.file in is_open or it.name in modules}
    for of, trait in impls:
        if of in items:
            items[of].traits.append(trait)
    for call in calls:
        if call.owner in items:
            items[call.owner].calls.append(call)
    free = [it for it in calls if not it.owner and (it.file in is_open or it.name in modules)]
    about = comment("\n".join(re.findall(r"^//!.*", root, re.M)), "//!")
    return Library(name, about, list(items.values()), free, passed_on, modules)


WORD = re.compile(
    r"((?:^ *-- .*\n)+)(?:\s*(?:abbrev )?mutual\n)?"
    r"\s*(?:abbrev |unfoldable |mutual )*(?:pub )?(?:data |record )?([\w-]+)\s*[:({]",
    re.M,
)


# How the line of a comment begins that has an example of a rule of a grammar.
EXAMPLE = "e.g. "


def read_words(crate: str) -> dict[tuple[str, str], str]:
    """What a crate's definitions mean: the comment of each, by its module and its name. A rule of
    a grammar is no definition of its own."""
    found: dict[tuple[str, str], str] = {}
    for file, text in files_below(crate, "specs", ending=".antt").items():
        for said, word in WORD.findall(text):
            lines = comment(said, "--")
            if not any(line.startswith(EXAMPLE) for line in lines):
                found.setdefault((module_of(file), word), " ".join(lines))
    return found


USES = re.compile(r"^ *(?:ghost|pub) use Rattle\.(\w+)\.specs\.(\w+)\.\{([^}]*)\}", re.M)


def uses_of(text: str) -> dict[str, tuple[str, str, str]]:
    """The words that a file takes from definitions, or passes on: the crate, the module and the
    name of each."""
    found = {}
    for crate, module, names in USES.findall(text):
        for name, _, other in (part.partition(" as ") for part in parted(names)):
            found[other or name] = (crate, module, name)
    return found
