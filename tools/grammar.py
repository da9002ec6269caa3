"""Reads the rules of a grammar from the definitions of a library, each with its example.

A rule is a constructor of a relation; its comment ends in a line `-- e.g. TEXT`.
"""
import re
from collections.abc import Iterable, Iterator
from dataclasses import dataclass, field

from repository import files_below
from sources import EXAMPLE, module_of

# Texts that a program of the gate parses, with blank lines between them.
TEXTS = "crates/recorded_conditions/data/texts.cedar"
RELATION = re.compile(r"( *)pub data ([\w-]+)")
RULE = re.compile(r"( *)([\w-]+) : ")


@dataclass
class Rule:
    name: str
    example: str
    said: str


@dataclass
class Relation:
    """A relation with its comment, and the indent of its rules."""

    name: str
    module: str
    said: str
    indent: int
    rules: list[Rule] = field(default_factory=list)


def read_relations(module: str, text: str) -> list[Relation]:
    """Every relation of a file that has a rule with an example."""
    found: list[Relation] = []
    said: list[str] = []
    for line in text.splitlines():
        if line.lstrip().startswith("-- "):
            said.append(line.lstrip().removeprefix("-- "))
            continue
        if at := RELATION.match(line):
            # Before what a comment says may stand how the relation is written.
            about = re.sub(r"^`[^`]*`: ", "", " ".join(said))
            found.append(Relation(at[2], module, about, len(at[1]) + 2))
        elif (at := RULE.match(line)) and found and len(at[1]) == found[-1].indent:
            found[-1].rules.append(rule(at[2], said))
        said = []
    return [relation for relation in found if any(it.example for it in relation.rules)]


def rule(name: str, said: list[str]) -> Rule:
    """The rule that this comment belongs to."""
    examples = [line.removeprefix(EXAMPLE) for line in said if line.startswith(EXAMPLE)]
    others = " ".join(line for line in said if not line.startswith(EXAMPLE))
    return Rule(name, "".join(examples), others)


def grammar_of(crate: str) -> list[Relation]:
    """The relations of a crate, in the order of its files."""
    files = files_below(crate, "specs", ending=".antt").items()
    return [it for file, text in files for it in read_relations(module_of(file), text)]


def untried(relations: Iterable[Relation], texts: str) -> Iterator[str]:
    """Each rule whose example is none of the texts, and each without an example."""
    tried = {text.rstrip() for text in texts.split("\n\n")}
    for relation in relations:
        for it in relation.rules:
            if it.example not in tried:
                yield f"{relation.name}, {it.name}: {it.example or 'no example'}"
