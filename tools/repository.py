"""Reads what every tool asks of the repository: its top, its crates, their files, their mutants."""
import os
from argparse import ArgumentParser, RawDescriptionHelpFormatter
from dataclasses import dataclass
from functools import cache

TOP = os.path.dirname(os.path.dirname(os.path.abspath(__file__)))
CRATES = os.path.join(TOP, "crates")


def command_line(doc: str) -> ArgumentParser:
    """A tool's command line, whose help is the text at the tool's head."""
    return ArgumentParser(description=doc, formatter_class=RawDescriptionHelpFormatter)


def text_of(path: str) -> str:
    """The text of a file, by its path below the top."""
    with open(os.path.join(TOP, path), encoding="utf-8") as text:
        return text.read()


@cache
def families() -> dict[str, dict[str, list[str]]]:
    """The crates below each heading of crates.txt, with the libraries that each lists."""
    found: dict[str, dict[str, list[str]]] = {}
    family: dict[str, list[str]] = {}
    for line in text_of("crates.txt").split("\n"):
        if line.startswith("#"):
            family = found.setdefault(line.strip("# "), {})
        elif ":" in line:
            head, _, words = line.partition("#")[0].partition(":")
            family[head.split()[0]] = words.split()
    return found


def crate_libraries() -> dict[str, list[str]]:
    """Every crate of crates.txt, in its order, with the libraries that it lists."""
    return {name: words for family in families().values() for name, words in family.items()}


def crate_names() -> list[str]:
    return list(crate_libraries())


@cache
def below(crate: str) -> tuple[str, ...]:
    """The crates that a crate stands on, and it itself, from below."""
    found: dict[str, None] = {}
    for name in crate_libraries().get(crate, []):
        if name in crate_libraries():
            found.update(dict.fromkeys(below(name)))
    return (*found, crate)


def has_file(crate: str, path: str) -> bool:
    return os.path.exists(os.path.join(CRATES, crate, path))


def layers() -> list[str]:
    """The libraries that others build on: those of the first two families, in order."""
    kinds = ("cedar_", "semantics_")
    names = [name for name in crate_names() if name.startswith(kinds)]
    return [name for name in names if has_file(name, "src/lib.rt")]


def files_below(crate: str, *folders: str, ending: str = "") -> dict[str, str]:
    """The texts of the files in some folders of a crate, by their paths in the crate, in order."""
    found, root = {}, os.path.join(CRATES, crate)
    for part in folders:
        for folder, _, files in os.walk(os.path.join(root, part)):
            paths = [os.path.join(folder, file) for file in files if file.endswith(ending)]
            found.update((os.path.relpath(path, root), text_of(path)) for path in paths)
    return dict(sorted(found.items()))


@cache
def source_files(crate: str) -> dict[str, str]:
    """Each source file of a crate, by its path in the crate."""
    return files_below(crate, "src", ending=".rt")


@dataclass
class Edit:
    """A mutant: its changes, each a file, the old text and the new one."""

    name: str
    changes: list[tuple[str, str, str]]
    functions: frozenset[tuple[str, str]] = frozenset()


def read_edit(name: str, text: str) -> Edit:
    file, old, changes = "", "", []
    for line in text.split("\n"):
        if line.startswith("file: "):
            file = line.removeprefix("file: ").strip()
        elif line.startswith("old: "):
            old = line.removeprefix("old: ")
        elif line.startswith("new:"):
            changes.append((file, old, line.removeprefix("new:").removeprefix(" ")))
    return Edit(name, changes)


def edits_of(crate: str, *folders: str) -> list[Edit]:
    """The mutants in these folders of a crate."""
    found = files_below(crate, *folders, ending=".edit")
    return [read_edit(os.path.basename(path)[:-5], text) for path, text in found.items()]
