"""Reads transcripts: calls of a program, each with what it is given and what it ends with.

A call begins with `$ ` and its words, quoted as in a shell, the program's name first, where
`$'\\xff'` is the byte 255; `< ` begins a line of standard input, `| ` one that it prints, `! ` one of
standard error, and `= ` the status. A line `| ..` or `! ..` stands for any lines. Other lines are
headings.
"""
import os
import shlex
from dataclasses import dataclass, field

ANY = ".."
BYTE = "$\\xff"


@dataclass
class Call:
    """A call of a program, and how it ends."""

    line: str
    words: list[str]
    given: list[str] = field(default_factory=list)
    shown: list[str] = field(default_factory=list)
    said: list[str] = field(default_factory=list)
    status: int = 0

    def input(self) -> bytes:
        return "".join(line + "\n" for line in self.given).encode()


def read_calls(text: str) -> list[Call]:
    """The calls of a transcript, in order."""
    calls: list[Call] = []
    for line in text.split("\n"):
        mark, rest = line[:2].strip(), line[2:]
        if mark == "$":
            calls.append(Call(rest, words_of(rest)))
        elif mark == "=" and calls:
            calls[-1].status = int(rest)
        elif mark in ("<", "|", "!") and calls:
            {"<": calls[-1].given, "|": calls[-1].shown, "!": calls[-1].said}[mark].append(rest)
    return calls


def words_of(line: str) -> list[str]:
    """The words behind the program's name."""
    return [os.fsdecode(b"\xff") if word == BYTE else word for word in shlex.split(line)[1:]]


def is_like(lines: list[str], wanted: list[str]) -> bool:
    """Whether lines are those wanted, where `..` stands for any lines."""
    if ANY not in wanted:
        return lines == wanted
    at = wanted.index(ANY)
    behind = wanted[at + 1 :]
    starts = range(at, len(lines) + 1)
    return lines[:at] == wanted[:at] and any(is_like(lines[start:], behind) for start in starts)
