"""Reads tools/promises.txt: what each library promises, beside its laws, and what it shows."""
from dataclasses import dataclass, field

from repository import text_of
from sources import Item, Library, module_of

PROMISES = "tools/promises.txt"
# So many contracts at most are shown in full on a library's page.
MOST = 10


@dataclass
class Promises:
    """What the file says of a library: the calls that its page shows in full, what some calls
    promise, and a function that calls it, by its file and its name."""

    shown: list[str] = field(default_factory=list)
    said: list[tuple[list[str], str]] = field(default_factory=list)
    caller: list[str] = field(default_factory=list)

    def calls(self) -> list[str]:
        """Every call that the file names, once."""
        said = [call for calls, _ in self.said for call in calls]
        return list(dict.fromkeys([*self.shown, *said]))


def read_promises(text: str | None = None) -> dict[str, Promises]:
    """What the lines below the name of each library say."""
    found: dict[str, Promises] = {}
    for line in (text_of(PROMISES) if text is None else text).splitlines():
        sign, _, rest = line.partition(" ")
        named, _, said = rest.partition(": ")
        calls = named.split(", ")
        if sign == "<":
            at.caller = rest.split()
        elif sign in ("+", "-"):
            at.shown += calls if sign == "+" else []
            at.said += [(calls, said)] if said else []
        elif sign and sign != "#":
            at = found.setdefault(sign, Promises())
    return found


def is_law(call: Item) -> bool:
    return module_of(call.file) == "laws"


def law_path(call: Item) -> str:
    """The path of a call, with `laws::` in front of a law."""
    return f"laws::{call.name}" if is_law(call) else call.path


def calls_of(library: Library) -> dict[str, Item]:
    """Every public call by its path."""
    free = {law_path(call): call for call in library.calls}
    return free | {call.path: call for item in library.items for call in item.calls}


def items_of(library: Library) -> dict[str, Item]:
    """Every public type and call: what a type promises stands at its implementations of traits."""
    return {item.name: item for item in library.items} | calls_of(library)
